#!/usr/bin/env python3
"""How SQLite groups where NOT stands to the right of a tighter operator, beside document 01 and the crate. SQLite shows no tree, so values tell it.

    compare/sqlite.py [-v]    a line a case; -v: also of those that are made from lists of operators

A case is an expression over c1 to c4. Our reader and the crate read it (compare/build.sh builds both programs); their records give their grouping,
as SQL with all its parentheses. Beside it stand all other groupings of the same tokens. SQLite then says what the expression gives and what each
grouping gives, for every choice of VALUES: it groups in the one way that always gives the same. Where document 01 refuses, the crate's grouping is
the one that is looked for. COLLATE shows only below a comparison, so one follows it. Exit status 1 where SQLite groups in another way, or where that
way cannot be told from another by these values.
"""
import functools
import sqlite3
import subprocess
import sys
from pathlib import Path

TARGET = Path(__file__).resolve().parent.parent / "target" / "compare"
VALUES = (None, 0, 1, 2, -1, "a", "A")
KINDS = {w: str(k) for k, w in enumerate("|| & | << >> ~ = <> < <= > >= AND OR NOT IS IN BETWEEN".split(), 22)}
KINDS |= {"NULL": "11", "(": "12", ")": "13", ",": "14", "*": "17", "+": "18", "-": "19", "/": "20", "%": "21", "ISNULL": "41", "NOTNULL": "42", "COLLATE": "43"}
KINDS |= {"LIKE": "40.1", "GLOB": "40.2", "REGEXP": "40.3", "NOCASE": "1.9"} | {f"c{n}": f"1.{n}" for n in range(1, 5)} | {str(n): f"6.{n}" for n in range(1, 9)}
WORDS = {k: w for w, k in KINDS.items()}
LIKES = {200: "", 300: "NOT "}
PREFIX = ("NOT", "-", "+", "~")
RIGHT = "= <> LIKE GLOB REGEXP < <= > >= & | << >> + - * / % ||".split()  # strengths 4 to 9; IS is not among them
BINARY = ["IS NOT", "IS", *(f"NOT {x}" for x in ("LIKE", "GLOB", "REGEXP")), *RIGHT]
ENDS = ["ISNULL", "NOTNULL", "NOT NULL", "IN ( 1 , 2 )", "NOT IN ( 1 , 2 )"]
AFTER = [*(f"{x} c3" for x in (*BINARY, "AND", "OR")), *ENDS, "COLLATE NOCASE = c3", "BETWEEN c3 AND c4", "NOT BETWEEN c3 AND c4"]

# by name: what document 01 is asked about NOT to the right
CASES = """
c1 = NOT c2 AND c3
c1 = NOT c2 = c3
c1 IS NOT NOT c2
c1 IS NOT NOT c2 = c3
c1 IS NOT c2
c1 + NOT c2 = c3
c1 + NOT NOT c2 + c3
c1 < NOT c2 < NOT c3
c1 * NOT c2 + NOT c3 = c4
c1 BETWEEN NOT c2 AND NOT c3
c1 BETWEEN NOT c2 AND c3 AND c4
c1 BETWEEN NOT c2 AND NOT c3 AND c4
c1 BETWEEN c2 AND NOT c3 AND c4
c1 NOT BETWEEN NOT c2 AND NOT c3 OR c4
NOT c1 = NOT c2
NOT c1 + NOT c2 AND c3
- c1 + NOT c2 = c3
c1 < NOT c2 COLLATE NOCASE = c3
- NOT c1
- NOT c1 + c2
- NOT c1 = c2
~ NOT c1 * c2
+ NOT c1 ISNULL
- NOT c1 AND c2
c1 + - NOT c2 = c3
c1 + NOT c2 ISNULL + c3
c1 * NOT c2 ISNULL + c3
c1 = NOT c2 NOT NULL * c3
c1 + NOT c2 IN ( 1 , 2 ) || c3
c1 BETWEEN NOT c2 ISNULL + c3 AND c4
NOT c1 ISNULL + c2
c1 ISNULL + c2
c1 NOT NULL * c2
c1 NOTNULL < c2
c1 IN ( 1 ) || c2
c1 + c2 ISNULL + c3
c1 ISNULL + c2 * c3
c1 = c2 NOT NULL < c3
c1 BETWEEN c2 = c3 AND c4
c1 BETWEEN c2 = c3 AND c4 = c1
c1 BETWEEN c2 = c3 AND c4 AND c1
c1 = c2 BETWEEN c3 <> c4 AND c1
c1 BETWEEN c2 ISNULL AND c3
c1 BETWEEN c2 BETWEEN c3 AND c4 AND c1
""".strip().split("\n")
# after each operator, in each bound: everything that can come next
MADE = {f"c1 {x} NOT c2 ..": [f"c1 {x} NOT c2 {y}" for y in AFTER] for x in BINARY if x != "IS"}
BOUND = [f"{x} c4" for x in BINARY] + ENDS + ["COLLATE NOCASE = c4"]
MADE["c1 BETWEEN NOT c2 .. AND c3"] = [f"c1 BETWEEN NOT c2 {y} AND c3" for y in BOUND]
MADE["c1 BETWEEN c2 AND NOT c3 .."] = [f"c1 BETWEEN c2 AND NOT c3 {y}" for y in (*BOUND, "AND c4", "OR c4")]


def tokens(text):
    return "52 " + " ".join(KINDS[w] for w in text.split())


def answers(program, texts):
    got = subprocess.run([str(TARGET / program)], input="".join(tokens(x) + "\n" for x in texts), capture_output=True, text=True, check=True).stdout
    return got.split("\n")[:-1]


def grouped(records):
    """The expression of SELECT expression, with all parentheses."""
    stack = []
    for r in records.split():
        code, detail, count, _ = map(int, r.split(","))
        parts = stack[len(stack) - count :]
        del stack[len(stack) - count :]
        if code == 7:
            return parts[0]
        if code in (20, 24):
            got = WORDS[f"{1 if code == 20 else 6}.{detail}"]
        elif code == 31:
            got = parts[0]
        elif code == 38:
            got = f"({WORDS[str(detail)]} {parts[0]})"
        elif code == 39:
            word = "IS NOT" if detail == 137 else LIKES[detail // 100 * 100] + WORDS[f"40.{detail % 100}"] if detail > 137 else WORDS[str(detail)]
            got = f"({parts[0]} {word} {parts[1]})"
        elif code == 40:
            got = f"({parts[0]} {WORDS[str(detail)]})"
        elif code == 4:
            got = "( " + " , ".join(parts) + " )"
        elif code == 41:
            got = f"({parts[0]} {'NOT ' * detail}IN {parts[1]})"
        elif code == 43:
            got = f"({parts[0]} {'NOT ' * detail}BETWEEN {parts[1]} AND {parts[2]})"
        elif code == 44:
            got = f"({parts[0]} COLLATE {parts[1]})"
        stack.append(got)


def groupings(text):
    """Every tree over the words of an expression, whatever the strengths."""
    words = text.split()

    @functools.cache
    def over(i, j):
        if j == i + 1:
            return [words[i]] if words[i][0] == "c" else []
        got = [f"({words[i]} {x})" for x in over(i + 1, j)] if words[i] in PREFIX else []
        for m in range(i + 1, j):
            rest = " ".join(words[m:j])
            if rest in ("ISNULL", "NOTNULL", "NOT NULL"):
                got += [f"({x} {rest.replace('NOT NULL', 'NOTNULL')})" for x in over(i, m)]
            if words[m] == "COLLATE" and j == m + 2 or rest.startswith(("IN (", "NOT IN (")) and rest.index(")") == len(rest) - 1:
                got += [f"({x} {rest})" for x in over(i, m)]
            for n in (1, 2):
                word = " ".join(words[m : m + n])
                if word in (*BINARY, "AND", "OR"):
                    got += [f"({x} {word} {y})" for x in over(i, m) for y in over(m + n, j)]
                if word in ("BETWEEN", "NOT BETWEEN"):
                    ands = [k for k in range(m + n + 1, j) if words[k] == "AND"]
                    got += [f"({x} {word} {y} AND {z})" for k in ands for x in over(i, m) for y in over(m + n, k) for z in over(k + 1, j)]
        return got

    return over(0, len(words))


def asked(base, text, ours, crate):
    """What there is to say of a case, and whether all is well."""
    own = grouped(ours.partition(" : ")[2]) if ours[0] == "0" else None
    its = grouped(crate[3:]) if crate.startswith("ok ") else None
    ways = groupings(text)
    if (own or its) not in ways:
        return f"not among the groupings: {own or its}", False
    names = [n for n in ("c1", "c2", "c3", "c4") if n in text]
    rows = base.execute(f"SELECT {', '.join((text, *ways))} FROM {', '.join(f'(SELECT x AS {n} FROM v)' for n in names)}").fetchall()
    agree = [w for w, got in zip(ways, list(zip(*rows))[1:]) if all(type(x) is type(y) and x == y for x, y in zip(got, (r[0] for r in rows)))]
    said = f"document 01 {own or 'refuses, %s at %s' % tuple(ours.split())}"
    if its != own:
        said += f"; the crate {its or crate}"
    if agree == [own or its]:
        rest = f"and as none of the others ({len(ways) - 1})" if len(ways) > 1 else "the only grouping"
        return f"{said}; SQLite as {'document 01' if own else 'the crate'}, {rest}", True
    return f"{said}; SQLITE AS {' AND AS '.join(agree) or 'NONE'}", False


def main():
    base = sqlite3.connect(":memory:")
    base.create_function("regexp", 2, lambda y, x: None if x is None or y is None else int(str(x) >= str(y)), deterministic=True)
    base.execute("CREATE TABLE v (x)")
    base.executemany("INSERT INTO v VALUES (?)", [(v,) for v in VALUES])
    print(f"SQLite {sqlite3.sqlite_version}")
    every, well, refused = 0, 0, 0
    for family, cases in [("", CASES), *MADE.items()]:
        right, new = 0, 0
        for text, o, c in zip(cases, answers("drive", cases), answers("crate/release/oracle", cases)):
            said, good = asked(base, text, o, c)
            right += good
            new += good and o[0] != "0"
            if not family or not good or "-v" in sys.argv:
                print(f"{text}: {said}")
        if family:
            print(f"{family}, {len(cases)} cases: {right - new} as document 01" + (f", {new} refused by it and as the crate" if new else ""))
        every, well, refused = every + len(cases), well + right, refused + new
    print(f"{every} cases: SQLite as document 01 {well - refused}, refused by it and as the crate {refused}, otherwise {every - well}")
    return 1 if every > well else 0


sys.exit(main())
