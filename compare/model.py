"""One reader with a switch for each class of difference. With no switch on it reads as document 01 says; with all on it reads as the
crate does. So a difference is explained when the reader without switches gives our answer and the reader with some of them gives the
crate's; its classes are a least set of switches that does. Written from document 01 and from src/parser.rs.

An answer is a pair (number, place) of a refusal, ("X", place) for one that has no number in document 01, ("ok", records) or ("outside", "").
"""
import sys

sys.setrecursionlimit(200000)  # a query in FROM nests without limit in the crate

# docs/DIFFERENCES.md has each of them
SWITCHES = (
    "comma not between postfix infold inparen height depth100 depth1st queries strcol strstar ixcall callall calldist callorder intable"
    " tabfunc parjoin isdist casttype collate fallback semi end joinname rowearly"
).split()
ALL = frozenset(SWITCHES)

ID, KWID, STRING, INDEXED, JOIN_KW, INTEGER, FLOAT, BLOB, VARIABLE, CTIME, NULL, LP, RP, COMMA, DOT, SEMI, STAR, PLUS, MINUS = range(1, 20)
BITNOT, AND, NOT, IS, IN, BETWEEN, LIKE, ISNULL, NOTNULL, COLLATE, CASE = 27, 34, 36, 37, 38, 39, 40, 41, 42, 43, 44
WHEN, THEN, ELSE, END, CAST, AS, EXISTS, SELECT, VALUES, DISTINCT, ALLKW, FROM, JOIN, ON, USING, WHERE = range(45, 61)
GROUP, BY, HAVING, ORDER, ASC, DESC, NULLS, FIRST, LAST, LIMIT, OFFSET = range(61, 72)

STRENGTH = {35: 1, AND: 2, 28: 4, 29: 4, IS: 4, LIKE: 4, IN: 4, BETWEEN: 4, ISNULL: 4, NOTNULL: 4, NOT: 4}
STRENGTH.update({k: 5 for k in (30, 31, 32, 33)})
STRENGTH.update({k: 6 for k in (23, 24, 25, 26)})
STRENGTH.update({PLUS: 7, MINUS: 7, STAR: 8, 20: 8, 21: 8, 22: 9, COLLATE: 10})
FALLBACK = frozenset((ASC, BY, CAST, DESC, END, LIKE, OFFSET, NULLS, FIRST, LAST, CTIME))
STARTS = frozenset((ID, KWID, STRING, INDEXED, JOIN_KW, INTEGER, FLOAT, BLOB, VARIABLE, CTIME, NULL, LP, PLUS, MINUS, BITNOT, CASE, CAST, EXISTS))
FLAGS = {1: 3, 2: 56, 3: 1, 4: 40, 5: 4, 6: 48, 7: 32}
LITERAL = {INTEGER: 24, FLOAT: 25, BLOB: 27, VARIABLE: 28}
NAMES = {ID: 20, KWID: 20, STRING: 21, INDEXED: 22, JOIN_KW: 23}

ABSENT = (0, 0, ())
EMPTY = (4, 0, ())
OUTSIDE = ("outside", 0, ())  # accepted by the crate, with no record in document 01


class Refused(Exception):
    pass


class Reader:
    def __init__(self, kinds, texts, on):
        self.k, self.t, self.n, self.on = kinds + [-1], texts, len(kinds), on
        self.i = self.depth = self.open = self.h = 0
        self.used = set()

    def may(self, switch):
        """Whether the crate's way is to be gone, where the ways part."""
        if switch in self.on:
            self.used.add(switch)
            return True
        return False

    def no(self):
        raise Refused((4 if self.i == self.n else 3, self.i))

    def more(self):
        """The crate looks whether the list goes on before it judges the depth."""
        if self.i == self.n:
            self.no()

    def at(self, kind):
        return self.k[self.i] == kind

    def eat(self, kind):
        if self.k[self.i] != kind:
            self.no()
        self.i += 1

    def maybe(self, kind):
        if self.k[self.i] == kind:
            self.i += 1
            return True
        return False

    # ── names

    def id_at(self, i):
        k = self.k[i]
        return k == ID or k == KWID or (k in FALLBACK and self.may("fallback"))

    def name_at(self, i):
        return self.k[i] in NAMES or self.id_at(i)

    def take(self):
        k = self.k[self.i]
        self.i += 1
        return (NAMES[k], self.t[self.i - 1], ()) if k in NAMES else OUTSIDE

    def name(self):
        if not self.name_at(self.i):
            self.no()
        return self.take()

    def alias(self):
        if self.maybe(AS):
            return 1, self.name()
        if self.at(STRING) or self.id_at(self.i):
            return 2, self.take()
        return 0, ABSENT

    # ── expressions; self.h is the crate's height of the last one, self.left the strongest operator that may go on from it

    def starts(self, least):
        k = self.k[self.i]
        return k in STARTS or (k == NOT and (least <= 10 or self.may("not"))) or self.id_at(self.i)

    def level(self, least):
        """A level begins: in document 01 only where an expression can start."""
        limit = 64
        if self.depth >= limit and self.may("depth100"):
            limit = 100
        if self.depth >= limit:
            if not self.starts(least) and not self.may("depth1st"):
                self.no()
            raise Refused((5, self.i))

    def tall(self, h):
        if h > 100 and self.may("height"):
            raise Refused((5, self.i))

    def expr(self, least=1):
        self.level(least)
        self.depth += 1
        got, bound = self.operand(least)
        height = self.h
        self.tall(height)
        while True:
            s = STRENGTH.get(self.k[self.i], 0)
            if s == 0 or s < least:
                break
            if s > bound and not self.may("postfix"):
                break
            got, height = self.operator(got, s, height)
            bound = min(s, self.left)
            self.tall(height)
        self.h = height
        self.left = bound
        self.depth -= 1
        return got

    def operator(self, left, s, height):
        negated = self.maybe(NOT)
        k = self.k[self.i]
        if negated and k not in (BETWEEN, IN, LIKE, NULL):
            self.no()
        self.i += 1
        leaf = False
        if negated and k == NULL:
            got = (40, 42, (left,))
        elif k == ISNULL or k == NOTNULL:
            got = (40, k, (left,))
        elif k == COLLATE:
            if self.k[self.i] in (INDEXED, JOIN_KW) and self.may("collate"):
                self.no()
            got = (44, 0, (left, self.name()))
        elif k == BETWEEN:
            low = self.expr(4 if self.may("between") else 5)
            h = self.h
            self.eat(AND)
            high = self.expr(5)
            self.h = max(h, self.h)
            got = (43, int(negated), (left, low, high))
        elif k == IN:
            got, leaf = self.inside(left, int(negated))
        elif k == LIKE:
            text = self.t[self.i - 1]
            got = (39, (300 if negated else 200) + text, (left, self.expr(5)))
        elif k == IS:
            other = self.maybe(NOT)
            if self.at(DISTINCT) and self.may("isdist"):
                self.i += 1
                self.eat(FROM)
                other = not other
            else:
                self.more()
            got = (39, 137 if other else IS, (left, self.expr(5)))
        else:
            got = (39, k, (left, self.expr(s + 1)))
        if got[0] not in (39, 43):
            self.left = 12  # nothing to its right
        return got, 1 if leaf else 1 + max(height, self.h)

    def inside(self, left, negated):
        """After IN."""
        if not self.at(LP):
            if self.name_at(self.i) and self.may("intable"):
                self.take()
                if self.maybe(DOT):
                    self.name()
                if self.maybe(LP):
                    self.exprs()
                    self.eat(RP)
                return (*OUTSIDE[:2], (left,)), False
            self.no()
        self.i += 1
        if self.k[self.i] in (SELECT, VALUES):
            q = self.query()
            self.eat(RP)
            self.h = 1
            return (42, negated, (left, q)), False
        members = self.exprs()
        self.eat(RP)
        if not members and self.may("infold"):
            return (99, negated, ()), True
        if len(members) == 1:
            inner = members[0]
            while inner[0] == 33 and len(inner[2]) == 1:
                inner = inner[2][0]
            if inner[0] == 34 and self.may("inparen"):
                self.h = 1
                return (42, negated, (left, inner[2][0])), False
        return (41, negated, (left, (4, 0, tuple(members)))), False

    def exprs(self):
        """A list that may be empty, up to RP."""
        got, h = [], 0
        while self.starts(1):
            got.append(self.expr())
            h = max(h, self.h)
            if not self.maybe(COMMA):
                break
            if not self.starts(1) and not self.may("comma"):
                self.no()
        self.h = h
        return got

    def some(self):
        """A list of one or more."""
        got = [self.expr()]
        h = self.h
        while self.maybe(COMMA):
            got.append(self.expr())
            h = max(h, self.h)
        self.h = h
        return got

    def operand(self, least):
        """The operand and its strength."""
        self.h = 1
        if not self.starts(least):
            self.no()
        k, t = self.k[self.i], self.t[self.i]
        if k in NAMES or (k in FALLBACK and k not in (CAST, CTIME)):
            return self.named(k), 12
        self.i += 1
        if k in LITERAL:
            return (LITERAL[k], t, ()), 12
        if k == NULL:
            return (30, 0, ()), 12
        if k == CTIME:
            return (29, t, ()), 12
        if k == LP:
            self.more()
            if self.k[self.i] in (SELECT, VALUES):
                got = (34, 0, (self.query(),))
                self.eat(RP)
                self.h = 1
                return got, 12
            got = (33, 0, tuple(self.some()))
            self.eat(RP)
            self.h += 1
            return got, 12
        if k == NOT:
            got = (38, NOT, (self.expr(3),))
            self.h += 1
            return got, min(3, self.left)
        if k in (PLUS, MINUS, BITNOT):
            got = (38, k, (self.expr(11),))
            self.h += 1
            return got, min(11, self.left)
        if k == EXISTS:
            self.eat(LP)
            got = (35, 0, (self.query(),))
            self.eat(RP)
            self.h = 1
            return got, 12
        if k == CAST:
            self.eat(LP)
            e = self.expr()
            self.eat(AS)
            t = self.type()
            self.eat(RP)
            self.h += 1
            return (37, 0, (e, t)), 12
        return self.case(), 12

    def case(self):
        got, h = [ABSENT], 0

        def one():
            nonlocal h
            got.append(self.expr())
            h = max(h, self.h)

        self.more()
        if not self.at(WHEN):
            got.clear()
            one()
        self.eat(WHEN)
        while True:
            one()
            self.eat(THEN)
            one()
            if not self.maybe(WHEN):
                break
        if self.maybe(ELSE):
            one()
        else:
            got.append(ABSENT)
        self.eat(END)
        self.h = 1 + h
        return (36, 0, tuple(got))

    def type(self):
        """After CAST ( expression AS."""
        if not self.may("casttype"):
            return self.name()
        words = []
        while self.at(STRING) or self.id_at(self.i):
            words.append(self.take())
        if not words:
            return OUTSIDE  # no type
        if self.maybe(LP):
            self.signed()
            if self.maybe(COMMA):
                self.signed()
            self.eat(RP)
            return OUTSIDE
        return words[0] if len(words) == 1 else OUTSIDE

    def signed(self):
        if self.k[self.i] not in (FLOAT, INTEGER, PLUS, MINUS):
            self.no()
        e, _ = self.operand(1)
        if e[0] == 38 and e[2][0][0] not in (24, 25):
            raise Refused(("X", self.i))

    def named(self, k):
        """An operand that begins with a name: a column's names, a call, a STRING."""
        first = self.take()
        if self.at(LP) and k != STRING and (k != INDEXED or self.may("ixcall")):
            return self.call(first)
        names = [first]
        if self.at(DOT) and (k != STRING or self.may("strcol")):
            while len(names) < 3 and self.maybe(DOT):
                names.append(self.name())
        if k == STRING and len(names) == 1:
            return (26, first[1], ())
        return (31, 0, tuple(names))

    def call(self, name):
        self.eat(LP)
        if self.maybe(STAR):
            self.eat(RP)
            self.h = 1
            return (32, 2, (name, EMPTY))
        strange, distinct = False, 0
        if self.maybe(DISTINCT):
            distinct = 1
        elif self.at(ALLKW) and self.may("callall"):
            self.i += 1
            strange = True
        got = self.exprs()
        h = self.h
        if distinct and not got:
            if not self.may("calldist"):
                self.no()
            strange = True
        if self.at(ORDER) and self.may("callorder"):
            self.i += 1
            self.eat(BY)
            self.sorts()
            h = max(h, self.h)
            strange = True
        self.eat(RP)
        self.h = 1 + h
        return OUTSIDE if strange else (32, distinct, (name, (4, 0, tuple(got))))

    # ── queries

    def query(self):
        if self.k[self.i] not in (SELECT, VALUES):
            self.no()
        self.open += 1
        if self.open > 16 and not self.may("queries"):
            raise Refused((6, self.i))
        body = self.values() if self.at(VALUES) else self.select()
        order, limit, offset = ABSENT, ABSENT, ABSENT
        if self.maybe(ORDER):
            self.eat(BY)
            order = (4, 0, tuple(self.sorts()))
        if self.maybe(LIMIT):
            limit = self.expr()
            if self.maybe(COMMA):
                limit, offset = self.expr(), limit
            elif self.maybe(OFFSET):
                offset = self.expr()
        self.open -= 1
        return (1, 0, (body, order, limit, offset))

    def sorts(self):
        got, h = [], 0
        while True:
            e = self.expr()
            h = max(h, self.h)
            d = 1 if self.maybe(ASC) else 2 if self.maybe(DESC) else 0
            if self.maybe(NULLS):
                if self.k[self.i] not in (FIRST, LAST):
                    self.no()
                d += 4 if self.at(FIRST) else 8
                self.i += 1
            got.append((14, d, (e,)))
            if not self.maybe(COMMA):
                self.h = h
                return got

    def values(self):
        self.i += 1
        rows = []
        while True:
            self.eat(LP)
            row = self.some()
            wrong = rows and len(row) != len(rows[0][2])
            if wrong and (self.at(RP) or self.may("rowearly")):
                raise Refused((8, self.i))
            self.eat(RP)
            rows.append((4, 0, tuple(row)))
            if not self.maybe(COMMA):
                return (3, 0, tuple(rows))

    def select(self):
        self.i += 1
        d = 1 if self.maybe(DISTINCT) else 2 if self.maybe(ALLKW) else 0
        columns = [self.column()]
        while self.maybe(COMMA):
            columns.append(self.column())
        source = where = group = having = ABSENT
        if self.maybe(FROM):
            source = self.sources()
        if self.maybe(WHERE):
            where = self.expr()
        if self.maybe(GROUP):
            self.eat(BY)
            group = (4, 0, tuple(self.some()))
        if self.maybe(HAVING):
            having = self.expr()
            group = EMPTY if group is ABSENT else group
        return (2, d, ((4, 0, tuple(columns)), source, where, group, having))

    def column(self):
        self.more()
        if self.maybe(STAR):
            return (5, 0, ())
        i = self.i
        if self.name_at(i) and self.k[i + 1 : i + 3] == [DOT, STAR] and (self.k[i] != STRING or self.may("strstar")):
            if not self.may("depth1st"):
                self.level(1)
            name = self.take()
            self.i += 2
            return (6, 0, (name,))
        e = self.expr()
        mode, alias = self.alias()
        return (7, mode, (e, alias))

    def sources(self):
        joined = [self.source()]
        while True:
            if self.maybe(COMMA):
                d = 0
            elif self.at(JOIN) or self.at(JOIN_KW):
                d = self.join()
            else:
                return (8, 0, tuple(joined))
            s = self.source()
            on = ABSENT
            if self.maybe(ON):
                on = (10, 0, (self.expr(),))
            elif self.maybe(USING):
                self.eat(LP)
                names = [self.name()]
                while self.maybe(COMMA):
                    names.append(self.name())
                self.eat(RP)
                on = (11, 0, tuple(names))
            joined.append((9, d, (s, on)))

    def join(self):
        flags, words, strange = 0, 0, False
        while not self.at(JOIN):
            if words == 3:
                self.no()
            if self.at(JOIN_KW):
                flags |= FLAGS[self.t[self.i]]
            elif words and self.name_at(self.i) and self.may("joinname"):
                strange = True
            else:
                self.no()
            words += 1
            self.i += 1
        if strange or flags & 33 == 33 or flags & 56 == 32:
            raise Refused((7, self.i))
        self.i += 1
        return 64 + flags

    def source(self):
        if self.maybe(LP):
            if self.k[self.i] in (SELECT, VALUES):
                q = self.query()
                self.eat(RP)
                mode, alias = self.alias()
                return (13, mode, (q, alias))
            if (self.at(LP) or self.name_at(self.i)) and self.may("parjoin"):
                self.sources()
                self.eat(RP)
                self.alias()
                return OUTSIDE
            self.no()
        schema, name = ABSENT, self.name()
        if self.maybe(DOT):
            schema, name = name, self.name()
        if self.at(LP) and self.may("tabfunc"):
            self.i += 1
            self.exprs()
            self.eat(RP)
            self.alias()
            return OUTSIDE
        mode, alias = self.alias()
        index = ABSENT
        if self.maybe(INDEXED):
            self.eat(BY)
            index = self.name()
            mode += 4
        elif self.maybe(NOT):
            self.eat(INDEXED)
            mode += 8
        return (12, mode, (schema, name, alias, index))

    # ── the command

    def command(self):
        if "semi" not in self.on:
            got = OUTSIDE if self.end() else self.query()
            self.maybe(SEMI)
            if self.i < self.n:
                self.no()
            return got
        got = []
        if self.n == 0 or self.at(SEMI):
            self.used.add("semi")
        while self.maybe(SEMI):
            pass
        while self.i < self.n:
            got.append(OUTSIDE if self.end() else self.query())
            if self.i < self.n and not self.at(SEMI):
                self.no()
            before = self.i
            while self.maybe(SEMI):
                pass
            if self.i > before + 1 or self.i < self.n:
                self.used.add("semi")
        return got[0] if len(got) == 1 else OUTSIDE

    def end(self):
        """END alone is a command of the crate's."""
        if self.at(END) and self.may("end"):
            self.i += 1
            return True
        return False


def written(tree):
    """The records of a tree, or None where it has a part with no record."""
    out = []

    def put(node):
        code, detail, children = node
        if code == "outside":
            return False
        before = len(out)
        for c in children:
            if not put(c):
                return False
        out.append("%d,%d,%d,%d" % (code, detail, len(children), len(out) - before + 1))
        return True

    return " ".join(out) if put(tree) else None


def answer(kinds, texts, on):
    """The answer with these switches on, and those that had a say."""
    r = Reader(kinds, texts, on)
    try:
        records = written(r.command())
    except Refused as e:
        return e.args[0], r.used
    return (("outside", "") if records is None else ("ok", records)), r.used


def classes(kinds, texts, ours, crate):
    """A least set of switches by which document 01's reader gives the crate's answer, or None."""
    if answer(kinds, texts, frozenset())[0] != ours:
        return None
    got, used = answer(kinds, texts, ALL)
    if got != crate or answer(kinds, texts, frozenset(used))[0] != crate:
        return None
    for s in SWITCHES:
        if s in used and len(used) > 1 and answer(kinds, texts, frozenset(used - {s}))[0] == crate:
            used = used - {s}
    return tuple(s for s in SWITCHES if s in used)
