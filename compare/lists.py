"""Lists of tokens for the comparison: each is a string, `kind` or `kind.text` parted by blanks."""
import itertools
import random

KINDS = range(1, 72)


def token(k, r=None):
    """A kind with a text number, where document 01 reads one."""
    most = {5: 7, 10: 3, 40: 3}.get(k, 9 if k <= 9 else 0)
    return f"{k}.{r.randint(1, most) if r else 1}" if most else str(k)


# ── every short list

# one or two of each sort: name, STRING, INDEXED, JOIN_KW, number, brackets, marks, operators of each way, the words of a query
FEW = (1, 3, 4, 5, 6, 12, 13, 14, 15, 17, 18, 28, 34, 36, 37, 38, 39, 41, 52, 53, 54, 56, 57, 64, 62, 70)
# what can stand in an expression
INNER = (1, 3, 6, 11, 12, 13, 14, 17, 22, 27, 28, 30, 34, 36, 37, 38, 39, 40, 41, 43, 52, 54, 65)
# what can stand after FROM
JOINED = (1, 3, 4, 5, 12, 13, 14, 15, 36, 50, 52, 56, 57, 58, 59, 60, 62)


def every(begin, kinds, count):
    words = [token(k) for k in kinds]
    for n in range(count + 1):
        for w in itertools.product(words, repeat=n):
            yield " ".join((*begin, *w))


def short():
    yield from every((), KINDS, 2)
    yield from every(("52",), KINDS, 3)
    yield from every((), FEW, 3)
    yield from every(("52",), FEW, 4)
    yield from every(("52", "1.1"), INNER, 4)
    yield from every(("52", "17", "56", "1.1"), JOINED, 4)
    yield from every(("52", "1.1", "56"), KINDS, 2)
    yield from every(("53", "12", "6.1"), (6, 12, 13, 14, 18, 52, 17, 64, 62, 70, 16), 5)
    yield from every(("52", "49", "12", "1.1", "50"), (1, 2, 3, 4, 5, 6, 7, 12, 13, 14, 19, 65), 4)
    yield from every(("52", "44"), (1, 6, 45, 46, 47, 48, 36, 14), 5)
    yield from every(("52", "1.1", "64", "62", "1.2"), (14, 65, 66, 67, 68, 69, 70, 71, 6), 4)
    yield from every(("52", "1.1", "12"), (1, 13, 14, 17, 54, 55, 64, 62, 65, 36), 4)
    yield from every(("52", "1.1", "38", "12", "12"), (1, 6, 12, 13, 14, 17, 52), 4)
    yield from every("53 12 6.1 13 14 12 6.1 14 6.1".split(), KINDS, 1)


# ── document 01's grammar, at random


class Grammar:
    nots = 0  # how often NOT begins an operand of an operator tighter than it, or a bound

    def __init__(self, r):
        self.r, self.out, self.room = r, [], 0

    def put(self, *kinds):
        for k in kinds:
            self.out.append(token(k, self.r))
        self.room -= len(kinds)

    def may(self, p):
        return self.room > 0 and self.r.random() < p

    def many(self, one, p=0.4):
        one()
        while self.may(p):
            self.put(14)
            one()

    def name(self):
        self.put(self.r.choice((1, 1, 1, 2, 3, 4, 5)))

    def alias(self):
        if self.may(0.3):
            if self.r.random() < 0.5:
                self.put(50)
                self.name()
            else:
                self.put(self.r.choice((1, 2, 3)))

    def query(self):
        if self.may(0.15):
            self.put(53)
            self.rows()
        else:
            self.select()
        if self.may(0.2):
            self.put(64, 62)
            self.many(self.term)
        if self.may(0.2):
            self.put(70)
            self.expr(1)
            if self.may(0.5):
                self.put(self.r.choice((14, 71)))
                self.expr(1)

    def rows(self):
        width = self.r.choice((1, 1, 2, 3))

        def row():
            self.put(12)
            for i in range(width if self.r.random() < 0.98 else width + 1):
                if i:
                    self.put(14)
                self.expr(1)
            self.put(13)

        self.many(row)

    def term(self):
        self.expr(1)
        if self.may(0.4):
            self.put(self.r.choice((65, 66)))
        if self.may(0.3):
            self.put(67, self.r.choice((68, 69)))

    def select(self):
        self.put(52)
        if self.may(0.2):
            self.put(self.r.choice((54, 55)))
        self.many(self.column)
        if self.may(0.6):
            self.put(56)
            self.source()
            while self.may(0.4):
                self.join()
        if self.may(0.3):
            self.put(60)
            self.expr(1)
        if self.may(0.2):
            self.put(61, 62)
            self.many(lambda: self.expr(1))
        if self.may(0.15):
            self.put(63)
            self.expr(1)

    def column(self):
        c = self.r.random()
        if c < 0.1:
            self.put(17)
        elif c < 0.2:
            self.put(self.r.choice((1, 2, 4, 5)), 15, 17)
        else:
            self.expr(1)
            self.alias()

    def join(self):
        if self.may(0.3):
            self.put(14)
        else:
            self.put(*[5] * self.r.choice((0, 1, 1, 2, 3)), 57)
        self.source()
        if self.may(0.3):
            self.put(58)
            self.expr(1)
        elif self.may(0.2):
            self.put(59, 12)
            self.many(self.name)
            self.put(13)

    def source(self):
        if self.may(0.2):
            self.put(12)
            self.query()
            self.put(13)
            self.alias()
            return
        self.name()
        if self.may(0.2):
            self.put(15)
            self.name()
        self.alias()
        if self.may(0.1):
            self.put(4, 62)
            self.name()
        elif self.may(0.1):
            self.put(36, 4)

    BINARY = {1: (35,), 2: (34,), 4: (28, 29, 37), 5: (30, 31, 32, 33), 6: (23, 24, 25, 26), 7: (18, 19), 8: (17, 20, 21), 9: (22,)}

    def expr(self, least, ends=True, begins=True):
        """An expression of the strength `least` or more; it may end in a NOT to the right, and begin with one."""
        if self.nots and ends and begins and 3 < least < 11 and self.may(self.nots):
            self.put(36)
            return self.expr(3)
        s = 12 if self.room <= 0 else self.r.choice((1, 2, 3, 4, 4, 4, 5, 6, 7, 8, 9, 10, 11, 12, 12, 12, 12, 12, 12, 12, 12, 12))
        if s < least or s == 12:
            return self.primary()
        if s == 3:
            self.put(36)
            self.expr(3, ends)
        elif s == 11:
            self.put(self.r.choice((18, 19, 27)))
            self.expr(11)
        elif s == 10:
            self.expr(10, False)
            self.put(43)
            self.name()
        elif s == 4 and self.r.random() < 0.6:
            self.special(ends)
        else:
            self.expr(s, s < 3)
            k = self.r.choice(self.BINARY[s])
            self.put(k)
            negated = k == 37 and self.r.random() < 0.3
            if negated:
                self.put(36)
            self.expr(s + 1, ends, k != 37 or negated)

    def special(self, ends):
        self.expr(4, False)
        c = self.r.randrange(5)
        if c == 0:
            self.put(*self.r.choice(((41,), (42,), (36, 11))))
            return
        if self.r.random() < 0.3:
            self.put(36)
        if c == 1:
            self.put(40)
            self.expr(5, ends)
        elif c == 2:
            self.put(39)
            self.expr(5)
            self.put(34)
            self.expr(5, ends)
        else:
            self.put(38, 12)
            if c == 3 and self.room > 0:
                self.query()
            elif self.r.random() < 0.9:
                self.many(lambda: self.expr(1))
            self.put(13)

    def primary(self):
        c = self.r.randrange(20) if self.room > 0 else self.r.randrange(10)
        if c < 4:
            self.put(self.r.choice((3, 6, 7, 8, 9, 10, 11)))
        elif c < 10:
            self.put(self.r.choice((1, 1, 1, 2, 4, 5)))
            for _ in range(self.r.choice((0, 0, 0, 1, 2))):
                self.put(15)
                self.name()
        elif c < 13:
            self.put(self.r.choice((1, 1, 2, 5)), 12)
            d = self.r.randrange(4)
            if d == 1:
                self.put(17)
            elif d > 1:
                if d == 3:
                    self.put(54)
                self.many(lambda: self.expr(1))
            self.put(13)
        elif c < 15:
            self.put(12)
            self.many(lambda: self.expr(1), 0.2)
            self.put(13)
        elif c < 17:
            self.put(*self.r.choice(((12,), (51, 12))))
            self.query()
            self.put(13)
        elif c < 19:
            self.put(44)
            if self.may(0.4):
                self.expr(1)
            while True:
                self.put(45)
                self.expr(1)
                self.put(46)
                self.expr(1)
                if not self.may(0.3):
                    break
            if self.may(0.4):
                self.put(47)
                self.expr(1)
            self.put(48)
        else:
            self.put(49, 12)
            self.expr(1)
            self.put(50)
            self.name()
            self.put(13)

    def command(self, room):
        self.out, self.room = [], room
        self.query()
        if self.r.random() < 0.1:
            self.put(16)
        return self.out


def damaged(words, r):
    """A token changed, dropped, doubled, put in, or swapped with the next; now and then the end cut off."""
    words = list(words)
    for _ in range(r.choice((1, 1, 1, 2, 3))):
        if not words:
            break
        i, way = r.randrange(len(words)), r.randrange(6)
        if way == 0:
            words[i] = token(r.choice(KINDS), r)
        elif way == 1:
            del words[i]
        elif way == 2:
            words.insert(i, words[i])
        elif way == 3:
            words.insert(i, token(r.choice(KINDS), r))
        elif way == 4 and i + 1 < len(words):
            words[i], words[i + 1] = words[i + 1], words[i]
        elif way == 5 and r.random() < 0.3:
            del words[i:]
    return words


def random_lists(count, seed):
    r = random.Random(seed)
    g = Grammar(r)
    for n in range(count):
        words = g.command(r.choice((4, 8, 15, 30, 60)))
        yield " ".join(words if n % 3 == 0 else damaged(words, r))


def nots(count, seed):
    """NOT to the right, in 3 to 30 tokens: half by document 01's grammar, half damaged, mostly by a NOT more."""
    r = random.Random(seed)
    g = Grammar(r)
    g.nots = 0.5
    n = 0
    while n < count:
        if r.random() < 0.2:
            words = g.command(r.choice((8, 15, 25)))
        else:
            g.out, g.room = ["52"], r.choice((4, 8, 15, 25))
            g.expr(r.choice((1, 2, 4, 4, 5, 6, 7, 8, 9)), True, False)
            words = g.out
        if n % 2:
            for _ in range(r.choice((0, 1, 1, 2))):
                words.insert(r.randint(1, len(words)), "36")
            words = damaged(words, r) if r.random() < 0.6 else words
        if "36" in words and 3 <= len(words) <= 30:
            n += 1
            yield " ".join(words)


# ── deep ones: each way of nesting, mixed, about the limits of both; and long chains

# before and after what is nested, and what it costs: levels, queries
WAYS = (
    ("12", "13"), ("36", ""), ("19", ""), ("27", ""), ("12 52", "13"), ("51 12 52", "13"), ("1.1 38 12", "13"), ("1.1 38 12 52", "13"),
    ("1.1 12", "13"), ("44 45", "46 6.1 48"), ("44", "45 6.1 46 6.2 48"), ("49 12", "50 1.1 13"), ("1.1 18", ""), ("6.1 39", "34 6.2"),
    ("12 52 17 56 12 52", "13 13"), ("12 53 12", "13 13"), ("1.1 14 12", "13"), ("12 52 17 60", "13"),
)
LAST = ("1.1", "6.1", "1.1 15 17", "36 1.1", "17", "13", "", "1.1 41", "52 17", "1.1 41 18 6.1", "3.1 15 1.1", "65", "1.1 38 12 13")


def deep(count, seed):
    r = random.Random(seed)
    for n in range(count):
        ways = r.sample(WAYS, r.choice((1, 1, 2, 3)))
        nested = [r.choice(ways) for _ in range(r.choice((60, 61, 62, 63, 64, 65, 66, 70, 97, 98, 99, 100, 101, 103)))]
        # queries in FROM cost no level
        if r.random() < 0.2:
            nested[r.randrange(len(nested)) :] = [("12 52 17 56 12 52", "13 13")] * r.choice((1, 5, 14, 15, 16, 30))
        words = ["52"] + [w for w, _ in nested] + [r.choice(LAST)] + [w for _, w in reversed(nested)]
        words = " ".join(words).split()
        yield " ".join(words if n % 2 else damaged(words, r))
    for n in [*range(1, 20), *range(40, 50), 200, 400]:
        yield " ".join(["52 17 56 12"] * n + ["52 17"] + ["13"] * n)
        yield " ".join(["52 12"] * n + ["52 17"] + ["13"] * n)
        yield " ".join(["52 12"] * n + ["52"])
    chains = ("18 1.1", "34 1.1", "22 1.1", "41", "36 11", "43 1.1", "38 12 1.1 13", "40.1 1.1", "39 6.1 34 6.2", "38 12 52 17 13", "38 12 13")
    for n in range(95, 106):
        for c in chains:
            for first in ("1.1", "12 1.1 13", "19 1.1", "1.1 12 1.1 18 1.1 13"):
                yield " ".join(["52", first] + [c] * n)
                yield " ".join(["52", first] + [c] * n + ["41 18 1.1"])
    for n in range(700, 800):
        yield " ".join(["52", "1.1"] + ["18 1.1"] * n)


def unfit(count, seed):
    """A token that no list may have: refusal 2 of document 01; and one list too long, refusal 1."""
    r = random.Random(seed)
    g = Grammar(r)
    for _ in range(count):
        words = g.command(15)
        words[r.randrange(len(words))] = r.choice(("0", "72", "5", "5.8", "40", "40.4", "4000000000"))
        yield " ".join(words)
    yield " ".join(["52"] + ["1.1 14"] * 2047 + ["1.1 1.1"])


def with_kwid(count, seed):
    r = random.Random(seed)
    g = Grammar(r)
    words = [token(k, r) for k in (1, 2, 3, 6, 12, 13, 14, 15, 50, 52, 53, 55, 56, 57, 61, 17, 18, 58)]
    yield from (" ".join(("52", *w)) for n in range(1, 4) for w in itertools.product(words, repeat=n) if any(x[:2] == "2." for x in w))
    for n in range(count):
        w = g.command(r.choice((4, 8, 15)))
        for i, x in enumerate(w):
            if x[:2] in ("1.", "2.") and r.random() < 0.5:
                w[i] = "2" + x[1:]
        yield " ".join(w if n % 2 else damaged(w, r))
