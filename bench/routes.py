#!/usr/bin/env python3
# Every route to 64 levels and 16 queries: token lists, a label first. routes.py [mixed COUNT SEED]
import sys, random
I = '6.1'; A = '1.1'
# name: (before, after, levels, queries, strength asked of what stands inside, its own strength)
U = {
 'paren': ('12', '13', 1, 0, 1, 12), 'paren2': ('12 6.1 14', '13', 1, 0, 1, 12), 'neg': ('19', '', 1, 0, 11, 11), 'not': ('36', '', 1, 0, 3, 10),
 'or': (A + ' 35', '', 1, 0, 2, 1), 'and': (A + ' 34', '', 1, 0, 3, 2), 'eq': (A + ' 28', '', 1, 0, 5, 4), 'is': (A + ' 37', '', 1, 0, 5, 4), 'isnot': (A + ' 37 36', '', 1, 0, 5, 4),
 'like': (A + ' 40.1', '', 1, 0, 5, 4), 'notlike': (A + ' 36 40.1', '', 1, 0, 5, 4), 'lt': (A + ' 30', '', 1, 0, 6, 5), 'bitand': (A + ' 23', '', 1, 0, 7, 6), 'plus': (A + ' 18', '', 1, 0, 8, 7),
 'star': (A + ' 17', '', 1, 0, 9, 8), 'concat': (A + ' 22', '', 1, 0, 10, 9),
 'low': (A + ' 39', '34 6.1', 1, 0, 5, 4), 'high': (A + ' 39 6.1 34', '', 1, 0, 5, 4), 'notlow': (A + ' 36 39', '34 6.1', 1, 0, 5, 4), 'nothigh': (A + ' 36 39 6.1 34', '', 1, 0, 5, 4),
 'in': (A + ' 38 12', '13', 1, 0, 1, 4), 'in2': (A + ' 38 12 6.1 14', '13', 1, 0, 1, 4), 'notin': (A + ' 36 38 12', '13', 1, 0, 1, 4),
 'call': ('1.1 12', '13', 1, 0, 1, 12), 'call2': ('1.1 12 6.1 14', '13', 1, 0, 1, 12), 'calld': ('1.1 12 54', '13', 1, 0, 1, 12),
 'base': ('44', '45 6.1 46 6.1 48', 1, 0, 1, 12), 'when': ('44 45', '46 6.1 48', 1, 0, 1, 12), 'then': ('44 45 6.1 46', '48', 1, 0, 1, 12), 'else': ('44 45 6.1 46 6.1 47', '48', 1, 0, 1, 12),
 'when2': ('44 45 6.1 46 6.1 45', '46 6.1 48', 1, 0, 1, 12), 'cast': ('49 12', '50 1.1 13', 1, 0, 1, 12),
}
# queries: what stands before and after a clause expression
Q = { 'column': ('52', ''), 'column2': ('52 1.1 14', ''), 'namecol': ('52 1.1 18', ''), 'alias': ('52', '1.2'), 'where': ('52 17 60', ''), 'group': ('52 17 61 62', ''), 'having': ('52 17 61 62 6.1 63', ''), 'having1': ('52 17 63', ''),
 'on': ('52 17 56 1.1 14 1.1 58', ''), 'order': ('52 17 64 62', ''), 'order2': ('52 17 64 62 6.1 14', ''), 'limit': ('52 17 70', ''), 'offset': ('52 17 70 6.1 71', ''), 'comma': ('52 17 70 6.1 14', ''), 'values': ('53 12', '13'), 'values2': ('53 12 6.1 13 14 12', '13') }
W = { 'scalar': ('12', '13', 12), 'exists': ('51 12', '13', 12), 'inq': (A + ' 38 12', '13', 4), 'notinq': (A + ' 36 38 12', '13', 4) }
for q, (b, a) in Q.items():
    for w, (c, d, s) in W.items(): U[w + '.' + q] = (c + ' ' + b, a + ' ' + d, 1, 1, 8 if q == 'namecol' else 1, s)
F = { 'from': ('52 17 56 12', '13'), 'from2': ('52 17 56 1.1 14 12', '13'), 'join': ('52 17 56 1.1 57 12', '13'), 'fromalias': ('52 17 56 12', '13 1.3') }
def build(froms, top, units):
    # units from outside in; each must be as strong as what is asked, else skipped; returns tokens or None
    b, a = [], []
    queries, asked, level = 1, 1, 1
    for f in froms: b.append(F[f][0]); a.append(F[f][1]); queries += 1
    tb, ta = Q[top]; b.append(tb); a.append(ta)
    if top == 'namecol': asked, level = 8, 2
    for u in units:
        x = U[u]
        if x[5] < asked: return None
        b.append(x[0]); a.append(x[1]); level += x[2]; queries += x[3]; asked = x[4]
        if u.endswith('.namecol'): level += 1
    if queries > 16: return None
    return ' '.join(b + [I] + a[::-1]), level, queries
def fill(froms, top, pattern, levels):
    units = []; i = 0
    while True:
        r = build(froms, top, units)
        if r and r[1] == levels: return r[0]
        if r is None or r[1] > levels: return None
        n = units + [pattern[i % len(pattern)]]; i += 1
        if build(froms, top, n) is None:
            # too loose or a query too many: parentheses instead
            n = units + ['paren']
        units = n
if __name__ == '__main__':
    mode = sys.argv[1] if len(sys.argv) > 1 else 'routes'
    if mode == 'routes':
        for u in U:
            for n in (64, 65):
                r = fill([], 'column', [u], n)
                if r: print('%s %d|%s' % (u, n, r))
        chain = ['or', 'and', 'eq', 'lt', 'bitand', 'plus', 'star', 'concat', 'paren']
        for n in (64, 65): print('binaries %d|%s' % (n, fill([], 'column', chain, n)))
        for f in F: print('%s 16|%s' % (f, build([f] * 15, 'column', [])[0])); print('%s 17|%s' % (f, ' '.join([F[f][0]] * 16 + ['52 6.1'] + [F[f][1]] * 16)))
        for u in list(U):
            for f in F:
                for n in (64, 65):
                    r = fill([f] * 15, 'column', [u], n)
                    if r: print('15 %s then %s %d|%s' % (f, u, n, r))
    else:
        rnd = random.Random(int(sys.argv[3])); names = list(U)
        for _ in range(int(sys.argv[2])):
            k = rnd.randint(1, 4); pat = [rnd.choice(names) for _ in range(k)]
            r = fill([rnd.choice(list(F)) for _ in range(rnd.choice([0, 15, 15, rnd.randint(0, 15)]))], rnd.choice([q for q in Q]), pat, rnd.choice([64, 64, 65]))
            if r: print('%s|%s' % (' '.join(pat), r))
