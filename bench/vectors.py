#!/usr/bin/env python3
# vectors.py VECTORS.. OUT: test commands as one binary file of u32. VECTORS is a file, or a folder with commands.txt and room.txt; a line's form is its own.
#   kind[.text] .. => number place [: records : writing]               a command
#   table=N outk=N outt=N kinds: .. texts: .. => R number place W ..   a command and a table's length
# are written   table, nk, kinds.., nt, texts.., number, place, nrec, records..   (table 0xffffffff: as large as needed, 20,000 records), and calls
#   read / kinds / texts / nodes => number place / nodes =             a list at exit up to the last number that changed; V*N is V, N times
#   write / kinds / texts / nodes / kinds / texts => number place / nodes = / kinds = / texts =
# as   0xfffffffe (read) or 0xfffffffd (write), then n, numbers.. of each list, number, place, then n, numbers.. of each changed list.
import os, sys, struct
def toks(s):
    k, t = [], []
    for x in s.split():
        a = x.split('.')
        k.append(int(a[0])); t.append(int(a[1]) if len(a) > 1 else 0)
    return k, t
out = open(sys.argv[-1], 'wb'); n = calls = 0
def put(xs): out.write(struct.pack('<%dI' % len(xs), *xs))
def counted(xs): return [len(xs)] + xs
def listed(s):
    xs = []
    for w in s.split():
        v, _, many = w.partition('*'); xs += [int(v)] * int(many or 1)
    return xs
CALLS = {'read': (0xfffffffe, 3), 'write': (0xfffffffd, 5)}
def command(a, b):
    k, t = toks(a)
    p = b.split(' : ')
    num, place = map(int, p[0].split())
    rec = [int(y) for x in p[1].split() for y in x.split(',')] if num == 0 else []
    put([0xffffffff] + counted(k) + counted(t) + [num, place] + counted(rec))
def room(a, b):
    d = a.split(' kinds:'); table = int(d[0].split()[0].split('=')[1])
    ks, ts = d[1].split('texts:')
    w = b.split(); num, place = int(w[1]), int(w[2])
    put([table] + counted(listed(ks)) + counted(listed(ts)) + [num, place, 0])
def call(a, b):
    name, *lists = [x.strip() for x in a.split('/')]; said, *exits = [x.strip() for x in b.split('/')]
    if name not in CALLS or len(lists) != CALLS[name][1] or len(exits) != len(lists) - 2 or not all(x.endswith('=') for x in exits):
        sys.exit('no call: ' + a[:80])
    xs = [CALLS[name][0]]
    for x in lists: xs += counted(listed(x))
    xs += map(int, said.split())
    for x in exits: xs += counted(listed(x[:-1]))
    put(xs)
for v in sys.argv[1:-1]:
    for file in [v + '/commands.txt', v + '/room.txt'] if os.path.isdir(v) else [v]:
        for l in open(file):
            a, b = (' ' + l.rstrip('\n')).split(' => ', 1); n += 1
            if '/' in a: call(a, b); calls += 1
            else: (room if 'table=' in a else command)(a, b)
print(n, 'cases,', calls, 'of them calls')
