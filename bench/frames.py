#!/usr/bin/env python3
# frames.py FILE.s: the frames of the compiled functions: return address, pushes, room; and which calls each has
import re, sys
s = open(sys.argv[1]).read()
fn = None; f = {}
for l in s.split('\n'):
    m = re.match(r'^"?([\w:<>.$]+)"?:\s', l + ' ')
    if m:
        fn = m.group(1) if '::' in m.group(1) or m.group(1) in ("reader_read", "writer_write") else None
        if fn: f[fn] = dict(push=0, sub=0, calls={}, n=0, outs=0, first=True)
    if fn is None: continue
    t = l.strip()
    if t.startswith('.') or not t or t.startswith('#'): continue
    d = f[fn]
    if l.startswith('\t'): d['n'] += 1
    m = re.match(r'pushq\s+%(rbp|rbx|r1[2345])$', t)
    if m and d['first']: d['push'] += 1
    m = re.match(r'subq\s+\$(\w+), ?%rsp', t)
    if m: d['sub'] = max(d['sub'], int(m.group(1), 0))
    if re.match(r'pushq\s+%rax', t) and d['first'] and d['sub'] == 0: d['sub'] = 8
    m = re.match(r'callq\s+"?([\w:]+)"?', t)
    if m: d['calls'][m.group(1)] = d['calls'].get(m.group(1), 0) + 1; d['first'] = False
    m = re.match(r'(pushq|addq\s+\$(\d+), %rsp)', t)
for k, d in f.items():
    print('%-28s frame %4d (8 + %d pushes + %d)  %4d instrs  %s' % (k, 8 + 8 * d['push'] + d['sub'], d['push'], d['sub'], d['n'], ' '.join('%s%s' % (c.split('::')[-1], '*%d' % n if n > 1 else '') for c, n in d['calls'].items())))
