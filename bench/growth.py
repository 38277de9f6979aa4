#!/usr/bin/env python3
# Commands of one form at about 200 and 4,000 tokens, and the worst that we could build. growth.py OUT: writes OUT/FORM-LENGTH.txt
import sys
# form: before, what recurs, what parts it, after
FORMS = {
 'columns': ('52', '1.1 15 1.2 50 1.3', '14', ''),
 'sums': ('52', '1.1', '18', ''),
 'in': ('52 1.1 38 12', '6.1', '14', '13'),
 'values': ('53', '12 6.1 14 6.2 14 6.3 13', '14', ''),
 'joins': ('52 17 56 1.1', '5.4 57 1.2 58 1.1 15 1.3 28 1.2 15 1.3', '', ''),
 'case': ('52 44', '45 1.1 46 6.1', '', '48'),
}
def command(form, tokens):
    before, part, parting, after = (x.split() for x in FORMS[form])
    n = (tokens - len(before) - len(after) + len(parting)) // (len(part) + len(parting))
    return before + (part + parting) * (n - 1) + part + after
# fifteen LIMIT ( query ) , n, one in the other: each puts the 1,900 records of the inmost query behind its own
def worst():
    return ['52', '17', '70', '12'] * 15 + ['53', '12'] + ['6.1', '14'] * 1899 + ['6.1', '13'] + ['13', '14', '6.1'] * 15
def write(name, tokens):
    open('%s/%s.txt' % (sys.argv[1], name), 'w').write(' '.join(tokens) + '\n')
for f in FORMS:
    write(f + '-200', command(f, 200))
    write(f + '-4000', command(f, 4000))
write('worst', worst())
