#!/usr/bin/env python3
"""Checks that each old text of each must-fail edit stands exactly once in its file, as the pairs before it left that.  usage: python3 tools/edits.py"""
import glob, os, sys
os.chdir(os.path.join(os.path.dirname(os.path.abspath(__file__)), '..'))
bad = n = 0
for path in sorted(glob.glob('crates/*/must-fail/*.edit')):
    text = open(path).read()
    file = text.split('\nfile: ')[1].split('\n')[0]
    crate = os.path.dirname(os.path.dirname(path))
    source = open(os.path.join(crate, file)).read()
    n += 1
    for part in text.split('\nold: ')[1:]:
        old, new = (t.strip() for t in part.split('\nnew: ')[:2])
        times = source.count(old)
        if times != 1:
            bad += 1
            print('%s: its old text stands %d times in %s: %s' % (path, times, file, old))
        source = source.replace(old, new.split('\n')[0], 1)
print('%d edits, %d bad' % (n, bad))
sys.exit(bad != 0)
