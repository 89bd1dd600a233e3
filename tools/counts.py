#!/usr/bin/env python3
"""Prints the tables of files that a reader must believe, of the library and of the programs, with their lines (imports, comments and blank lines aside).
usage: python3 tools/counts.py   (in the repository)"""
import os
LIBRARY = '''records/specs/Bytes records/specs/Records indexing_iter/specs/Classes indexing_iter/specs/Keys
indexing_iter/specs/Clauses indexing_iter/specs/Refusals indexing_iter/specs/Checks indexing_iter/specs/Faults indexing_iter/specs/Flags locate/specs/First indexing/specs/Lists indexing/specs/Lines indexing/specs/Reading
indexing/specs/Build indexing/specs/Expand indexing/specs/Builder indexing/specs/Sized indexing_builder/specs/Answer index_size/specs/Answer well_formed/specs/WellFormed indexing_scan/specs/Agree
indexing_scan/specs/Walk indexing_scan/specs/Calls indexing_scan/specs/Cases indexing_scan/specs/Witness indexing_walk/specs/Answers podrulka/specs/Face
claims/specs/Show claims/specs/Demand3 claims/specs/General'''.split()
PROGRAMS = 'inputs/specs/Input listing/specs/Text walk_inputs/specs/Plan walk_inputs/specs/Run walk_listing/specs/Text'.split()


def lines(name):
    path = os.path.join(os.path.dirname(os.path.abspath(__file__)), '..', 'crates', name + '.antt')
    return sum(1 for line in open(path) if line.strip() and not line.strip().startswith(('--', 'use ')))


for files in (LIBRARY, PROGRAMS):
    print('| file | lines |\n|---|---|')
    for name in files: print('| %s | %d |' % (name, lines(name)))
    print('| all | %d |\n' % sum(map(lines, files)))
