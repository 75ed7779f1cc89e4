"""A second reading of what cronsafe reads, for differential tests.

Each module says in plain Python what a part of docs/DEFINITIONS.md, or of a format in
man/cronsafe-files.5, says in words, rule by rule and in the same order, so that both can be held
side by side. It is slow on purpose, and knows nothing of how the program is written. Where the
program and this reading answer otherwise, one of the two is wrong, or the words are unclear.

`compare_cases.py` holds it against the worked cases of tests/cases; the programs of tests/random
and tests/fuzz hold a built program against it. Needs Python 3 alone.
"""
