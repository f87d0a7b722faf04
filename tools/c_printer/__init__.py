"""Prints the checked program as C that people can read: tools/c_source. Nothing here is proved.

rlib.py     the proved code of a library and of those below it, as rt keeps it, as a text
program.py  that text as functions of statements and expressions
inline.py   small functions of the language's library, in the place of their calls
steady.py   values that are the same throughout, in the place of variables that keep them
source.py   names and first comments from the sources, which that text does not have
fold.py     steps of one operation each, put together to expressions as they were written
emit.py     C from these
environment.py  what sets the floating-point environment around each call that works with doubles
header.py   the manual page and the declarations for Fortran and Rust, from the header
files.py    which files are made, and of what
"""
