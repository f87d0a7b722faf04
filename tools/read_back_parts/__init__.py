"""The parts of tools/read_back, which shares no code with tools/c_printer.

nodes.py    symbolic values, each kept once
rattle.py   reader of the Rattle sources: text to trees
lower.py    types of these trees, and the program that both sides are brought to
c_text.py   reader of the printed C, over pycparser, to the same kind of program
walk.py     symbolic execution of a function along one path
compare.py  two functions path by path, two programs function by function
"""
