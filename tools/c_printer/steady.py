"""Values that are the same wherever they are read, as a list's count or an address, in the place of the variables that keep them."""
from . import fold
from .inline import fixed, set_in


def steady(e, never):
    """Whether an expression has one value throughout; `never` are the variables that are set once alone, as arguments are, and do not stand in memory."""
    if e[0] == "var":
        return e[1] in never
    if e[0] == "addr":
        return fixed(e[1]) or e[1][0] == "deref" and e[1][2][0] == "var" and e[1][2][1] in never
    if e[0] == "field":
        return steady(e[1], never)
    if e[0] == "aggregate" and e[1][0] == "slice":
        return from_its_start(e[2][0], never) and steady(e[2][1], never)
    return fixed_value(e)


def from_its_start(pointer, never):
    """Whether a pointer is that of an array or a list from its first element on."""
    while pointer[0] == "addr" and pointer[1][0] == "deref":
        pointer = pointer[1][2]
    return steady(pointer, never)


def fixed_value(e):
    """A number as it stands, or a value of such alone."""
    return e[0] in ("lit", "true", "false", "unit") or e[0] == "aggregate" and e[1][0] == "named" and all(map(fixed_value, e[2]))


def replaced(f, statements, temporaries):
    """The same statements without the variables that are set once, to such a value."""
    while True:
        counts = set_in(statements)
        never = {n for n in range(1, len(f.types)) if counts.get(n, 0) == (n > f.count) and n not in f.memory}
        found = {}
        collect(statements, temporaries, counts, never, found)
        if not found:
            return statements

        def change(e, found=found):
            return found.get(e[1]) if e[0] == "var" else None

        statements = [fold.statement_mapped(s, change) for s in without(statements, found)]


def collect(statements, temporaries, counts, never, found):
    for s in statements:
        if not found and s[0] == "set" and s[1][0] == "var" and s[1][1] in temporaries and counts[s[1][1]] == 1 and steady(s[2], never):
            found[s[1][1]] = s[2]
        for inner in fold.lists(s):
            collect(inner, temporaries, counts, never, found)


def without(statements, found):
    kept = [s for s in statements if not (s[0] == "set" and s[1][0] == "var" and s[1][1] in found)]
    return [fold.with_lists(s, [without(inner, found) for inner in fold.lists(s)]) for s in kept]
