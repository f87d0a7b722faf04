"""Symbolic values: directed graphs in which each value is kept once, so that equal ones are one object.

A type is 'u8' .. 'u64', 'f64', 'bool', 'unit', ('struct', name), ('enum', name), ('array', type, count), ('slice', type) or
('ref', mutable, type). A float is kept as its 64 bits.
"""
import struct

WIDTH = {"u8": 8, "u16": 16, "u32": 32, "u64": 64}
_kept = {}


class Node:
    __slots__ = ("op", "args", "type")

    def __repr__(self):
        return shown(self)


def node(op, args, kind):
    key = (op, args, kind)
    found = _kept.get(key)
    if found is None:
        found = Node()
        found.op, found.args, found.type = op, args, kind
        _kept[key] = found
    return found


def const(kind, value):
    return node("const", (value,), kind)


TRUE = const("bool", True)
FALSE = const("bool", False)


def truth(value):
    return TRUE if value else FALSE


def is_const(x):
    return x.op == "const"


def float_bits(text):
    return struct.unpack("<Q", struct.pack("<d", float(text)))[0]


def field(x, i, kind):
    return x.args[i] if x.op == "struct" else node("field", (x, i), kind)


def with_field(x, i, value, kinds):
    parts = [field(x, j, kind) for j, kind in enumerate(kinds)]
    parts[i] = value
    return record(x.type, tuple(parts))


def record(kind, parts):
    """A struct of its fields; one whose fields are all those of another value is that value."""
    first = parts[0]
    if first.op == "field" and first.args[0].type == kind:
        whole = first.args[0]
        if all(p.op == "field" and p.args == (whole, i) for i, p in enumerate(parts)):
            return whole
    return node("struct", parts, kind)


def variant(kind, k, parts):
    return node("variant", (k,) + parts, kind)


def payload(x, k, i, kind):
    if x.op == "variant":
        if x.args[0] != k:
            raise ValueError("a part of another variant than the value has is read")
        return x.args[1 + i]
    return node("payload", (x, k, i), kind)


def element(x, i, kind):
    """x[i]. A store elsewhere is passed over only where both places are constants."""
    while x.op == "store" and is_const(x.args[1]) and is_const(i) and x.args[1] is not i:
        x = x.args[0]
    if x.op == "store" and x.args[1] is i:
        return x.args[2]
    if x.op == "array" and is_const(i) and i.args[0] < len(x.args):
        return x.args[i.args[0]]
    if x.op == "repeat":
        return x.args[0]
    if x.op == "part":
        whole, offset, _ = x.args
        return element(whole, add(offset, i), kind)
    return node("index", (x, i), kind)


def stored(x, i, value):
    if x.op == "array" and is_const(i) and i.args[0] < len(x.args):
        parts = list(x.args)
        parts[i.args[0]] = value
        return listed(x.type, tuple(parts))
    return node("store", (x, i, value), x.type)


def listed(kind, parts):
    """A list of its elements; one of equal elements is that element repeated."""
    if parts and all(p is parts[0] for p in parts):
        return node("repeat", (parts[0],), kind)
    return node("array", parts, kind)


def add(a, b):
    """The sum of two places, for parts of lists."""
    if is_const(a) and a.args[0] == 0:
        return b
    return binary("+", "u64", a, b)


def length(x):
    if x.type[0] == "array":
        return const("u64", x.type[2])
    if x.op == "part":
        return x.args[2]
    return node("len", (x,), "u64")


def part(x, offset, count):
    """A part of a list; the whole of it is the list itself."""
    if is_const(offset) and offset.args[0] == 0 and count is length(x):
        return x
    return node("part", (x, offset, count), ("slice", x.type[1]))


_SWAPPED = {">": "<", ">=": "<="}
COMPARISONS = {"==", "!=", "<", "<="}


SHIFTS = {"<<", ">>"}


def shift_count(x):
    """By how much is shifted counts, and not the type in which it is said."""
    if is_const(x):
        return const("u32", x.args[0])
    widened = x.op == "cast" and WIDTH.get(x.args[0].type, 99) <= WIDTH[x.type]
    return x.args[0] if widened else x


def binary(op, kind, a, b):
    """An operation on operands of one type; a > b is b < a, of floats too, NaN or not."""
    if op in _SWAPPED:
        op, a, b = _SWAPPED[op], b, a
    if op in SHIFTS:
        b = shift_count(b)
    return node("bin", (op, kind, a, b), "bool" if op in COMPARISONS else kind)


def negated(x):
    """Minus a float: of a constant, the constant with the other sign bit."""
    if is_const(x):
        return const("f64", x.args[0] ^ 1 << 63)
    return node("neg", (x,), "f64")


def inverted(x):
    if is_const(x):
        return truth(not x.args[0])
    return x.args[0] if x.op == "not" else node("not", (x,), "bool")


def cast(x, kind):
    return x if x.type == kind else node("cast", (x,), kind)


def shown(x, depth=4):
    """A value in a line for a message."""
    if not isinstance(x, Node):
        return str(x)
    if depth == 0:
        return ".."
    inner = [shown(a, depth - 1) for a in x.args]
    if x.op == "const":
        if x.type == "f64":
            return repr(struct.unpack("<d", struct.pack("<Q", x.args[0]))[0])
        return f"{x.args[0]}:{x.type}"
    if x.op == "bin":
        return f"({inner[2]} {x.args[0]}:{x.args[1]} {inner[3]})"
    if x.op == "call":
        return f"{x.args[0]}({', '.join(inner[1:])})"
    if x.op == "field":
        return f"{inner[0]}.{x.args[1]}"
    if x.op == "index":
        return f"{inner[0]}[{inner[1]}]"
    if x.op == "param":
        return f"argument{x.args[0]}"
    if x.op == "carried":
        return f"{x.args[2]}"
    if x.op == "cast":
        return f"({inner[0]} as {x.type})"
    return f"{x.op}({', '.join(inner)})"
