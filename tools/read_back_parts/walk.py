"""Symbolic execution of one function along one path.

A run is told which way to go at each test whose outcome is open, and leaves a trace: the tests, the stores through lent references
and the calls that write, the loops entered and gone round, and what is returned. Pure values are no part of the trace: they
appear as graphs (nodes.py) in what is tested, stored, passed and returned.

A loop is walked once, from a state in which each variable that its body sets has any value ('carried'). The trace has the
state before the loop and at the end of a round, so that a comparison can show that carried variables stay equal.
"""
from . import nodes
from .rattle import Unread

UNSET = "unset"
PARTIAL = {"/", "%"} | nodes.SHIFTS


class Lent:
    """A reference that can be written through: a variable, or a part of it, with the count of elements of a slice."""
    def __init__(self, root, offset=None, count=None):
        self.root, self.offset, self.count = root, offset, count


class Left(Exception):
    """The function is left."""


class Broken(Exception):
    """The loop is left."""


class Again(Exception):
    """The loop's next round begins."""


def roots(code, out):
    """The names of the variables that code may set, itself or by lending them."""
    if isinstance(code, (list, tuple)):
        if code and code[0] == "set":
            out.add(root(code[1]))
        elif code and code[0] == "ref" and len(code) == 2:
            out.add(root(code[1]))
        elif code and code[0] == "call":
            for argument, kind in zip(code[2], code[3]):
                if kind[0] == "ref" and kind[1] and argument[0] == "var":
                    out.add(argument[1])
        for part in code:
            roots(part, out)
    elif isinstance(code, dict):
        for part in code.values():
            roots(part, out)
    return out


def root(place):
    while place[0] != "var":
        place = place[1]
    return place[1]


class Walk:
    def __init__(self, function, side, program, choices):
        self.side, self.program, self.choices = side, program, choices
        self.trace, self.facts, self.taken, self.loops = [], {}, [], 0
        self.state, self.kinds, self.partial = {}, {}, set()
        self.writable = []
        for i, (name, kind) in enumerate(function.parameters):
            self.kinds[name] = kind
            value = nodes.node("param", (i,), kind[2] if kind[0] == "ref" else kind)
            if kind[0] == "ref" and kind[1]:
                content = "*" + name
                self.state[content], self.kinds[content] = value, kind[2]
                self.state[name] = Lent(content, None, nodes.length(value) if kind[2][0] == "slice" else None)
                self.writable.append(content)
            else:
                self.state[name] = value
        try:
            self.leave(self.value(function.body))
        except Left:
            pass

    # ---- tests

    def choose(self, what, ways):
        """The way that is taken at an open test of so many ways."""
        at = len(self.taken)
        way = self.choices[at] if at < len(self.choices) else 0
        self.taken.append(way)
        self.trace.append(("test", what, ways))
        return way

    def holds(self, x):
        """Whether a condition is true on this path."""
        if x.op == "not":
            return not self.holds(x.args[0])
        if nodes.is_const(x):
            return x.args[0]
        if x not in self.facts:
            self.facts[x] = self.choose(x, 2) == 0
        return self.facts[x]

    def variant(self, x):
        """Which variant of its enumeration a value is on this path."""
        if x.op == "variant":
            return x.args[0]
        fact = ("variant", x)
        if fact not in self.facts:
            self.facts[fact] = self.choose(nodes.node("tag", (x,), "tag"), len(self.program.enums[x.type[1]]))
        return self.facts[fact]

    # ---- places

    def lent(self, x):
        """The content of a lent place."""
        content = self.state[x.root]
        return content if x.offset is None else nodes.part(content, x.offset, x.count)

    def store(self, place, value):
        if place[0] == "var":
            self.state[place[1]] = value
        elif place[0] == "field":
            whole = self.value(place[1])
            kinds = [kind for _, kind in self.program.structs[whole.type[1]]]
            self.store(place[1], nodes.with_field(whole, place[2], value, kinds))
        elif place[0] == "index":
            whole, at = self.value(place[1]), self.value(place[2])
            self.needs(nodes.node("index", (whole, at), value.type))
            self.store(place[1], nodes.stored(whole, at, value))
        elif place[0] == "deref":
            target = self.value(place[1])
            if not isinstance(target, Lent) or target.offset is not None:
                raise Unread("a store through what is not lent whole")
            self.trace.append(("store", self.order(target.root), value))
            self.state[target.root] = value
        else:
            raise Unread(f"a store to a place '{place[0]}'")

    def order(self, name):
        """A lent parameter by its order; a variable of the function's own is written unseen."""
        return self.writable.index(name) if name in self.writable else None

    # ---- expressions

    def value(self, e):
        return getattr(self, "of_" + e[0])(e)

    def of_lit(self, e):
        return nodes.const(e[1], e[2])

    def of_var(self, e):
        found = self.state[e[1]]
        if isinstance(found, nodes.Node) and found.op == UNSET:
            raise Unread(f"the variable {e[1].split('#')[0]} is read before it is set")
        return found

    def needs(self, x):
        """Notes an operation that is defined for some operands only."""
        self.partial.add(x)
        return x

    def of_field(self, e):
        return nodes.field(self.value(e[1]), e[2], e[3][2] if e[3][0] == "ref" else e[3])

    def of_payload(self, e):
        """A part of a variant, which the value must be known to be."""
        _, inner, k, i, kind = e
        x = self.value(inner)
        if self.variant(x) != k:
            raise Unread("a part of another variant than the value has is read")
        return nodes.payload(x, k, i, kind)

    def of_index(self, e):
        whole = self.value(e[1])
        place = self.value(e[2])
        self.needs(nodes.node("index", (whole, place), e[3]))
        inner, at = whole, place
        while inner.op == "part":  # an element of a part is one of the whole
            inner, at = inner.args[0], nodes.add(inner.args[1], at)
            self.needs(nodes.node("index", (inner, at), e[3]))
        return nodes.element(whole, place, e[3])

    def of_deref(self, e):
        x = self.value(e[1])
        return self.lent(x) if isinstance(x, Lent) else x

    def of_lend(self, e):
        """A place that is lent to be read."""
        return self.value(e[1])

    def of_len(self, e):
        x = self.value(e[1])
        if isinstance(x, Lent):
            return x.count if x.count is not None else nodes.length(self.lent(x))
        return nodes.length(x)

    def span(self, e, count):
        low = nodes.const("u64", 0) if e[2] is None else self.value(e[2])
        if e[3] is None:
            return low, count if e[2] is None else nodes.binary("-", "u64", count, low)
        high = self.value(e[3])
        return low, high if e[2] is None else nodes.binary("-", "u64", high, low)

    def cut(self, x, low, count):
        """A part of a list, which must be within it."""
        found = nodes.part(x, low, count)
        return found if found is x else self.needs(found)

    def of_part(self, e):
        x = self.value(e[1])
        return self.cut(x, *self.span(e, nodes.length(x)))

    def of_piece(self, e):
        """A part by its first place and its count."""
        low, count = self.value(e[2]), self.value(e[3])
        whole = self.value(e[1][1]) if e[1][0] == "deref" else None
        if isinstance(whole, Lent) and whole.offset is None and nodes.is_const(low) and low.args[0] == 0 and count is whole.count:
            return self.lent(whole)
        return self.cut(self.value(e[1]), low, count)

    def of_ref(self, e):
        place = e[1]
        if place[0] == "deref":
            return self.value(place[1])
        if place[0] == "var":
            return Lent(place[1])
        if place[0] in ("part", "piece"):
            return self.lent_part(place)
        raise Unread("a place that is lent in a way that is not known")

    def lent_part(self, place):
        """A part of a list, lent to be written; the whole of it is the list."""
        whole = self.of_ref(("ref", place[1]))
        if whole.offset is not None:
            raise Unread("a part of a part is lent")
        count = nodes.length(self.lent(whole)) if whole.count is None else whole.count
        low, many = self.span(place, count) if place[0] == "part" else (self.value(place[2]), self.value(place[3]))
        if nodes.is_const(low) and low.args[0] == 0 and many is count:
            return whole
        self.cut(self.state[whole.root], low, many)
        return Lent(whole.root, low, many)

    def of_bin(self, e):
        _, op, kind, a, b = e
        left = self.value(a)
        found = nodes.binary(op, kind, left, self.value(b))
        return self.needs(found) if kind in nodes.WIDTH and op in PARTIAL else found

    def of_neg(self, e):
        return nodes.negated(self.value(e[1]))

    def of_not(self, e):
        return nodes.inverted(self.value(e[1]))

    def of_and(self, e):
        return self.value(e[2]) if self.holds(self.value(e[1])) else nodes.FALSE

    def of_or(self, e):
        return nodes.TRUE if self.holds(self.value(e[1])) else self.value(e[2])

    def of_cast(self, e):
        x = self.value(e[2])
        found = nodes.cast(x, e[1])
        return self.needs(found) if x.type == "f64" and e[1] != "f64" else found

    def of_struct(self, e):
        parts = {i: self.value(part) for i, part in e[2]}
        return nodes.record(e[1], tuple(parts[i] for i in sorted(parts)))

    def of_variant(self, e):
        parts = [self.value(part) for part in e[3]]
        return nodes.variant(e[1], e[2], tuple(part for part in parts if part is not None))

    def of_array(self, e):
        return nodes.listed(e[1], tuple(self.value(part) for part in e[2]))

    def of_repeat(self, e):
        return nodes.node("repeat", (self.value(e[2]),), e[1])

    def of_pure(self, e):
        return nodes.node("call", (e[1],) + tuple(self.value(a) for a in e[3]), e[2])

    def of_call(self, e):
        _, name, given, kinds, result = e
        values = [self.value(a) for a in given]
        passed = tuple(self.lent(v) if isinstance(v, Lent) else v for v in values)
        made = self.needs(nodes.node("call", (name,) + passed, result[2] if result[0] == "ref" else result))
        written = [(i, v) for i, (v, kind) in enumerate(zip(values, kinds)) if kind[0] == "ref" and kind[1]]
        if written:
            self.trace.append(("call", made))
        for i, v in written:
            self.leave_in(v, nodes.node("left", (made, i), passed[i].type))
        return made

    def leave_in(self, target, content):
        """What a call left in a place that it was lent."""
        if target.offset is not None:
            content = nodes.node("spliced", (self.state[target.root], target.offset, content), self.state[target.root].type)
        self.state[target.root] = content

    def of_tag_is(self, e):
        return nodes.truth(self.variant(self.value(e[1])) == e[2])

    def of_unit(self, e):
        return None

    def of_same(self, e):
        """Whether two values are equal: the same variant, and each part equal, in their order."""
        return self.equal(e[1], self.value(e[2]), self.value(e[3]))

    def equal(self, kind, a, b):
        if kind[0] == "enum":
            k = self.variant(a)
            if k != self.variant(b):
                return nodes.FALSE
            pairs = [(part, nodes.payload(a, k, i, part), nodes.payload(b, k, i, part)) for i, (_, part) in enumerate(self.program.enums[kind[1]][k][1])]
        elif kind[0] == "struct":
            pairs = [(part, nodes.field(a, i, part), nodes.field(b, i, part)) for i, (_, part) in enumerate(self.program.structs[kind[1]])]
        elif kind in nodes.WIDTH or kind in ("f64", "bool"):
            return nodes.binary("==", kind, a, b)
        else:
            raise Unread(f"an equality of {kind}")
        for part, x, y in pairs[:-1]:
            if not self.holds(self.equal(part, x, y)):
                return nodes.FALSE
        return self.equal(*pairs[-1]) if pairs else nodes.TRUE

    def of_tags_same(self, e):
        """Whether two values are the same variant."""
        k = self.variant(self.value(e[1]))
        return nodes.truth(k == self.variant(self.value(e[2])))

    def of_cases(self, e):
        """The body of the first pattern that fits, or nothing."""
        x = self.value(e[1])
        for pattern, body in e[2]:
            if self.fits(pattern, x):
                return self.value(body)
        return None

    def number(self, x, values):
        """Which of some numbers a value is on this path, or None; all are tested at once."""
        if nodes.is_const(x):
            return x.args[0]
        fact = ("number", x, values)
        if fact not in self.facts:
            way = self.choose(nodes.node("number", (x, *values), "tag"), len(values) + 1)
            self.facts[fact] = values[way] if way < len(values) else None
        return self.facts[fact]

    def fits(self, pattern, x):
        if pattern[0] == "any":
            return True
        if pattern[0] == "name":
            self.kinds[pattern[1]], self.state[pattern[1]] = pattern[2], x
            return True
        if pattern[0] == "int":
            return self.number(x, pattern[2]) == pattern[1]
        if pattern[0] == "either":
            return any(self.fits(p, x) for p in pattern[1])
        if pattern[0] == "guard":
            return self.fits(pattern[1], x) and self.holds(self.value(pattern[2]))
        _, k, inner, kinds = pattern
        return self.variant(x) == k and all(self.fits(p, nodes.payload(x, k, i, kind)) for i, (p, kind) in enumerate(zip(inner, kinds)))

    # ---- statements

    def of_let(self, e):
        _, name, kind, value = e
        self.kinds[name] = kind
        self.state[name] = nodes.node(UNSET, (self.side, name), kind) if value is None else self.value(value)

    def of_set(self, e):
        self.store(e[1], self.value(e[2]))

    def of_block(self, e):
        for statement in e[1]:
            self.value(statement)
        return None if e[2] is None else self.value(e[2])

    def of_if(self, e):
        if self.holds(self.value(e[1])):
            return self.value(e[2])
        return None if e[3] is None else self.value(e[3])

    def of_match(self, e):
        _, subject, _, arms = e
        x = self.value(subject)
        k = self.variant(x)
        bound, body = arms[k]
        for name, i, kind in bound:
            self.kinds[name] = kind
            self.state[name] = nodes.payload(x, k, i, kind)
        return self.value(body)

    def of_variants(self, e):
        """A choice by variants, each with the body to go on with."""
        return self.value(e[2][self.variant(self.value(e[1]))])

    def of_switch(self, e):
        """A choice by a number; the open values are tested all at once."""
        _, subject, arms, other = e
        x = self.value(subject)
        values = sorted(v for given, _ in arms for v in given)
        if nodes.is_const(x):
            found = x.args[0]
        else:
            way = self.choose(nodes.node("number", (x,) + tuple(values), "tag"), len(values) + 1)
            found = values[way] if way < len(values) else None
        for given, body in arms:
            if found in given:
                return self.value(body)
        if other is None:
            return None
        return self.value(other)

    def of_while(self, e):
        key = (tuple(self.taken), self.loops)
        self.loops += 1
        self.trace.append(("loop", key, dict(self.state)))
        names = roots(e, set())
        names |= {self.state[n].root for n in names if isinstance(self.state.get(n), Lent)}
        for name in sorted(names):
            if name in self.state and not isinstance(self.state[name], Lent):
                kind = self.kinds[name]
                self.state[name] = nodes.node("carried", (self.side, key, name), kind[2] if kind[0] == "ref" else kind)
        if not self.holds(self.value(e[1])):
            return
        try:
            self.value(e[2])
        except Broken:
            return
        except Again:
            pass
        self.trace.append(("round", key, dict(self.state)))
        raise Left

    def of_return(self, e):
        self.leave(None if e[1] is None else self.value(e[1]))
        raise Left

    def of_break(self, e):
        raise Broken

    def of_continue(self, e):
        raise Again

    def leave(self, x):
        """The end of a path: what is returned, and what is left in each lent place."""
        self.trace.append(("return", x, tuple(self.state[name] for name in self.writable)))
