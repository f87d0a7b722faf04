"""The text of a crate's code, which rlib.py writes, as functions of statements and expressions.

Types are tuples: ('int', width), ('float',), ('bool',), ('unit',), ('named', name), ('array', type, count),
('ref', mutable, type), ('slice', mutable, type), ('ptr',).

Expressions are tuples, each with what it takes:
    ('lit', type, value)  ('true',)  ('false',)  ('unit',)
    ('var', number)  ('field', e, i)  ('tag', e)  ('payload', e, variant, i)  ('index', e, i)
    ('deref', type, pointer)  ('addr', place)  ('offset', pointer, bytes)
    ('un', op, e, type)  ('bin', op, a, b, type)  ('is', e, variant, count): whether a value is that one of so many variants
    ('aggregate', type, [e..])  ('repeat', type, e, count)  ('call', function, [e..])
    ('and', a, b)  ('or', a, b): made by fold.py alone

Statements are lists:
    ['set', place, e]  ['do', call]  ['if', c, then, else]  ['switch', e, [(values, body)..], default or None]
    ['loop', body]  ['while', c, body]  ['break']  ['continue']  ['return', e or None]

Whatever is not known here is refused with an exception: nothing is passed over.
"""
import re


class Unknown(Exception):
    pass


def read(text):
    """The nested lists of a text."""
    stack = [[]]
    for token in re.findall(r'"[^"]*"|[()]|[^\s()]+', text):
        if token == "(":
            stack.append([])
        elif token == ")":
            done = stack.pop()
            stack[-1].append(done)
        else:
            stack[-1].append(token)
    if len(stack) != 1:
        raise Unknown("the text's brackets do not match")
    return stack[0]


def items(x, cons="lcons", nil="lnil"):
    found = []
    while x != nil:
        if x[0] != cons:
            raise Unknown(x)
        found.append(x[1])
        x = x[2]
    return found


def a_type(t):
    if isinstance(t, str):
        return {"tyBool": ("bool",), "tyUnit": ("unit",), "tyPtr": ("ptr",)}[t]
    if t[0] == "tyInt":
        return ("int", int(t[1]))
    if t[0] == "tyFloat" and t[1] == "64":
        return ("float",)
    if t[0] == "tyNamed":
        return ("named", t[1][1].strip('"'))
    if t[0] == "tyArray":
        return ("array", a_type(t[1]), int(t[2][1]))
    if t[0] == "tyRef":
        return ("ref", t[2] == "mut", a_type(t[3]))
    if t[0] == "tyStruct" and t[1] == '"&[]"':
        pointer, count = (a_type(x) for x in items(t[2], "tcons", "tnil"))
        if pointer[0] != "ref" or count != ("int", 64):
            raise Unknown(t)
        return ("slice", pointer[1], pointer[2])
    raise Unknown(t)


def size(t, named):
    """Bytes and alignment, as both the checked program and C lay a type out."""
    kind = t[0]
    if kind == "int":
        return t[1] // 8, t[1] // 8
    if kind in ("float", "bool"):
        return (8, 8) if kind == "float" else (1, 1)
    if kind == "array":
        each, align = size(t[1], named)
        return each * t[2], align
    if kind == "named" and named[t[1]][0] == "fields":
        at, most = 0, 1
        for x in named[t[1]][1]:
            each, align = size(x, named)
            at = (at + align - 1) // align * align + each
            most = max(most, align)
        return (at + most - 1) // most * most, most
    raise Unknown(f"the size of {t}")


def ways(s):
    """The lists of statements within a branch."""
    return [s[2], s[3]] if s[0] == "if" else [b for _, b in s[2]] + ([s[3]] if s[3] is not None else []) if s[0] == "switch" else []


def left(statements):
    """Whether nothing behind a list is reached."""
    last = statements[-1] if statements else [None]
    return last[0] in ("return", "break", "continue", "leave") or bool(ways(last)) and all(map(left, ways(last)))


def closed(statements, leave):
    """A scope without the steps that leave it: what stands behind such a step goes into the ways that do not leave."""
    for i, s in enumerate(statements):
        if s == leave:
            return statements[:i]
        if repr(leave) not in repr(s):
            continue
        rest, inner = statements[i + 1 :], ways(s)
        if not inner or rest and sum(not left(body) for body in inner) > 1:
            raise Unknown(f"a scope that is left: {s}")
        new = [closed(body if left(body) else body + rest, leave) for body in inner]
        if s[0] == "if":
            return statements[:i] + [["if", s[1], *new]]
        arms = [(values, body) for (values, _), body in zip(s[2], new)]
        return statements[:i] + [["switch", s[1], arms, None if s[3] is None else new[-1]]]
    return statements


class Function:
    def __init__(self, name, node, named):
        self.name = name
        self.named = named
        self.count = int(node[3])
        slots = items(node[4])
        self.types = [a_type(s[1]) for s in slots]
        self.lent = {i for i, s in enumerate(slots) if s[2] == "lentSlot"}
        self.memory = {i for i, s in enumerate(slots) if s[2] == "memorySlot"} | self.lent
        self.scopes = 0
        self.inlined = set()  # the variables that inline.py has made, or could make plain
        self.body = self.statements(node[5], [])

    # ---- types of expressions

    def type_of(self, e):
        kind = e[0]
        if kind == "lit":
            return e[1]
        if kind in ("true", "false", "and", "or", "is"):
            return ("bool",)
        if kind == "unit":
            return ("unit",)
        if kind == "var":
            return self.types[e[1]]
        if kind == "field":
            of = self.type_of(e[1])
            if of[0] == "slice":
                return (("ref", of[1], of[2]), ("int", 64))[e[2]]
            return self.named[of[1]][1][e[2]]
        if kind == "tag":
            return ("int", 8)
        if kind == "payload":
            return self.named[self.type_of(e[1])[1]][1][e[2]][e[3]]
        if kind == "index":
            return self.type_of(e[1])[1]
        if kind == "deref":
            return e[1]
        if kind in ("addr", "offset"):
            return ("ptr",)
        if kind == "un":
            return e[3]
        if kind == "bin":
            return e[4]
        if kind in ("aggregate", "repeat"):
            return e[1]
        if kind == "call":
            return self.returns[e[1]]
        raise Unknown(e)

    # ---- expressions

    def place(self, p):
        e = ("var", int(p[1]))
        variant = None
        for step in items(p[2]):
            if step[0] == "deref":
                e = ("deref", a_type(step[1]), e)
            elif step[0] == "variant":
                variant = int(step[1])
            elif step[0] == "field":
                i = int(step[1])
                if variant is not None:
                    e = ("tag", e) if i == 0 else ("payload", e, variant, i - 1)
                    variant = None
                elif self.type_of(e)[0] == "array":
                    e = ("index", e, ("lit", ("int", 64), i))
                else:
                    e = ("field", e, i)
            else:
                raise Unknown(step)
        return e

    def operand(self, o):
        if isinstance(o, str):
            return {"true": ("true",), "false": ("false",), "unit": ("unit",)}[o]
        if o[0] == "copy":
            return self.place(o[1])
        if o[0] == "int":
            return ("lit", ("int", int(o[1])), int(o[2]))
        if o[0] == "float" and o[1] == "64":
            return ("lit", ("float",), int(o[2]))
        if o[0] == "sizeOf":
            return ("lit", ("int", 64), size(a_type(o[1]), self.named)[0])
        raise Unknown(o)

    def value(self, v, to):
        kind = v[0]
        if kind == "rvOpd":
            return self.operand(v[1])
        if kind == "addrOf":
            return ("addr", self.place(v[1]))
        if kind == "aggregate":
            return ("aggregate", to, self.parts(items(v[1]), to))
        if kind == "repeat":
            return ("repeat", to, self.operand(v[1]), int(v[2]))
        if kind == "op1":
            op = v[1] if isinstance(v[1], str) else v[1][0]
            if not isinstance(v[1], str) and "signed" in v[1]:
                raise Unknown(v)
            return ("un", op, self.operand(v[2]), to)
        if kind == "op2":
            op = v[1] if isinstance(v[1], str) else v[1][0]
            if not isinstance(v[1], str) and v[1][1:] != ["unsigned"]:
                raise Unknown(v)
            a, b = self.operand(v[2]), self.operand(v[3])
            return ("offset", a, b) if op == "offset" else ("bin", op, a, b, to)
        raise Unknown(v)

    def parts(self, given, to):
        """The parts of a value, some of which may be values of parts themselves."""
        if all(isinstance(o, str) or o[0] != "aggregate" for o in given):
            return tuple(self.operand(o) for o in given)
        if to[0] != "named":
            raise Unknown(given)
        what, types = self.named[to[1]]
        types = types if what == "fields" else [("int", 8), *types[int(given[0][2])]]
        return tuple(self.value(o, t) if o[0] == "aggregate" else self.operand(o) for o, t in zip(given, types, strict=True))

    # ---- statements

    def choice(self, e, arms, last):
        """A choice; one of the two variants of a type of the library is a test of the first."""
        if e[0] == "tag" and "<" in self.type_of(e[1])[1] and len(self.named[self.type_of(e[1])[1]][1]) == 2:
            ways = [(values[0], body) for values, body in arms if len(values) == 1] + ([(None, last)] if last is not None else [])
            if len(ways) == 2 and len(arms) + (last is not None) == 2:
                return ["if", ("is", e[1], ways[0][0], 2), ways[0][1], ways[1][1]]
        return ["switch", e, arms, last]

    def statements(self, x, around):
        found = []
        while not isinstance(x, str) and x[0] == "seq":
            found += self.statements(x[1], around)
            x = x[2]
        if x == "skip":
            return found
        if x == "return":
            return found + [["return", None if self.types[0] == ("unit",) else ("var", 0)]]
        kind = x[0]
        if kind == "assign":
            to = self.place(x[1])
            if self.type_of(to) != ("unit",):
                found.append(["set", to, self.value(x[2], self.type_of(to))])
        elif kind == "call":
            if x[1][0] != "direct":
                raise Unknown(x[1])
            call = ("call", x[1][1][1].strip('"'), tuple(self.operand(o) for o in items(x[2])))
            to = self.place(x[3])
            found.append(["do", call] if self.type_of(to) == ("unit",) else ["set", to, call])
        elif kind == "if":
            found.append(["if", self.operand(x[1]), self.statements(x[2], around), self.statements(x[3], around)])
        elif kind == "switch":
            arms, rest = [], x[2]
            while rest != "noDefault" and rest[0] == "arm":
                arms.append((tuple(int(v) for v in items(rest[1])), self.statements(rest[2], around)))
                rest = rest[3]
            last = None if rest == "noDefault" else self.statements(rest[1], around)
            found.append(self.choice(self.operand(x[1]), arms, last))
        elif kind == "block":
            # what leaves the block around a loop is a break of that loop, what leaves the round alone a continue; any other block is a scope
            if isinstance(x[1], str) or x[1][0] != "loop":
                self.scopes += 1
                return found + closed(self.statements(x[1], [self.scopes] + around), ["leave", self.scopes])
            found.append(["loop", self.statements(x[1][1], ["loop", "block"] + around)])
        elif kind == "exit":
            inner = int(x[1])
            loop = around.index("loop") if "loop" in around else len(around)
            if inner not in (*range(loop), loop, loop + 1) or inner >= len(around):
                raise Unknown(x)
            found.append(["leave", around[inner]] if inner < loop else ["continue"] if inner == loop else ["break"])
        else:
            raise Unknown(x)
        return found


def program(text):
    """The functions by name, in the text's order, and the types: name to ('fields', types) or ('variants', lists of types)."""
    top = read(text)
    if top[0] != "program":
        raise Unknown(top[0])
    definitions = items(top[1])
    named = {}
    for d in definitions:
        for pair in items(d[3]) if len(d) == 4 else []:
            name, body = pair[1].strip('"'), pair[2]
            if body[0] == "fields":
                named[name] = ("fields", [a_type(t) for t in items(body[1], "tcons", "tnil")])
            elif body[0] == "variants":
                lists = items(body[1], "ttcons", "ttnil")
                named[name] = ("variants", [[a_type(t) for t in items(v, "tcons", "tnil")] for v in lists])
            else:
                raise Unknown(body)
    functions, returns = {}, {}
    for d in definitions:
        returns[d[1].strip('"')] = a_type(items(d[2][4])[0][1])
    for d in definitions:
        name = d[1].strip('"')
        functions[name] = Function(name, d[2], named)
        functions[name].returns = returns
    return functions, named
