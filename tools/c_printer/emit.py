"""C from functions of statements and expressions."""
import struct

from . import environment, fold, program, source, steady
from .inline import set_in
from .program import Unknown

KEYWORDS = set(
    """auto break case char const continue default do double else enum extern float for goto if inline int long register
    restrict return short signed sizeof static struct switch typedef union unsigned void volatile while bool true false""".split()
)
WIDTH = 118
INFIX = {  # operator, binding strength
    "mul": ("*", 12), "div": ("/", 12), "rem": ("%", 12), "floatMul": ("*", 12), "floatDiv": ("/", 12),
    "add": ("+", 11), "sub": ("-", 11), "floatAdd": ("+", 11), "floatSub": ("-", 11),
    "shl": ("<<", 10), "shr": (">>", 10), "and": ("&", 7), "xor": ("^", 6), "or": ("|", 5),
    "lt": ("<", 9), "le": ("<=", 9), "floatLt": ("<", 9), "floatLe": ("<=", 9),
    "eq": ("==", 8), "ne": ("!=", 8), "floatEq": ("==", 8), "floatNe": ("!=", 8),
}  # fmt: skip
ARITHMETIC = {"mul", "div", "rem", "add", "sub", "shl", "shr", "and", "xor", "or"}
BITWISE = {"shl", "shr", "and", "xor", "or"}
UNARY, AND, OR = 14, 4, 3
# So many bytes beside a variant that is returned are too many to be filled with zeros.
MUCH = 256


LIBRARY = {"std::option::Option": "option", "std::result::Result": "result", "(,)": "pair"}


def identifier(name):
    """C's name of a function or a type; that of an instance ends in its types and counts."""
    name, _, rest = name.partition("<")
    parts = name.split("::")
    if parts[0] == "dihkelu" and parts[-1].startswith("dihkelu_"):
        return parts[-1]
    return "_".join([LIBRARY.get(name) or "_".join(parts)] + [argument(a) for a in source.pieces(rest[:-1])])


def argument(text):
    """What an instance's name has for a type or a count."""
    for begin, word in (("&mut [", "slice_mut_"), ("&[", "slice_"), ("&mut ", "ref_mut_"), ("&", "ref_"), ("[", "")):
        if text.startswith(begin):
            inner = text[len(begin) :]
            if not begin.endswith("["):
                return word + argument(inner)
            if ";" not in inner[inner.rfind("]", 0, -1) + 1 :]:
                return word + argument(inner[:-1])
            kind, count = inner[:-1].rsplit(";", 1)
            return f"{argument(kind)}_x{count}" if not word else f"{word}{argument(inner)}"
    return "unit" if text == "()" else identifier(text)


class Types:
    """C's names of the types, and their definitions in order."""

    def __init__(self, named, items):
        self.named, self.items = named, items
        self.names, self.definitions = {}, []

    def simple(self, name):
        """Whether a type is a plain enumeration: variants without anything in them."""
        kind, lists = self.named[name]
        return kind == "variants" and not any(x != ("unit",) for types in lists for x in types)

    def item(self, name):
        """What the sources, or the language, say of a type."""
        base = name.split("<")[0]
        return self.items.get(base) or source.LIBRARY.get(base)

    def fields(self, name):
        item = self.item(name)
        kind, types = self.named[name]
        if item is None or len(item.names) != len(types):
            raise Unknown(f"the sources do not have the type {name} with {len(types)} parts")
        words = [word for n in item.names for word in ([n] if isinstance(n, str) else [n[0], *n[1]])]
        if KEYWORDS.intersection(words):
            raise Unknown(f"a part of {name} has a name that is a word of C: give it another")
        return item.names

    def tag(self, name, variant):
        return f"{identifier(name)}_{self.fields(name)[variant][0]}"

    def size(self, t):
        """How many bytes a value of a type has at least."""
        if t[0] == "array":
            return self.size(t[1]) * t[2]
        if t[0] != "named":
            return t[1] // 8 if t[0] == "int" else {"float": 8, "slice": 16, "ref": 8, "bool": 1, "unit": 0}[t[0]]
        kind, types = self.named[t[1]]
        return sum(map(self.size, types)) if kind == "fields" else 4 + max(sum(map(self.size, parts)) for parts in types)

    def payload(self, name, variant, i):
        """Where a variant's i-th part stands."""
        label, names = self.fields(name)[variant]
        if len(self.named[name][1][variant]) == 1:
            return f"as.{label}"
        return f"as.{label}.{names[i] if names else 'part%d' % i}"

    def short(self, t):
        if t[0] == "int":
            return f"u{t[1]}"
        return "f64" if t[0] == "float" else self.name(t)

    def name(self, t):
        if t in self.names:
            return self.names[t]
        kind = t[0]
        if kind == "int":
            return f"uint{t[1]}_t"
        if kind in ("float", "bool", "unit"):
            return {"float": "double", "bool": "bool", "unit": "void"}[kind]
        if kind == "ref":
            return f"{'' if t[1] else 'const '}{self.name(t[2])} *"
        if kind == "slice":
            name = f"slice_{'mut_' if t[1] else ''}{self.short(t[2])}"
            text = [f"typedef struct {{", f"    {'' if t[1] else 'const '}{self.name(t[2])} *at;", "    uint64_t count;", f"}} {name};"]
        elif kind == "array":
            name = f"{self.short(t[1])}_x{t[2]}"
            # C has no array of nothing
            text = ["typedef struct {", f"    {self.name(t[1])} at[{t[2] or 1}];", f"}} {name};"]
        elif kind == "named":
            name = identifier(t[1])
            what, types = self.named[t[1]]
            if self.item(t[1]) is None:
                raise Unknown(f"the sources do not have the type {t[1]}")
            text = list(self.item(t[1]).comment)
            if name in self.names.values():
                raise Unknown(f"two types are called {name}")
            if what == "fields":
                text += ["typedef struct {"] + [f"    {self.declared(x, n)};" for x, n in zip(types, self.fields(t[1]))] + [f"}} {name};"]
            elif self.simple(t[1]):
                text += ["typedef enum {"] + [f"    {self.tag(t[1], i)}," for i in range(len(types))] + [f"}} {name};"]
            else:
                text += ["typedef struct {", "    enum {"] + [f"        {self.tag(t[1], i)}," for i in range(len(types))] + ["    } tag;", "    union {"]
                for (label, names), parts in zip(self.fields(t[1]), types):
                    if parts == [("unit",)]:
                        continue
                    if len(parts) == 1:
                        text.append(f"        {self.declared(parts[0], label)};")
                    elif parts:
                        inner = " ".join(f"{self.declared(x, names[i] if names else 'part%d' % i)};" for i, x in enumerate(parts))
                        text.append(f"        struct {{ {inner} }} {label};")
                text += ["    } as;", f"}} {name};"]
        else:
            raise Unknown(t)
        self.names[t] = name
        self.definitions.append("\n".join(text))
        return name

    def declared(self, t, name):
        kind = self.name(t)
        return kind + name if kind.endswith("*") else f"{kind} {name}"


class Printer:
    """One function."""

    def __init__(self, f, types, item, exported, writers, guarded=False):
        self.f, self.types, self.item, self.exported, self.guarded = f, types, item, exported, guarded
        if item is None and not f.name.startswith("std::") or item and len(item.parameters) != f.count:
            raise Unknown(f"the sources do not have the function {f.name} with {f.count} parameters")
        self.names = self.named_variables()
        self.read_values()
        self.alias_arguments()
        self.body, plain = f.body, {None}
        while plain:
            kept = set(range(1, f.count + 1)) | f.memory | self.bound
            temporaries = {n for n in range(len(f.types)) if n not in kept}
            self.body = fold.Folder(f, temporaries, writers).fold(steady.replaced(f, self.body, temporaries), set(), (set(), set()))
            plain = (f.inlined & f.memory) - addressed(self.body)
            f.memory = f.memory - plain
        for n in sorted(self.bound):
            if f.types[n][0] == "ref" and f.types[n][1]:
                self.body = self.in_place(self.body, n)

    # ---- names

    def named_variables(self):
        f, item = self.f, self.item
        names, taken = {}, set()

        def give(n, name):
            base, k = name, 2
            while name in taken or name in KEYWORDS:
                name, k = f"{base}_{k}", k + 1
            taken.add(name)
            names[n] = name

        for i in range(1, f.count + 1):
            give(i, item.parameters[i - 1] if item and i <= len(item.parameters) else "abcdefgh"[i - 1])
        # bytes of a text and arguments that are indexed stand in memory first, then what the source binds
        n = f.count + 1
        leading = []
        for s in f.body:
            constant = s[0] == "set" and s[2][0] == "aggregate" and (s[2][1][0] == "array" or n in f.lent)
            if s[0] == "set" and s[1] == ("var", n) and n in f.memory and (constant or s[2][0] == "var" and s[2][1] <= f.count):
                leading.append(n)
                n += 1
            else:
                break
        if item and item.first_is_constant and leading:
            n = leading.pop()
        leading = [m for m in leading if f.types[m][0] == "array"]
        for m in leading:
            give(m, "text")
        self.bound = set(leading)
        for name in item.bindings if item else []:
            if name is source.LIST:
                n += n < len(f.types) and f.types[n] != ("int", 64)
                continue
            if n >= len(f.types):
                break
            if name is not source.HIDDEN:
                give(n, name)
                self.bound.add(n)
            n += 1
        self.give = give
        return names

    def read_values(self):
        """A variable that refers to a number, which is only read, is that number: nothing writes there while it is lent."""
        f = self.f
        for n in self.bound:
            t = f.types[n]
            if t[0] != "ref" or t[1] or t[2][0] not in ("int", "float", "bool"):
                continue
            here = ("deref", t[2], ("var", n))
            sets = [s for s in everything(f.body) if s[0] == "set" and s[1] == ("var", n)]
            if not sets or any(s[2][0] != "addr" or f.type_of(s[2][1]) != t[2] for s in sets):
                continue
            uses = sum(fold.count(h, n) for s in everything(f.body) for h in fold.heads(s))
            if uses != sum(times(h, here) for s in everything(f.body) for h in fold.heads(s)):
                continue

            def change(e, n=n, here=here):
                return ("var", n) if e == here else None

            f.body = [fold.statement_mapped(s, change) for s in f.body]
            for s in everything(f.body):
                if s[0] == "set" and s[1] == ("var", n):
                    s[2] = s[2][1]
            f.types[n] = t[2]

    def in_place(self, statements, n):
        """A variable that refers to an element that is written is the element, as long as what tells its place stays."""
        for i, s in enumerate(statements):
            if s[0] == "set" and s[1] == ("var", n):
                rest, e = statements[i + 1 :], s[2]
                if e[0] != "addr" or e[1][:2] != ("deref", self.f.types[n][2]) or e[1][2][0] != "offset" or not stays(rest, n, fold.variables(e)):
                    return statements
                folder = fold.Folder(self.f, set(), set())
                rest = [fold.statement_mapped(t, lambda x: e if x == ("var", n) else None) for t in rest]
                return statements[:i] + [fold.statement_mapped(t, folder.simple) for t in rest]
            if n in mentions(s):
                return [*statements[:i], fold.with_lists(s, [self.in_place(body, n) for body in fold.lists(s)]), *statements[i + 1 :]]
        return statements

    def alias_arguments(self):
        """An argument that is copied to memory at the start, and read nowhere else, is that memory."""
        f = self.f
        at, aliased = 0, False
        while at < len(f.body):
            s = f.body[at]
            if s[0] != "set" or s[1][0] != "var" or s[1][1] not in f.memory or s[2][0] != "var" or not 0 < s[2][1] <= f.count:
                break
            slot, argument = s[1][1], s[2][1]
            others = f.body[:at] + f.body[at + 1 :]
            if any(argument in mentions(t) for t in others) or aliased and slot not in f.inlined:
                at += 1
                continue
            aliased = True
            f.body = [replaced_everywhere(t, slot, argument) for t in others]
            f.memory = f.memory | {argument}
            f.inlined |= {argument} if slot in f.inlined else set()

    # ---- expressions

    def text(self, e, strength=0):
        """An expression, in brackets where it binds weaker than is wanted."""
        made, own = self.made(e)
        return f"({made})" if own < strength else made

    def made(self, e):
        kind = e[0]
        if kind == "lit":
            text = self.literal(e)
            return text, UNARY if text.startswith("-") else 20
        if kind in ("true", "false"):
            return kind, 20
        if kind == "var":
            return self.names[e[1]], 20
        if kind == "field":
            of = self.f.type_of(e[1])
            name = ("at", "count")[e[2]] if of[0] == "slice" else self.types.fields(of[1])[e[2]]
            if e[1][0] == "deref" and e[1][2][0] == "var":
                return f"{self.text(e[1][2], 15)}->{name}", 15
            return f"{self.text(e[1], 15)}.{name}", 15
        if kind == "tag":
            of = self.f.type_of(e[1])
            if self.types.simple(of[1]):
                return self.text(e[1], 15), 15
            if e[1][0] == "deref" and e[1][2][0] == "var":
                return f"{self.text(e[1][2], 15)}->tag", 15
            return f"{self.text(e[1], 15)}.tag", 15
        if kind == "payload":
            part = self.types.payload(self.f.type_of(e[1])[1], e[2], e[3])
            if e[1][0] == "deref" and e[1][2][0] == "var":
                return f"{self.text(e[1][2], 15)}->{part}", 15
            return f"{self.text(e[1], 15)}.{part}", 15
        if kind == "index":
            return f"{self.text(e[1], 15)}.at[{self.text(e[2])}]", 15
        if kind == "deref":
            return self.pointed(e[1], e[2])
        if kind == "addr":
            return self.address(e[1])
        if kind == "un":
            return self.unary(e)
        if kind == "bin":
            return self.binary(e)
        if kind == "and":
            return " && ".join(self.text(x, AND) for x in e[1:]), AND
        if kind == "or":
            return " || ".join(self.text(x, UNARY if x[0] == "and" else OR) for x in e[1:]), OR
        if kind == "is":
            return self.variant_test(e, "=="), 8
        if kind in ("aggregate", "repeat"):
            return self.made_aggregate(e)
        if kind == "call":
            arguments = ", ".join(self.text(a) for a in e[2])
            return f"{identifier(e[1])}({arguments})", 15
        raise Unknown(e)

    def literal(self, e):
        if e[1] == ("float",):
            x = struct.unpack(">d", e[2].to_bytes(8, "big"))[0]
            if x != x or x in (float("inf"), float("-inf")):
                raise Unknown(e)
            return repr(x)
        value = e[2]
        digits = str(value)
        if value > 0xFFFF and (value > 2**53 or 2 * hex(value).count("0") > len(hex(value))):
            digits = hex(value)
        return digits if value < 2**31 else digits + "u"

    def variant_test(self, e, sign):
        return f"{self.made(('tag', e[1]))[0]} {sign} {self.types.tag(self.f.type_of(e[1])[1], e[2])}"

    def unary(self, e):
        op, x, t = e[1], e[2], e[3]
        if op == "not" and x[0] == "is":
            return self.variant_test(x, "!="), 8
        if op == "floatNeg":
            return f"-{self.text(x, UNARY + 1)}", UNARY
        if op == "not" and t == ("bool",):
            return f"!{self.text(x, UNARY)}", UNARY
        if op == "not" and t[0] == "int":
            made = f"~{self.text(x, UNARY)}"
            return (made if t[1] >= 32 else f"({self.types.name(t)}){made}"), UNARY
        if op == "cast":
            return f"({self.types.name(t)}){self.text(x, UNARY)}", UNARY
        if op == "intToFloat":
            return f"(double){self.text(x, UNARY)}", UNARY
        if op == "leadingZeros" and self.f.type_of(x) == ("int", 64):
            return f"leading_zeros({self.text(x)})", 15
        if op == "floatToBits":
            return f"to_bits({self.text(x)})", 15
        if op == "floatFromBits":
            return f"from_bits({self.text(x)})", 15
        raise Unknown(e)

    def binary(self, e):
        op, a, b, t = e[1:]
        if op not in INFIX:
            raise Unknown(e)
        sign, strength = INFIX[op]
        left, right = self.text(a, strength), self.text(b, strength + 1)
        if op in BITWISE:  # what mixes with these has brackets; nobody knows how strongly they bind
            left, right = (x if same == (op,) else self.text(e, UNARY) for x, same, e in ((left, a[1:2], a), (right, None, b)))
        if op in ARITHMETIC and a[0] == "lit" and (b[0] == "lit" or op == "shl"):
            left = f"UINT{t[1]}_C({a[2]})"
        if op in ARITHMETIC and t[0] == "int" and t[1] < 32:
            return f"({self.types.name(t)})({left} {sign} {right})", UNARY
        return f"{left} {sign} {right}", strength

    # ---- memory

    def index_of(self, t, offset):
        """How many elements an offset in bytes is."""
        size, _ = program.size(t, self.types.named)
        if offset[0] == "lit" and offset[2] % size == 0:
            return ("lit", ("int", 64), offset[2] // size)
        if offset[0] == "bin" and offset[1] == "mul":
            for x, y in ((offset[2], offset[3]), (offset[3], offset[2])):
                if y == ("lit", ("int", 64), size):
                    return x
        if size == 1:
            return offset
        raise Unknown(f"an offset into elements of {size} bytes: {offset}")

    def elements(self, t, pointer):
        """The C array of elements of a type that a pointer points to the first of, or None."""
        if pointer[0] == "addr":
            place = pointer[1]
            if place[0] == "deref" and place[1] == t:
                return self.elements(t, place[2])
            if self.f.type_of(place)[:2] == ("array", t):
                if place[0] == "deref" and place[2][0] == "var":
                    return f"{self.text(place[2], 15)}->at"
                return f"{self.text(place, 15)}.at"
        elif pointer[0] == "field" and self.f.type_of(pointer[1])[0] == "slice" and self.f.type_of(pointer)[2] == t:
            return self.text(pointer, 15)
        elif pointer[0] == "var" and self.f.type_of(pointer)[0] == "ref" and self.f.type_of(pointer)[2][:2] == ("array", t):
            return f"{self.text(pointer, 15)}->at"
        return None

    def pointed(self, t, pointer):
        if pointer[0] == "addr" and self.f.type_of(pointer[1]) == t:
            return self.made(pointer[1])
        if pointer[0] == "offset":
            base = self.elements(t, pointer[1])
            if base is None:
                raise Unknown(f"a pointer to {t}: {pointer}")
            return f"{base}[{self.text(self.index_of(t, pointer[2]))}]", 15
        base = self.elements(t, pointer)
        if base is not None:
            return f"{base}[0]", 15
        if pointer[0] == "var" and self.f.type_of(pointer)[0] == "ref" and self.f.type_of(pointer)[2] == t:
            return f"*{self.names[pointer[1]]}", UNARY
        raise Unknown(f"a pointer to {t}: {pointer}")

    def address(self, place):
        if place[0] == "deref":
            t, pointer = place[1], place[2]
            if pointer[0] == "offset":
                base = self.elements(t, pointer[1])
                if base is None:
                    raise Unknown(place)
                return f"{base} + {self.text(self.index_of(t, pointer[2]), 12)}", 11
            if self.f.type_of(pointer) in (("ref", True, t), ("ref", False, t)):
                return self.made(pointer)
            base = self.elements(t, pointer)
            if base is not None:
                return base, 15
        return f"&{self.text(place, UNARY)}", UNARY

    def braces(self, e):
        if e[0] == "repeat" and fold.zeros(e):
            depth, t = 0, e[1]
            while t[0] == "array":
                depth, t = depth + 2, t[1]
            depth += t[0] == "named"
            return "{" * depth + "0" + "}" * depth
        t, given = e[1], e[2]
        if t[0] == "slice":
            return self.slice_braces(t, given)
        if t[0] == "array":
            return "{{" + (", ".join(self.inner(x) for x in given) or "0") + "}}"
        what, types = self.types.named[t[1]]
        if what == "fields":
            return "{" + ", ".join(f".{n} = {self.inner(x)}" for n, x in zip(self.types.fields(t[1]), given)) + "}"
        variant = given[0][2]
        tag = self.types.tag(t[1], variant)
        if self.types.simple(t[1]):
            raise Unknown(e)
        rest = "".join(f", .{self.types.payload(t[1], variant, i)} = {self.inner(x)}" for i, x in enumerate(given[1:]) if x != ("unit",))
        return "{.tag = " + tag + rest + "}"

    def inner(self, x):
        """A value within braces: braces of its own need no type."""
        return self.braces(x) if x[0] in ("aggregate", "repeat") and not self.plain(x) else self.text(x)

    def plain(self, x):
        """A value that is printed without braces: a variant of a plain enumeration, or a list lent on whole."""
        if x[0] != "aggregate":
            return False
        t = x[1]
        return (t[0] == "named" and self.types.named[t[1]][0] == "variants" and self.types.simple(t[1])) or self.lent_on(x) is not None

    def lent_on(self, x):
        """The list that a pair of its own pointer and its own count is."""
        t, given = x[1], x[2]
        if x[0] != "aggregate" or t[0] != "slice":
            return None
        pointer, count = given
        if pointer[0] == "addr" and pointer[1][0] == "deref":
            pointer = pointer[1][2]
        if pointer[0] == "field" and count[0] == "field" and pointer[1] == count[1] and self.f.type_of(pointer[1]) == t:
            return pointer[1]
        return None

    def slice_braces(self, t, given):
        pointer, count = given
        base = self.elements(t[2], pointer)
        if base is None and pointer[0] == "addr" and pointer[1][0] == "deref" and pointer[1][1] == t[2]:
            base = self.text(pointer)
            inner = pointer[1][2]
            if inner[0] == "offset" and inner[1][0] in ("field", "addr") and self.of_a_list(inner[1]):
                # a list of nothing may stand at NULL, to which C adds nothing, not even 0
                base = f"{self.text(self.index_of(t[2], inner[2]), 9)} == 0 ? {self.elements(t[2], inner[1])} : {base}"
        if base is None:
            raise Unknown(f"a list over {pointer}")
        return f"{{{base}, {self.text(count)}}}"

    def of_a_list(self, pointer):
        """Whether a pointer is a list's own."""
        if pointer[0] == "addr" and pointer[1][0] == "deref":
            pointer = pointer[1][2]
        return pointer[0] == "field" and self.f.type_of(pointer[1])[0] == "slice"

    # ---- statements

    def lines(self, statements, depth, declare):
        """Statements as lines; `declare` are the variables that are declared within this list."""
        here, below = self.placed(statements, declare)
        pad = "    " * depth
        out = []
        for i, s in enumerate(statements):
            first = [n for n, k in here.items() if k == i]
            for n in first:
                if not (s[0] == "set" and s[1] == ("var", n) and not fold.filled(s[2])):
                    out.append(f"{pad}{self.types.declared(self.f.types[n], self.names[n])};")
            out += self.statement(s, depth, below[i], first)
        return out

    def placed(self, statements, declare):
        """For each variable the statement before which it is declared, or that it is declared within."""
        here, below = {}, [set() for _ in statements]
        for n in sorted(declare):
            where = [i for i, s in enumerate(statements) if n in mentions(s)]
            if not where:
                continue
            s = statements[where[0]]
            inside = [inner for inner in fold.lists(s) if any(n in mentions(t) for t in inner)]
            head = any(n in fold.variables(h) for h in fold.heads(s)) or (s[0] == "set" and n in fold.variables(s[1]))
            if len(where) == 1 and not head and len(inside) >= 1 and not self.carried(s, n):
                below[where[0]].add(n)
            else:
                here[n] = where[0]
        return here, below

    def carried(self, s, n):
        """Whether a variable is read in a branch or a round before it is set there."""
        folder = fold.Folder(self.f, set(), set())
        return any(n in folder.live(inner, set(), (set(), set())) for inner in fold.lists(s))

    def statement(self, s, depth, declare, first):
        pad, kind = "    " * depth, s[0]
        if kind == "set":
            if fold.filled(s[2]):
                return self.repeated(s, pad)
            fresh = s[1][0] == "var" and s[1][1] in first
            left = self.types.declared(self.f.types[s[1][1]], self.names[s[1][1]]) if fresh else self.text(s[1])
            if fresh and s[2][0] in ("aggregate", "repeat") and not self.plain(s[2]):
                return wrapped(f"{pad}{left} = {self.braces(s[2])};")
            return wrapped(f"{pad}{left} = {self.element(s) or self.text(s[2])};")
        if kind == "do":
            return wrapped(f"{pad}{self.text(s[1])};")
        if kind == "return":
            if s[1] is None:
                return [f"{pad}return;"]
            return self.by_fields(s[1], pad) or wrapped(f"{pad}return {self.text(s[1])};")
        if kind in ("break", "continue"):
            return [f"{pad}{kind};"]
        if kind == "while":
            return wrapped(f"{pad}while ({self.text(s[1])}) {{") + self.lines(s[2], depth + 1, declare) + [f"{pad}}}"]
        if kind == "loop":
            return [f"{pad}for (;;) {{"] + self.lines(s[1], depth + 1, declare) + [f"{pad}}}"]
        if kind == "if":
            return self.branch(s, depth, declare)
        if kind == "switch":
            return self.switch(s, depth, declare)
        raise Unknown(s)

    def by_fields(self, e, pad):
        """A variant that is returned, field by field, where another one is much larger: what stands in braces is filled up with zeros,
        for which clang calls memset."""
        if e[0] != "aggregate" or e[1][0] != "named" or self.types.named[e[1][1]][0] != "variants" or self.plain(e):
            return None
        t, variant, parts = e[1], e[2][0][2], e[2][1:]
        if self.types.size(t) - sum(map(self.types.size, self.types.named[t[1]][1][variant])) < MUCH:
            return None
        name = "reply"
        while name in self.names.values():
            name += "_"
        out = [f"{pad}{self.types.declared(t, name)};", f"{pad}{name}.tag = {self.types.tag(t[1], variant)};"]
        for i, x in enumerate(parts):
            if x != ("unit",):
                out += wrapped(f"{pad}{name}.{self.types.payload(t[1], variant, i)} = {self.text(x)};")
        return out + [f"{pad}return {name};"]

    def element(self, s):
        """The address of an element that a variable keeps, or None."""
        t, e = self.f.type_of(s[1]), s[2]
        if t[0] == "ref" and e[0] == "addr" and e[1][:2] == ("deref", t[2]) and e[1][2][0] == "offset":
            return f"&{self.text(e[1], UNARY)}"
        return None

    def made_aggregate(self, e):
        t = e[1]
        lent = self.lent_on(e)
        if lent is not None:
            return self.made(lent)
        if fold.filled(e):
            raise Unknown(e)
        if t[0] == "named" and self.types.named[t[1]][0] == "variants" and self.types.simple(t[1]):
            return self.types.tag(t[1], e[2][0][2]), 20
        return f"({self.types.name(t)}){self.braces(e)}", 14

    def repeated(self, s, pad):
        place, e = self.text(s[1], 15), s[2]
        return [
            f"{pad}for (size_t each = 0; each < {e[3]}; each++) {{",
            f"{pad}    {place}.at[each] = {self.text(e[2])};",
            f"{pad}}}",
        ]

    def branch(self, s, depth, declare):
        pad = "    " * depth
        out = wrapped(f"{pad}if ({self.text(s[1])}) {{") + self.lines(s[2], depth + 1, declare)
        rest = s[3]
        while len(rest) == 1 and rest[0][0] == "if":
            s = rest[0]
            out += wrapped(f"{pad}}} else if ({self.text(s[1])}) {{") + self.lines(s[2], depth + 1, declare)
            rest = s[3]
        if rest:
            out += [f"{pad}}} else {{"] + self.lines(rest, depth + 1, declare)
        return out + [f"{pad}}}"]

    def switch(self, s, depth, declare):
        pad = "    " * depth
        of = self.f.type_of(s[1][1])[1] if s[1][0] == "tag" else None
        arms = list(s[2])
        last = s[3]
        if last is None:  # each value has its arm, so the last one is what is left
            values, last = arms.pop()
            note = f" // {self.types.tag(of, values[0])}" if of else ""
        else:
            note = ""
        if of and len(arms) == 1 and len(arms[0][0]) == 1:
            return self.choice(f"{self.text(s[1])} == {self.types.tag(of, arms[0][0][0])}", arms[0][1], last, depth, declare, note)
        if any(breaks(body) for _, body in arms) or breaks(last):  # C's switch would take the loop's break for its own
            out = []
            for values, body in arms:
                test = " || ".join(f"{self.text(s[1], 9)} == {self.types.tag(of, v) if of else v}" for v in values)
                out += wrapped(f"{pad}{'} else ' if out else ''}if ({test}) {{") + self.lines(body, depth + 1, declare)
            return out + [f"{pad}}} else {{{note}"] + self.lines(last, depth + 1, declare) + [f"{pad}}}"]
        out = [f"{pad}switch ({self.text(s[1])}) {{"]
        for i, (values, body) in enumerate(arms):
            for v in values:
                out.append(f"{pad}case {self.types.tag(of, v) if of else v}:")
            if i + 1 == len(arms) or arms[i + 1][1] != body:
                out += self.arm(body, depth, declare)
        out.append(f"{pad}default:{note}")
        out += self.arm(last, depth, declare)
        return out + [f"{pad}}}"]

    def arm(self, body, depth, declare):
        pad = "    " * (depth + 1)
        inner = self.lines(body, depth + 1, declare)
        if not fold.leaves(body):
            inner.append(f"{pad}break;")
        if declare and any(n in mentions(t) for n in declare for t in body):
            inner = [f"{pad[4:]}{{"] + inner + [f"{pad[4:]}}}"]
        return inner

    def choice(self, condition, then, other, depth, declare, note):
        """One of two arms."""
        pad = "    " * depth
        out = [f"{pad}if ({condition}) {{"] + self.lines(then, depth + 1, declare)
        if fold.leaves(then):
            return out + [f"{pad}}}"] + self.lines(other, depth, declare)
        return out + [f"{pad}}} else {{{note}"] + self.lines(other, depth + 1, declare) + [f"{pad}}}"]

    # ---- the whole

    def parameters(self):
        """Each parameter's type and name; of an exported call a list's pointer and its count."""
        found = []
        for i in range(1, self.f.count + 1):
            t, name = self.f.types[i], self.names[i]
            if self.exported and t[0] == "slice":
                found += [(f"{'' if t[1] else 'const '}{self.types.name(t[2])} *", f"{name}_at"), ("size_t", f"{name}_count")]
            else:
                found.append((self.types.name(t), name))
        return found

    def head(self, name, static):
        parameters = ", ".join(t + n if t.endswith("*") else f"{t} {n}" for t, n in self.parameters())
        return wrapped(f"{'static ' if static else ''}{self.types.name(self.f.types[0])} {name}({parameters or 'void'}) {{")

    def lists_given(self):
        """The lists of an exported call, put together."""
        named = [(self.f.types[i], self.names[i]) for i in range(1, self.f.count + 1)] if self.exported else []
        return [f"    {self.types.name(t)} {name} = {{{name}_at, {name}_count}};" for t, name in named if t[0] == "slice"]

    def printed(self):
        name = identifier(self.f.name)
        head = self.head(name + "_body" if self.guarded else name, self.guarded or not self.exported)
        given = self.lists_given()
        body = list(self.body)
        while body and body[-1] == ["return", None]:
            body.pop()
        used = set()
        for s in body:
            used |= mentions(s)
        counted = {s[1][1] for s in everything(body) if s[0] == "set" and s[1][0] == "var" and s[2][:3] == ("bin", "add", s[1]) and s[2][3][0] == "lit"}
        for n in sorted(used - set(self.names)):
            self.give(n, "result" if n == 0 else "round" if n in counted else "value")
        declare = {n for n in used if n == 0 or n > self.f.count}
        inner = self.lines(body, 1, declare)
        for n in range(1, self.f.count + 1):  # a parameter that is not read says so
            if n not in used and not (self.exported and self.f.types[n][0] == "slice"):
                given.append(f"    (void){self.names[n]};")
        comment = list(self.item.comment) if self.item else [f"// {self.f.name}, of the language's own library."]
        lines = comment + head + given + inner + ["}"]
        if self.guarded:
            around = environment.around(self.types.name(self.f.types[0]), name, self.parameters())
            lines += [""] + self.head(name, False) + [part for line in around for part in wrapped(line)] + ["}"]
        return "\n".join(lines)


def breaks(statements):
    """Whether a list has a break of the loop around it."""
    return any(s[0] == "break" or s[0] in ("if", "switch") and any(breaks(inner) for inner in fold.lists(s)) for s in statements)


def everything(statements):
    """All statements within a list."""
    for s in statements:
        yield s
        for inner in fold.lists(s):
            yield from everything(inner)


def times(e, wanted):
    return 1 if e == wanted else sum(times(p, wanted) for p in fold.parts(e))


def addressed(statements):
    """The variables whose address is taken."""
    found = set()

    def look(e):
        if e[0] == "addr":
            found.add(fold.root(e[1])[0])
        for p in fold.parts(e):
            look(p)

    for s in everything(statements):
        for h in fold.heads(s):
            look(h)
    return found


def stays(statements, n, told):
    """Whether a variable is not read any more once one of those that tell its place is set."""
    for i, s in enumerate(statements):
        if s[0] == "set" and not fold.root(s[1])[1] and fold.root(s[1])[0] in told:
            return not any(n in mentions(t) for t in statements[i + 1 :])
        for inner in fold.lists(s):
            if told & set(set_in(inner)) and not (fold.leaves(inner) and s[0] not in ("loop", "while") and stays(inner, n, told)):
                return False
    return True


def mentions(s):
    found = set()
    for h in fold.heads(s):
        found |= fold.variables(h)
    if s[0] == "set":
        found |= fold.variables(s[1])
    for inner in fold.lists(s):
        for t in inner:
            found |= mentions(t)
    return found


def replaced_everywhere(s, old, new):
    def change(e):
        return ("var", new) if e == ("var", old) else None

    out = []
    for i, x in enumerate(s):
        if isinstance(x, tuple):
            out.append(fold.mapped(x, change))
        elif isinstance(x, list) and s[0] == "switch" and i == 2:
            out.append([(v, [replaced_everywhere(t, old, new) for t in b]) for v, b in x])
        elif isinstance(x, list):
            out.append([replaced_everywhere(t, old, new) for t in x])
        else:
            out.append(x)
    return out


def wrapped(line):
    """A long line, cut where the fewest brackets are open, as far right as that: after a comma or before an operator."""
    pad = " " * (len(line) - len(line.lstrip()) + 8)
    out = []
    while len(line) > WIDTH:
        depth, cuts = 0, []
        for k, c in enumerate(line[:WIDTH]):
            depth += {"(": 1, "{": 1, "[": 1, ")": -1, "}": -1, "]": -1}.get(c, 0)
            if k <= len(pad) + 8:
                continue
            if line.startswith(", ", k):
                cuts.append((2 * depth, -k, k + 1))
            elif any(line.startswith(o, k) for o in (" && ", " || ", " + ", " - ", " * ", " == ")):
                cuts.append((2 * depth + 1, -k, k))
            elif line[k - 1] in "({" and c not in "){":
                cuts.append((2 * depth + 2, -k, k))
        if not cuts:
            break
        cut = min(cuts)[2]
        out.append(line[:cut])
        line = pad + line[cut:].lstrip()
    return out + [line]
