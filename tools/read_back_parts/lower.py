"""From trees of Rattle sources to the program that both sides are brought to: names are resolved and types inferred.

A program here has functions of expressions, tuples whose first entry names the form. Statements are expressions too:
    ('lit', type, value) ('var', name) ('field', e, i, type) ('index', e, i, type) ('deref', e) ('part', e, low, high)
    ('bin', op, type, a, b) ('neg', e) ('not', e) ('and', a, b) ('or', a, b) ('cast', type, e) ('len', e)
    ('struct', type, [(i, e)..]) ('variant', type, k, [e..]) ('array', type, [e..]) ('repeat', type, e)
    ('call', function, [e..]) ('pure', name, type, [e..]) ('ref', place)
    ('let', name, type, e or None) ('set', place, e) ('block', [e..], e or None) ('if', c, a, b)
    ('match', e, type, {k: ([(name, i, type)..], e)}) ('switch', e, [([value..], e)..], e) ('while', c, e)
    ('cases', e, [(pattern, e)..]) ('tag_is', e, k) ('same', type, a, b) ('unit',)
A pattern is ('any',), ('name', name, type), ('int', number, numbers), ('variant', k, [pattern..], [type..]),
('either', [pattern..]) or ('guard', pattern, e).
    ('return', e or None) ('break',) ('continue',)
A shared reference is the value that it refers to: while it lives, nothing writes there (the language's borrow rule). A reference
that can be written through is ('ref', place).

What the sources say in one word, and what is read for it:
    for        a while over an index, which is counted up by one where a round ends and where 'continue' begins the next; backwards it is
               counted down where a round begins. The list and the ends of a range are worked out once, before
    question   x? is the value that x has, or a return of why it has none
    equal      == of what derives PartialEq is the same variant, and equal parts in their order; one that is written by hand is refused
    instance   a function or a type with parameters is read once for each list of types and counts that it is used with, under their names
    method     a method is the one function of the type or of a trait that has its name
"""
import functools
import pathlib

from . import nodes, rattle
from .rattle import Unread

INTEGERS = {"u8": "u8", "u16": "u16", "u32": "u32", "u64": "u64", "usize": "u64"}
MAXIMUM = {"u8": 2**8 - 1, "u16": 2**16 - 1, "u32": 2**32 - 1, "u64": 2**64 - 1}
# Functions of the language itself: to what name both sides bring them, and their types.
PURE = {("f64", "to_bits"): ("to_bits", "f64", "u64"), ("f64", "from_bits"): ("from_bits", "u64", "f64"),
        ("u64", "leading_zeros"): ("leading_zeros", "u64", "u32")}
NEVER = "never"


class Open:
    """The type of an integer literal, or of a variable that is set later, until it is known."""
    def __init__(self, integer):
        self.link, self.integer = None, integer


def known(kind):
    while isinstance(kind, Open) and kind.link is not None:
        kind = kind.link
    if isinstance(kind, tuple) and kind[0] in ("ref", "array", "slice"):
        return tuple(known(k) if isinstance(k, (Open, tuple)) else k for k in kind)
    if isinstance(kind, tuple) and kind[0] == "made":
        return kind[:3] + (tuple(map(known, kind[3])),)
    return kind


def is_open(kind):
    """Whether a type, or one in it, is not known."""
    kind = known(kind)
    return isinstance(kind, Open) or isinstance(kind, tuple) and any(map(is_open, kind))


LIBRARY = {("std", "types", "Option"): "option", ("std", "types", "Result"): "result", ("std", "types", "Pair"): "pair", ("std", "types", "Triple"): "triple"}
VARIANTS = {"None": "Option", "Some": "Option", "Ok": "Result", "Err": "Result"}


def short(kind):
    """What the name of an instance in C has for a type or a count."""
    if not isinstance(kind, tuple):
        return str(kind)
    if kind[0] == "array":
        return f"{short(kind[1])}_x{kind[2]}"
    if kind[0] == "ref":
        mutable = "mut_" if kind[1] else ""
        return f"slice_{mutable}{short(kind[2][1])}" if kind[2][0] == "slice" else f"ref_{mutable}{short(kind[2])}"
    return kind[1]


def name_of(kind):
    """The name of an impl's type, of numbers the one that the form has."""
    return INTEGERS.get(kind[1][-1], kind[1][-1])


class Instance:
    """A function that is called with types and counts that are known later."""
    def __init__(self, path, given):
        self.path, self.given = path, given


class Function:
    def __init__(self, name, origin):
        self.name, self.origin = name, origin
        self.parameters, self.result, self.body, self.exported, self.calls = [], "unit", None, False, set()


class Sources:
    """The items of all crates by their paths, and functions of them brought to the common form when they are asked for."""

    def __init__(self, files):
        """`files`: pairs of a path (crate, module..) and the text of its file."""
        self.items, self.uses, self.structs, self.enums, self.functions = {}, {}, {}, {}, {}
        self.texts, self.instances, self.selves, self.given = dict(files), {}, {}, {}
        for path, text in files:
            self.add(path, rattle.read(text, "/".join(path)))
        self.paths = {}
        for path, item in self.items.items():
            name = mangled(path, item)
            if item[0] in ("fn", "struct", "enum") and self.paths.setdefault(name, path) != path:
                raise Unread(f"{path} and {self.paths[name]} have one name in C: rename one")

    def add(self, path, items):
        uses = self.uses.setdefault(path, {})
        for item in items:
            if item[0] == "use":
                uses.update((path[-1], path) for path in item[1])
            elif item[0] == "mod":
                if path + (item[1],) not in self.texts:
                    raise Unread(f"the module {item[1]} of {path} has no file")
            elif item[0] == "impl":
                self.methods(path, item)
            elif item[0] == "trait":
                self.items[path + (item[1],)] = item
                for method in item[2]:
                    if method[4] is not None:
                        raise Unread(f"{'/'.join(path)}: a function of a trait that has a body")
            else:
                self.items[path + (item[1],)] = item

    def methods(self, path, item):
        """The functions of an impl. One of a trait is in C of the type's and the trait's name together."""
        _, kind, functions, of = item
        if of is not None and of[1][-1] in ("PartialEq", "Drop"):
            raise Unread(f"{'/'.join(path)}: {of[1][-1]} written by hand")
        if kind[0] != "name" or of is not None and (of[0] != "name" or any(a[0] != "name" or a[2] for a in of[2])):
            raise Unread(f"{'/'.join(path)}: an impl that is not known")
        name = kind[1][-1]
        if of is not None:
            name = name[0].upper() + name[1:] + of[1][-1] + "".join(a[1][-1][0].upper() + a[1][-1][1:] for a in of[2])
        for method in functions:
            full = path + (name, method[1])
            self.items[full], self.selves[full] = method, (path, kind)
            if of is not None:
                self.given.setdefault((name_of(kind), method[1]), []).append(full)

    def find(self, module, path):
        """The full path of an item that is named within a module."""
        first = module + (path[0],)
        wanted = ("fn", "const", "struct", "enum") if len(path) == 1 else ("struct", "enum")
        if path[0] == "crate":
            return module[:1] + tuple(path[1:])
        if path[0] == "super":
            return module[:-1] + tuple(path[1:])
        if first in self.texts or self.items.get(first, ("",))[0] in wanted:
            return module + tuple(path)
        if path[0] in self.uses[module] and self.uses[module][path[0]] != path:
            return self.find(module, self.uses[module][path[0]]) + tuple(path[1:])
        if path[0] in ("Option", "Result"):
            return ("std", "types", *path)
        return tuple(path)

    def parts_of(self, path, given=()):
        """The fields of a struct, or the variants of an enumeration with their parts, with types and counts for its parameters. A part
        without a value is none."""
        item = self.items[path]
        if len(item[3]) != len(given):
            raise Unread(f"{'::'.join(path)} with another count of types")
        names = dict(zip((name for name, _ in item[3]), given))

        def typed(parts):
            kinds = [(f, self.type_of(path[:-1], kind, None, names)) for f, kind in parts]
            return [(f, kind) for f, kind in kinds if kind != "unit"]

        return typed(item[2]) if item[0] == "struct" else [(v, typed(parts)) for v, parts in item[2]]

    def named(self, path, given=()):
        """The type of an item."""
        item = self.items.get(path)
        if item is None or item[0] not in ("struct", "enum"):
            raise Unread(f"{'::'.join(path)} is no type that is known")
        if given:
            return ("made", item[0], path, tuple(given))
        return self.kept(item[0], path, ())

    def kept(self, what, path, given):
        """A type that is known whole, by its name in C."""
        name = "_".join([LIBRARY.get(path) or "_".join(path), *map(short, given)])
        table = self.structs if what == "struct" else self.enums
        if self.instances.setdefault(name, (what, path, given)) != (what, path, given):
            raise Unread(f"{path} and {self.instances[name][1]} have one name in C: rename one")
        if name not in table:
            table[name] = None
            table[name] = [(f, self.whole(kind)) if what == "struct" else (f, [(n, self.whole(k)) for n, k in kind]) for f, kind in self.parts_of(path, given)]
        return (what, name)

    def whole(self, kind):
        """The same type, each that is made of others by its name in C."""
        kind = known(kind)
        if isinstance(kind, tuple) and kind[0] == "made":
            return self.kept(kind[1], kind[2], tuple(map(self.whole, kind[3])))
        return tuple(map(self.whole, kind)) if isinstance(kind, tuple) else kind

    def variants(self, kind):
        """The variants of an enumeration whose types may not be known yet."""
        return self.enums[kind[1]] if kind[0] == "enum" else self.parts_of(kind[2], kind[3])

    def fields(self, kind):
        if kind[0] == "struct":
            return self.structs[kind[1]]
        if kind[:2] != ("made", "struct"):
            raise Unread(f"fields of {kind}")
        return self.parts_of(kind[2], kind[3])

    def type_of(self, module, kind, owner=None, names={}):
        """A type of the sources; `names` are the types and counts that stand for parameters."""
        def inner(kind):
            return self.type_of(module, kind, owner, names)

        if kind == "unit" or isinstance(kind, int):
            return kind
        if kind[0] == "ref":
            return ("ref", kind[1], inner(kind[2]))
        if kind[0] == "slice":
            return ("slice", inner(kind[1]))
        if kind[0] == "array":
            count = kind[2]
            if isinstance(count, str):
                count = names[count] if count in names else self.constant(module, count)
            return ("array", inner(kind[1]), count)
        if kind[0] == "tuple":
            return self.named(("std", "types", {2: "Pair", 3: "Triple"}.get(len(kind[1]))), tuple(map(inner, kind[1])))
        _, path, given = kind
        if path == ["Self"] and "Self" in names:
            return names["Self"]
        if len(path) == 1 and path[0] in names and not given:
            return names[path[0]]
        if len(path) == 1 and path[0] in INTEGERS:
            return INTEGERS[path[0]]
        if path in (["f64"], ["bool"]):
            return path[0]
        return self.named(self.find(module, path), tuple(map(inner, given)))

    def constant(self, module, name):
        """A named count."""
        item = self.items.get(self.find(module, [name]))
        if item is None or item[0] != "const" or item[3][0] != "int":
            raise Unread(f"{module}: a count {name} that is no number")
        return item[3][1]

    def place_of(self, path, names):
        """The module of a function, and the type that it is a method of, or None; `names` are the types of its parameters."""
        if path not in self.selves:
            return path[:-1], None
        module, kind = self.selves[path]
        names["Self"] = self.type_of(module, kind, None, names)
        return module, self.find(module, kind[1])

    def function(self, path, given=()):
        """A function in the common form, with types and counts for its parameters."""
        if (path, given) not in self.functions:
            self.functions[path, given] = Lowering(self, path, self.items[path], given).function
        return self.functions[path, given]

    @functools.lru_cache(maxsize=None)
    def reached(self, also=()):
        """By its name in C, each function that an export of the crate dihkelu reaches, or one of the paths `also`."""
        todo = [(path, ()) for path in also]
        todo += [(path, ()) for path, item in self.items.items() if item[0] == "fn" and item[5] and path[0] == "dihkelu"]
        found, done = {}, set()
        while todo:
            path, given = todo.pop()
            function = self.function(path, given)
            if found.setdefault(function.name, function) is not function:
                raise Unread(f"two functions are called {function.name} in C: rename one")
            if function.name not in done:
                done.add(function.name)
                todo.extend(sorted(function.calls, key=repr))
        return found


def mangled(path, item):
    return item[1] if item[0] == "fn" and item[5] else "_".join(path)


def library():
    """What the sources take from the language's own library."""
    here = pathlib.Path(__file__).parent
    return [(("std", name), (here / f"std_{name}.txt").read_text()) for name in ("num", "types")] + [(("std",), "pub mod num;\npub mod types;")]


def load(root, wanted=("dihkelu", "train_text")):
    """The sources of some crates of a checkout, and of those that they depend on."""
    lines = [line.split("#")[0].partition(":") for line in (root / "crates.txt").read_text().splitlines()]
    needs = {name.strip(): names.split() for name, _, names in lines if name.strip()}
    todo, crates = list(wanted), set()
    while todo:
        crate = todo.pop()
        if crate in needs and crate not in crates:
            crates.add(crate)
            todo += needs[crate]
    files = library()
    for crate in sorted(crates):
        for file in sorted((root / "crates" / crate / "src").glob("*.rt")):
            files.append(((crate,) if file.stem == "lib" else (crate, file.stem), file.read_text()))
    return files


def numbers_in(pattern, where, found):
    """The numbers that patterns have at each place within a value."""
    if pattern[0] == "int":
        found.setdefault(where, set()).add(pattern[1])
    elif pattern[0] == "variant":
        for i, p in enumerate(pattern[2]):
            numbers_in(p, (*where, pattern[1], i), found)
    elif pattern[0] in ("either", "guard"):
        for p in pattern[1] if pattern[0] == "either" else [pattern[1]]:
            numbers_in(p, where, found)


def with_numbers(pattern, where, found):
    """The same pattern, each number in it beside all those that are asked for at its place."""
    if pattern[0] == "int":
        return ("int", pattern[1], tuple(sorted(found[where])))
    if pattern[0] == "variant":
        return (*pattern[:2], [with_numbers(p, (*where, pattern[1], i), found) for i, p in enumerate(pattern[2])], pattern[3])
    if pattern[0] == "either":
        return ("either", [with_numbers(p, where, found) for p in pattern[1]])
    return ("guard", with_numbers(pattern[1], where, found), pattern[2]) if pattern[0] == "guard" else pattern


class Lowering:
    """One function."""

    def __init__(self, sources, path, item, given):
        self.sources = sources
        _, name, parameters, result, body, exported, generics, line = item
        if len(generics) != len(given):
            raise Unread(f"{'::'.join(path)}: another count of types")
        self.given = dict(zip((name for name, _ in generics), given))
        self.module, self.owner = module, _ = sources.place_of(path, self.given)
        self.function = Function("_".join([mangled(path, item), *map(short, given)]), f"{'/'.join(module)}:{line}")
        self.function.exported = exported
        self.count, self.scopes, self.steps, self.numbers = 0, [{}], [], []
        for parameter, kind in parameters:
            kind = sources.whole(self.type_of(kind))
            self.function.parameters.append((self.bind(parameter, kind), kind))
        self.function.result = self.result = sources.whole(self.type_of(result))
        code, kind = self.expression(body)
        code = self.fit(code, kind, self.result)
        for number in self.numbers:  # a range of numbers without a type is one of i32, none of which is below 0: u32 has them
            if isinstance(known(number), Open):
                self.unify(number, "u32")
        self.function.body = self.settled(code)

    def type_of(self, kind):
        return self.sources.type_of(self.module, kind, self.owner, self.given)

    def fail(self, why):
        raise Unread(f"{self.function.origin}: {self.function.name}: {why}: teach tools/read_back_parts/lower.py this form")

    # ---- types

    def unify(self, a, b):
        """The one type that two places have."""
        a, b = known(a), known(b)
        if a == NEVER or a is b:
            return b
        if b == NEVER:
            return a
        if isinstance(b, Open):
            a, b = b, a
        if isinstance(a, Open):
            if a.integer and not isinstance(b, Open) and b not in MAXIMUM:
                self.fail(f"a whole number as {b}")
            if isinstance(b, Open):
                b.integer = b.integer or a.integer
            a.link = b
            return b
        if isinstance(a, tuple) and isinstance(b, tuple) and a[0] == b[0] and a[0] in ("ref", "array", "slice"):
            if a[0] == "array" and a[2] != b[2] and (isinstance(a[2], Open) or isinstance(b[2], Open)):
                one, other = (a[2], b[2]) if isinstance(a[2], Open) else (b[2], a[2])
                one.link = other
                a, b = known(a), known(b)
            if a[0] == "ref" and a[1] == b[1] or a[0] == "array" and a[2] == b[2]:
                inner = 2 if a[0] == "ref" else 1
                self.unify(a[inner], b[inner])
                return a
            if a[0] == "slice":
                self.unify(a[1], b[1])
                return a
        if isinstance(a, tuple) and isinstance(b, tuple) and "made" in (a[0], b[0]):
            first, second = self.opened_type(a), self.opened_type(b)
            if first[:3] == second[:3]:
                for x, y in zip(first[3], second[3]):
                    self.unify(x, y)
                return a
        if a != b:
            self.fail(f"types {a} and {b} where one is wanted")
        return a

    def opened_type(self, kind):
        """A type by its item and the types that it is made of."""
        return kind if kind[0] == "made" else ("made", *self.sources.instances.get(kind[1], (kind[0], kind[1], ())))

    def solid(self, kind):
        """A type whose item is known; what it is made of may not be."""
        kind = known(kind)
        return kind if is_open(kind) else self.sources.whole(kind)

    def is_enum(self, kind):
        return isinstance(kind, tuple) and (kind[0] == "enum" or kind[:2] == ("made", "enum"))

    def fit(self, code, kind, want):
        """An expression where a type is wanted: lists and references are lent on."""
        kind, want = known(kind), known(want)
        if isinstance(kind, tuple) and isinstance(want, tuple) and kind[0] == want[0] == "ref":
            if kind[1] and not want[1]:
                code, kind = ("deref", code), ("ref", False, kind[2])
            if want[2][0] == "slice" and kind[2][0] == "array":
                self.unify(kind[2][1], want[2][1])
                return code
        self.unify(kind, want)
        return code

    def settled(self, code):
        """The same code with every type known."""
        if isinstance(code, Open):
            found = known(code)
            if isinstance(found, Open):
                self.fail("the type of a number is not known")
            return self.settled(found)
        if isinstance(code, Instance):
            given = tuple(self.sources.whole(self.settled(kind)) for kind in code.given)
            self.function.calls.add((code.path, given))
            return "_".join([mangled(code.path, self.sources.items[code.path]), *map(short, given)])
        if isinstance(code, tuple) and code[:1] == ("made",):
            return self.sources.whole(tuple(self.settled(c) for c in code))
        if isinstance(code, tuple):
            return tuple(self.settled(c) for c in code)
        if isinstance(code, list):
            return [self.settled(c) for c in code]
        if isinstance(code, dict):
            return {k: self.settled(v) for k, v in code.items()}
        return code

    # ---- names

    def bind(self, name, kind):
        self.count += 1
        self.scopes[-1][name] = (f"{name}#{self.count}", kind)
        return self.scopes[-1][name][0]

    def local(self, name):
        for scope in reversed(self.scopes):
            if name in scope:
                return scope[name]
        return None

    def scoped(self, work):
        self.scopes.append({})
        try:
            return work()
        finally:
            self.scopes.pop()

    def variant_of(self, path):
        """The enum, with types that are open, the index and the parts of a variant, or None."""
        if len(path) < 2 and path[0] not in VARIANTS:
            return None
        if len(path) == 1:
            owner = ("std", "types", VARIANTS[path[0]])
        else:
            owner = self.owner if path[-2] == "Self" else self.sources.find(self.module, path[:-1])
        item = self.sources.items.get(owner, ("",))
        if item[0] != "enum":
            return None
        kind = self.sources.named(owner, tuple(Open(False) for _ in item[3]))
        for k, (name, parts) in enumerate(self.sources.variants(kind)):
            if name == path[-1]:
                return kind, k, parts
        return None

    def full(self, path):
        if path[0] == "Self":
            return self.owner + tuple(path[1:])
        return self.sources.find(self.module, path)

    # ---- expressions

    def expression(self, e):
        return getattr(self, "of_" + e[0])(e)

    def of_int(self, e):
        kind = INTEGERS[e[2]] if e[2] else Open(True)
        return ("lit", kind, e[1]), kind

    def of_float(self, e):
        return ("lit", "f64", nodes.float_bits(e[1])), "f64"

    def of_bool(self, e):
        return ("lit", "bool", e[1]), "bool"

    def of_bytes(self, e):
        kind = ("array", "u8", len(e[1]))
        return ("array", kind, [("lit", "u8", b) for b in e[1]]), ("ref", False, kind)

    def of_path(self, e):
        path = e[1]
        found = self.local(path[0]) if len(path) == 1 else None
        if found:
            return (found[0] if isinstance(found[0], tuple) else ("var", found[0])), found[1]
        if len(path) == 2 and path[0] in INTEGERS and path[1] == "MAX":
            kind = INTEGERS[path[0]]
            return ("lit", kind, MAXIMUM[kind]), kind
        unit = self.variant_of(path)
        if unit:
            if unit[2]:
                self.fail(f"{path} without its parts")
            return ("variant", unit[0], unit[1], []), unit[0]
        if len(path) == 1 and isinstance(self.given.get(path[0]), int):
            return ("lit", "u64", self.given[path[0]]), "u64"
        full = self.full(path)
        item = self.sources.items.get(full)
        if item is None or item[0] != "const":
            self.fail(f"a name {path} that is not known")
        return self.of_constant(full, item)

    def of_constant(self, full, item):
        """A named constant is its value, worked out where it is used."""
        module, self.module, scopes, self.scopes = self.module, full[:-1], self.scopes, [{}]
        owner, self.owner, given, self.given = self.owner, None, self.given, {}
        kind = self.sources.type_of(self.module, item[2])
        code, found = self.expression(item[3])
        self.module, self.scopes, self.owner, self.given = module, scopes, owner, given
        return self.fit(code, found, kind), kind

    def arguments(self, given, kinds):
        if len(given) != len(kinds):
            self.fail("another count of arguments")
        out = []
        for e, want in zip(given, kinds):
            code, kind = self.expression(e)
            out.append(self.fit(code, kind, want))
        return out

    def of_call(self, e):
        if e[1][0] != "path":
            self.fail("a call of no name")
        path, given = e[1][1], e[2]
        if tuple(path) in PURE:
            name, takes, gives = PURE[tuple(path)]
            return ("pure", name, gives, self.arguments(given, [takes])), gives
        if len(path) == 2 and path[0] in INTEGERS and path[1] == "from" and len(given) == 1:
            code, kind = self.expression(given[0])
            if known(kind) not in nodes.WIDTH:
                self.fail(f"a number from {kind}")
            return ("cast", INTEGERS[path[0]], code), INTEGERS[path[0]]
        made = self.variant_of(path)
        if made:
            return ("variant", made[0], made[1], self.arguments(given, [kind for _, kind in made[2]])), made[0]
        full = self.full(path)
        ofs = self.sources.given.get(tuple(path[-2:]), [])
        full = ofs[0] if full not in self.sources.items and len(ofs) == 1 else full
        item = self.sources.items.get(full)
        if item is None:
            self.fail(f"a call of {path}, which is not known")
        if item[0] == "struct":
            kind = self.sources.named(full, tuple(Open(False) for _ in item[3]))
            return ("struct", kind, list(enumerate(self.arguments(given, [k for _, k in self.sources.fields(kind)])))), kind
        return self.called(full, given)

    def called(self, full, given):
        """A call; one with parameters is of an instance that the arguments tell."""
        item = self.sources.items[full]
        opens = tuple(Open(False) for _ in item[6])
        names = dict(zip((name for name, _ in item[6]), opens))
        module, owner = self.sources.place_of(full, names)
        kinds = [self.sources.type_of(module, kind, owner, names) for _, kind in item[2]]
        result = self.sources.type_of(module, item[3], owner, names)
        return ("call", Instance(full, opens), self.arguments(given, kinds), kinds, result), result

    def of_method(self, e):
        _, subject, name, given = e
        code, kind = self.expression(subject)
        kind = self.solid(kind)
        inner = self.solid(kind[2]) if kind[0] == "ref" else kind
        if inner[0] in ("array", "slice"):
            return self.of_list(code, kind, inner, name, given)
        if inner in MAXIMUM and name in ("min", "max") and len(given) == 1:
            return self.bounded(code, inner, name, given[0])
        if isinstance(inner, tuple) and self.opened_type(inner)[2:3] in ((path,) for path in LIBRARY):
            return self.of_library(code, kind, name, given)
        full = self.method(inner, name)
        takes = self.sources.items[full][2][0][1]
        if takes[0] == "ref" and kind[0] != "ref":
            subject = ("ref", takes[1], subject)
        elif takes[0] != "ref" and kind[0] == "ref":
            subject = ("unary", "*", subject)
        return self.called(full, [subject] + given)

    def of_list(self, code, kind, whole, name, given):
        """What a list says of itself: its length, whether it is empty, and an element that may not be there."""
        many = ("len", code)
        if name == "len" and not given:
            return many, "u64"
        if name == "is_empty" and not given:
            return ("bin", "==", "u64", many, ("lit", "u64", 0)), "bool"
        if name in ("get", "first") and len(given) == (name == "get"):
            made = self.sources.named(("std", "types", "Option"), (("ref", False, whole[1]),))
            at, list_ = self.bind(" at", "u64"), self.bind(" list", ("ref", False, whole))
            place = self.fit(*self.expression(given[0]), "u64") if given else ("lit", "u64", 0)
            lets = [("let", list_, ("ref", False, whole), self.opened(code, kind)[0]), ("let", at, "u64", place)]
            there = ("bin", "<", "u64", ("var", at), ("len", ("var", list_)))
            found = ("variant", made, 1, [("index", ("var", list_), ("var", at), whole[1])])
            return ("block", lets, ("if", there, found, ("variant", made, 0, []))), made
        return self.fail(f"the method {name} of a list")

    def bounded(self, code, kind, name, other):
        """The less, or the greater, of two whole numbers."""
        one, two = self.bind(" one", kind), self.bind(" two", kind)
        lets = [("let", one, kind, code), ("let", two, kind, self.fit(*self.expression(other), kind))]
        less = ("bin", "<", kind, ("var", two), ("var", one))
        first, second = (two, one) if name == "min" else (one, two)
        return ("block", lets, ("if", less, ("var", first), ("var", second))), kind

    def method(self, kind, name):
        """The function that a method is: one of the type, or one of a trait, which must be one alone."""
        parted = isinstance(kind, tuple) and kind[0] in ("struct", "enum", "made")
        full = (*self.opened_type(kind)[2], name) if parted else None
        if full in self.sources.items:
            return full
        found = self.sources.given.get((full[-2] if parted else kind, name), [])
        if len(found) != 1:
            self.fail(f"the method {name} of {kind}, which is not known")
        return found[0]

    def of_library(self, code, kind, name, given):
        """Option's and Result's own methods, each by what it is said to do."""
        code, kind = self.opened(code, kind)
        variants = [v for v, _ in self.sources.variants(kind)]
        asked = {"is_some": "Some", "is_none": "None", "is_ok": "Ok", "is_err": "Err"}.get(name)
        if asked in variants and not given:
            return ("tag_is", code, variants.index(asked)), "bool"
        if name == "unwrap_or" and len(given) == 1:
            good = "Some" if "Some" in variants else "Ok"
            k = variants.index(good)
            want = self.sources.variants(kind)[k][1][0][1]
            whole, other, value = (self.bind(" " + n, w) for n, w in (("whole", kind), ("other", want), ("value", want)))
            second = self.fit(*self.expression(given[0]), want)
            cases = [(("variant", k, [("name", value, want)], [want]), ("var", value)), (("any",), ("var", other))]
            return ("block", [("let", whole, kind, code), ("let", other, want, second)], ("cases", ("var", whole), cases)), want
        if name == "ok_or" and len(given) == 1 and "Some" in variants:
            inner = self.sources.variants(kind)[1][1][0][1]
            second, found = self.expression(given[0])
            made = self.sources.named(("std", "types", "Result"), (inner, found))
            whole, other, value = (self.bind(" " + n, w) for n, w in (("whole", kind), ("other", found), ("value", inner)))
            cases = [(("variant", 1, [("name", value, inner)], [inner]), ("variant", made, 0, [("var", value)])), (("any",), ("variant", made, 1, [("var", other)]))]
            return ("block", [("let", whole, kind, code), ("let", other, found, second)], ("cases", ("var", whole), cases)), made
        return self.fail(f"the method {name} of {variants}")

    def opened(self, code, kind):
        """What a reference refers to."""
        kind = self.solid(kind)
        if kind[0] != "ref":
            return code, kind
        return (code[1] if code[0] == "ref" and len(code) == 2 else ("deref", code)), self.solid(kind[2])

    def of_field(self, e):
        code, kind = self.opened(*self.expression(e[1]))
        if kind[0] != "struct" and kind[:2] != ("made", "struct"):
            self.fail(f"a field of {kind}")
        fields = self.sources.fields(kind)
        i = next((i for i, (f, _) in enumerate(fields) if f == e[2]), None)
        if i is None:
            self.fail(f"{kind} has no field {e[2]}")
        return ("field", code, i, fields[i][1]), fields[i][1]

    def of_index(self, e):
        code, kind = self.opened(*self.expression(e[1]))
        if kind[0] not in ("array", "slice"):
            self.fail(f"an element of {kind}")
        if e[2][0] == "range":
            low, high = (None if end is None else self.fit(*self.expression(end), "u64") for end in e[2][1:])
            return ("part", code, low, high), ("slice", kind[1])
        return ("index", code, self.fit(*self.expression(e[2]), "u64"), kind[1]), kind[1]

    def of_ref(self, e):
        code, kind = self.expression(e[2])
        return (("ref", code) if e[1] else code), ("ref", e[1], kind)

    def of_unary(self, e):
        code, kind = self.expression(e[2])
        if e[1] == "*":
            return self.opened(code, kind)
        if e[1] == "-":
            return ("neg", self.fit(code, kind, "f64")), "f64"
        return ("not", self.fit(code, kind, "bool")), "bool"

    def of_binary(self, e):
        _, op, left, right = e
        a, kind = self.expression(left)
        b, other = self.expression(right)
        if op in ("&&", "||"):
            return ("and" if op == "&&" else "or", self.fit(a, kind, "bool"), self.fit(b, other, "bool")), "bool"
        if op in ("<<", ">>"):
            if isinstance(known(other), Open):
                self.unify(other, "u32")
            return ("bin", op, kind, a, b), kind
        if op in ("==", "!=") and (self.parted(kind) or self.parted(other)):
            return self.compared(op, *self.opened(a, kind), *self.opened(b, other))
        kind = self.unify(kind, other)
        return ("bin", op, kind, a, b), "bool" if op in ("==", "!=", "<", "<=", ">", ">=") else kind

    def parted(self, kind):
        """Whether a type is a struct or an enumeration, or a reference to one."""
        kind = known(kind)
        kind = known(kind[2]) if isinstance(kind, tuple) and kind[0] == "ref" else kind
        return isinstance(kind, tuple) and kind[0] in ("struct", "enum", "made")

    def compared(self, op, a, kind, b, other):
        """Equality as a derive gives it: the same variant, and all parts equal in their order."""
        kind = self.unify(kind, other)
        same = ("same", kind, a, b)
        return (same if op == "==" else ("not", same)), "bool"

    def of_as(self, e):
        code, kind = self.expression(e[1])
        want = self.type_of(e[2])
        if isinstance(known(kind), Open):
            self.unify(kind, want)
        return ("cast", want, code), want

    def of_struct(self, e):
        _, path, given = e
        made = self.variant_of(path)
        if made:
            kind, k, parts = made
            order = [f for f, _ in parts]
            values = dict(given)
            if sorted(order) != sorted(values):
                self.fail("other parts than the variant has")
            return ("variant", kind, k, self.arguments([values[f] for f in order], [t for _, t in parts])), kind
        full = self.owner if path == ["Self"] else self.full(path)
        kind = self.sources.named(full, tuple(Open(False) for _ in self.sources.items[full][3]))
        fields = self.sources.fields(kind)
        order = [f for f, _ in fields]
        if sorted(order) != sorted(f for f, _ in given):
            self.fail("other fields than the struct has")
        out = []
        for name, value in given:
            i = order.index(name)
            out.append((i, self.fit(*self.expression(value), fields[i][1])))
        return ("struct", kind, out), kind

    def of_array(self, e):
        kind, out = Open(False), []
        for value in e[1]:
            code, found = self.expression(value)
            kind = self.unify(kind, found)
            out.append(code)
        kind = ("array", kind, len(out))
        return ("array", kind, out), kind

    def of_repeat(self, e):
        code, kind = self.expression(e[1])
        count = e[2]
        if isinstance(count, str):
            count = self.given[count] if count in self.given else self.sources.constant(self.module, count)
        kind = ("array", kind, count)
        return ("repeat", kind, code), kind

    def converted(self, code, kind, want):
        """Why there is no value, as the function returns it: as it is, or by the one `From` of the two types."""
        kind, want = self.solid(kind), self.solid(want)
        if is_open(kind) or is_open(want) or kind == want:
            return self.fit(code, kind, want)
        for full in self.sources.given.get((self.opened_type(want)[2][-1], "from"), []):
            item = self.sources.items[full]
            module, kinds = self.sources.selves[full][0], [item[2][0][1]]
            if not item[6] and self.sources.type_of(module, kinds[0]) == kind:
                return ("call", Instance(full, ()), [code], [kind], want)
        return self.fail(f"no conversion from {kind} to {want}")

    # ---- statements

    def of_block(self, e):
        return self.scoped(lambda: self.block(e))

    def block(self, e):
        out, left = [], False
        for statement in e[1]:
            code, kind = self.expression(statement)
            out.append(code)
            left = left or kind == NEVER
        if e[2] is None:
            return ("block", out, None), NEVER if left else "unit"
        code, kind = self.expression(e[2])
        return ("block", out, code), NEVER if left else kind

    def of_expr(self, e):
        code, kind = self.expression(e[1])
        return code, NEVER if kind == NEVER else "unit"

    def of_let(self, e):
        _, name, kind, value = e
        kind = self.type_of(kind) if kind else Open(False)
        code = None
        if value is not None:
            code, found = self.expression(value)
            if isinstance(known(kind), Open):
                kind = found
            code = self.fit(code, found, kind)
        return ("let", self.bind(name, kind), kind, code), "unit"

    def of_set(self, e):
        _, op, place, value = e
        target, kind = self.expression(place)
        code, found = self.expression(value)
        if op:
            kind = self.unify(kind, found)
            return ("set", target, ("bin", op, kind, target, code)), "unit"
        return ("set", target, self.fit(code, found, kind)), "unit"

    def of_return(self, e):
        code = None if e[1] is None else self.fit(*self.expression(e[1]), self.result)
        return ("return", code), NEVER

    def of_unit(self, e):
        return e, "unit"

    def of_tuple(self, e):
        parts = [self.expression(part) for part in e[1]]
        kind = self.sources.named(("std", "types", {2: "Pair", 3: "Triple"}.get(len(parts))), tuple(kind for _, kind in parts))
        return ("struct", kind, [(i, code) for i, (code, _) in enumerate(parts)]), kind

    def of_break(self, e):
        return e, NEVER

    def of_continue(self, e):
        """The next round; that of a for begins with its step."""
        step = self.steps[-1] if self.steps else None
        return (("block", [step, e], None) if step else e), NEVER

    def round(self, step, work):
        """What `work` gives, within a loop of this step."""
        self.steps.append(step)
        found = work()
        self.steps.pop()
        return found

    def of_while(self, e):
        condition = self.fit(*self.expression(e[1]), "bool")
        return ("while", condition, self.round(None, lambda: self.expression(e[2])[0])), "unit"

    def of_for(self, e):
        return self.scoped(lambda: self.counted(*e[1:]))

    def counted(self, pattern, over, body):
        """A for is a while over an index, which is counted up by one at the end of a round and where the next one begins. Backwards it is
        counted down at the beginning of a round."""
        back = over[0] == "method" and over[2] == "rev" and over[1][0] == "span"
        if over[0] == "span" or back:
            return self.over_numbers(pattern, over[1] if back else over, back, body)
        pair = over[0] == "method" and over[2] == "enumerate"
        over = over[1] if pair else over
        by = over[2] if over[0] == "method" and over[2] in ("iter", "iter_mut") and not over[3] else None
        over = over[1] if by else over
        code, kind = self.expression(over)
        kind = self.solid(kind)
        lent = kind[0] == "ref" or by is not None
        mutable = by == "iter_mut" or by is None and kind[0] == "ref" and kind[1]
        many = code
        code, whole = self.opened(code, kind)
        if whole[0] not in ("array", "slice"):
            self.fail(f"a loop over {kind}")
        if pair and (pattern[0] != "parts" or len(pattern[1]) != 2 or pattern[1][0][0] not in ("bind", "any")):
            self.fail("a loop over places and elements without a name for each")
        place, element = pattern[1] if pair else (("any",), pattern)
        at = self.bind(place[1] if place[0] == "bind" else " at", "u64")
        lets = [("let", at, "u64", ("lit", "u64", 0))]
        if not mutable:
            listed = self.bind(" list", ("ref", False, whole) if lent else whole)
            lets.insert(0, ("let", listed, ("ref", False, whole) if lent else whole, code))
            code = many = ("var", listed)
        here = ("index", code, ("var", at), whole[1])
        step = ("set", ("var", at), ("bin", "+", "u64", ("var", at), ("lit", "u64", 1)))
        first = self.element(element, here, whole[1], lent, mutable)
        inner = self.round(step, lambda: self.expression(body)[0])
        test = ("bin", "<", "u64", ("var", at), ("len", many))
        return ("block", [*lets, ("while", test, ("block", [*first, inner, step], None))], None), "unit"

    def element(self, pattern, here, kind, lent, mutable):
        """What begins a round: the name of the element. Of a list that is lent to be written it stands for the element's place."""
        opened = pattern[0] == "lent"
        pattern = pattern[1] if opened else pattern
        if pattern[0] == "any":
            return []
        if pattern[0] != "bind" or opened and (mutable or not lent):
            self.fail("a pattern of an element")
        if mutable:
            self.scopes[-1][pattern[1]] = (("ref", here), ("ref", True, kind))
            return []
        return [("let", self.bind(pattern[1], ("ref", False, kind) if lent and not opened else kind), kind, here)]

    def over_numbers(self, pattern, span, back, body):
        _, low, high, whole = span
        # 'at <= end' never ends where the end is its type's largest number: 255 is the first that is one
        if pattern[0] not in ("bind", "any") or whole and (back or high[0] != "int" or high[1] >= 255):
            self.fail("a range that is not known")
        first, kind = self.expression(low)
        last, other = self.expression(high)
        kind = self.unify(kind, other)
        if isinstance(known(kind), Open):
            self.numbers.append(kind)
        at, end = self.bind(" at", kind), self.bind(" end", kind)
        self.scopes[-1][pattern[1] if pattern[0] == "bind" else " at"] = (at, kind)
        one = ("bin", "-" if back else "+", kind, ("var", at), ("lit", kind, 1))
        step = ("set", ("var", at), one)
        inner = self.round(None if back else step, lambda: self.expression(body)[0])
        test = ("bin", "<", kind, ("var", end), ("var", at)) if back else ("bin", "<=" if whole else "<", kind, ("var", at), ("var", end))
        start, stop = (last, first) if back else (first, last)
        loop = ("while", test, ("block", [step, inner] if back else [inner, step], None))
        lets = [("let", end, kind, stop), ("let", at, kind, start)] if back else [("let", at, kind, start), ("let", end, kind, stop)]
        return ("block", [*lets, loop], None), "unit"

    def of_question(self, e):
        """The value, or a return of why there is none; why stays as it is."""
        code, kind = self.expression(e[1])
        kind, result = self.solid(kind), self.opened_type(self.result) if isinstance(self.result, tuple) else (None,)
        if not self.is_enum(kind) or self.opened_type(kind)[2] not in LIBRARY or result[2:3] != self.opened_type(kind)[2:3]:
            self.fail("'?' of what the function does not return")
        variants = self.sources.variants(kind)
        good, bad = (1, 0) if variants[0][0] == "None" else (0, 1)
        out = {}
        for k in (good, bad):
            parts = [(self.bind(" part", kinds), i, kinds) for i, (_, kinds) in enumerate(variants[k][1])]
            if k == good:
                out[k] = parts, ("var", parts[0][0]) if parts else ("unit",)
                value = parts[0][2] if parts else "unit"
                continue
            wanted = [kinds for _, kinds in self.sources.variants(self.result)[k][1]]
            given = [self.converted(("var", name), kinds, want) for (name, _, kinds), want in zip(parts, wanted, strict=True)]
            out[k] = parts, ("return", ("variant", self.result, k, given))
        return ("match", code, kind, out), value

    def of_if(self, e):
        condition = self.fit(*self.expression(e[1]), "bool")
        then, kind = self.expression(e[2])
        if e[3] is None:
            return ("if", condition, then, None), "unit"
        other, found = self.expression(e[3])
        return ("if", condition, then, other), self.unify(kind, found)

    def of_if_let(self, e):
        _, pattern, value, then, other = e
        arms = [(pattern, None, then), (("any",), None, other or ("block", [], None))]
        return self.cases(*self.expression(value), arms)

    def of_while_let(self, e):
        """A round for as long as the pattern fits."""
        code, kind = self.expression(e[2])
        inner, _ = self.round(None, lambda: self.cases(code, kind, [(e[1], None, e[3]), (("any",), None, ("break",))]))
        return ("while", ("lit", "bool", True), inner), "unit"

    def of_let_else(self, e):
        """The names of a pattern, or a way that leaves."""
        _, pattern, value, other = e
        code, kind = self.expression(value)
        kind = self.solid(kind)
        if pattern[0] == "parts" and other is None:
            return self.taken_apart(pattern, code, kind)
        if other is None:
            self.fail("a pattern of 'let' that always fits")
        left, found = self.expression(other)
        if found != NEVER:
            self.fail("an 'else' that goes on")
        fits = self.fitting(pattern, kind)
        return ("cases", code, [(fits, ("unit",)), (("any",), left)]), "unit"

    def taken_apart(self, pattern, code, kind):
        """The parts of a tuple, each with a name."""
        if kind[0] not in ("struct", "made") or self.opened_type(kind)[2] not in LIBRARY or len(self.sources.fields(kind)) != len(pattern[1]):
            self.fail(f"parts of {kind}")
        whole = self.bind(" whole", kind)
        lets = [("let", whole, kind, code)]
        for i, (p, (_, part)) in enumerate(zip(pattern[1], self.sources.fields(kind))):
            if p[0] == "bind":
                lets.append(("let", self.bind(p[1], part), part, ("field", ("var", whole), i, part)))
            elif p[0] != "any":
                self.fail("a pattern within a pattern")
        return ("block", lets, None), "unit"

    def of_matches(self, e):
        code, kind = self.expression(e[1])
        return self.cases(code, kind, [(e[2], None, ("bool", True)), (("any",), None, ("bool", False))])

    def cases(self, code, kind, arms):
        """A choice by patterns, which are tried in their order."""
        self.no_written_part(kind, [pattern for pattern, _, _ in arms])
        code, kind = self.opened(code, kind)
        out, result = [], NEVER
        for pattern, _, body in arms:
            self.scopes.append({})
            guard = pattern[2] if pattern[0] == "guard" else None
            fits = self.fitting(pattern[1] if guard else pattern, kind)
            if guard:
                fits = ("guard", fits, self.fit(*self.expression(guard), "bool"))
            inner, found = self.expression(body)
            result = self.unify(result, found)
            self.scopes.pop()
            out.append((fits, inner))
        numbers = {}
        for fits, _ in out:
            numbers_in(fits, (), numbers)
        return ("cases", code, [(with_numbers(fits, (), numbers), inner) for fits, inner in out]), result

    def no_written_part(self, kind, patterns):
        """A name of a part of what is lent to be written may be written through, which is not followed."""
        kind = self.solid(kind)
        if kind[0] == "ref" and kind[1] and "'bind'" in repr(patterns):
            self.fail("a name of a part that may be written")

    def fitting(self, pattern, kind):
        """A pattern in the common form; its names are bound."""
        kind = self.solid(kind)
        if pattern[0] == "or":
            found = [self.fitting(p, kind) for p in pattern[1]]
            if any("name" in repr(p) for p in found):
                self.fail("a name in one of some patterns")
            return ("either", found)
        if pattern[0] == "bind":
            return ("name", self.bind(pattern[1], kind), kind)
        if pattern[0] == "int":
            self.unify(kind, Open(True))
            return pattern
        if pattern[0] != "variant":
            if pattern[0] != "any":
                self.fail(f"a pattern '{pattern[0]}' within a choice")
            return pattern
        found = self.variant_of(pattern[1])
        if not found:
            self.fail(f"a pattern {pattern[1]} that is no variant")
        self.unify(found[0], kind)
        _, k, _ = found
        parts = self.sources.variants(self.solid(kind))[k][1]
        inner = self.inner_patterns(pattern, parts)
        if not parts and inner == [("any",)]:  # the part without a value
            inner = []
        if len(inner) != len(parts):
            self.fail(f"another count of parts of {pattern[1]}")
        return ("variant", k, [self.fitting(p, part) for p, (_, part) in zip(inner, parts)], [part for _, part in parts])

    def of_match(self, e):
        subject, kind = self.expression(e[1])
        arms = [(p, body) for pattern, body in e[2] for p in (pattern[1] if pattern[0] == "or" else [pattern])]
        self.no_written_part(kind, [p for p, _ in arms])
        subject, kind = self.opened(subject, kind)
        if self.is_enum(kind):
            nested = any(p[0] == "guard" or p[0] == "variant" and any(q[0] not in ("bind", "any", "rest") for q in (p[2] or (p[3] or {}).values())) for p, _ in arms)
            if nested:
                return self.cases(subject, kind, [(p, None, body) for p, body in arms])
            return self.by_variant(subject, kind, arms)
        return self.by_number(subject, kind, arms)

    def by_variant(self, subject, kind, arms):
        variants, out, result = self.sources.variants(kind), {}, NEVER
        for k, (name, parts) in enumerate(variants):
            pattern, body = next((p, b) for p, b in arms if p[0] in ("any", "bind") or self.picks(p, kind, k))
            self.scopes.append({})
            bound = []
            if pattern[0] == "bind":
                self.fail("a name for the whole of what is matched")
            inner = [] if pattern[0] == "any" else self.inner_patterns(pattern, parts)
            if pattern[0] != "any" and len(inner) != len(parts) and (parts or inner != [("any",)]):
                self.fail(f"another count of parts of {pattern[1]}")
            for i, p in enumerate(inner):
                if p[0] == "bind":
                    bound.append((self.bind(p[1], parts[i][1]), i, parts[i][1]))
                elif p[0] != "any":
                    self.fail("a pattern within a pattern")
            code, found = self.expression(body)
            result = self.unify(result, found)
            self.scopes.pop()
            out[k] = (bound, code)
        return ("match", subject, kind, out), result

    def inner_patterns(self, pattern, parts):
        """The pattern of each part of a variant."""
        if pattern[3] is not None:
            if set(pattern[3]) - {f for f, _ in parts} - {".."} or ".." not in pattern[3] and len(pattern[3]) != len(parts):
                self.fail(f"other parts than {pattern[1]} has")
            return [pattern[3].get(f, ("any",)) for f, _ in parts]
        if ("rest",) in pattern[2]:
            at = pattern[2].index(("rest",))
            return pattern[2][:at] + [("any",)] * (len(parts) - len(pattern[2]) + 1) + pattern[2][at + 1:]
        return pattern[2]

    def picks(self, pattern, kind, k):
        found = self.variant_of(pattern[1])
        if not found:
            self.fail(f"a pattern {pattern[1]} of another type")
        self.unify(found[0], kind)
        return found[1] == k

    def by_number(self, subject, kind, arms):
        out, result, last = [], NEVER, None
        for pattern, body in arms:
            code, found = self.expression(body)
            result = self.unify(result, found)
            if pattern[0] == "int" and last is None:
                self.unify(kind, Open(True))
                out.append(([pattern[1]], code))
            elif pattern[0] == "any" and last is None:
                last = code
            else:
                self.fail("a pattern of a number")
        return ("switch", subject, out, last), result
