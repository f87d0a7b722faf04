"""The proved code of a library and of those below it, as rt keeps it, in the text that program.py reads.

`rt lib` in a crate's folder proves what has changed of the crate and of those below it, and writes each as a folder out/rlib/NAME.rlib;
toolchain/mir.json there has the proved functions, each with its locals, its types and its body, a statement before the statements in it.
The functions of the toolchain's own library that are called come from its rlib, under the name `std`, by which the sources call them.
A function is written as it stands, but for these things, which change nothing that it does:
  wrapping  `std::num::wrapping_add_u64` and `wrapping_sub_u64` are one operation of the machine: they are written in those that do not wrap
  lent      a value that is lent for good is a variable of the function, set at its head, whose address is taken
  std       `core::` is `std::`
  instance  a function or a type with parameters is written once for each list of types and counts that it is used with, under the name
            NAME<type,count..>; a method of a trait is that of the impl that the caller hands on
  counter   a variable that begins at a number and only ever counts up is never below 0: what compares it may take it for unsigned
Whatever is not known here is refused: nothing is passed over.
"""
import json
import pathlib
import re

from .program import Unknown

# Each with its operation, and the same in others: a variable's number and its value, the test, and what is returned where it holds and where not.
WRAPPING = {
    "core::num::wrapping_add_u64": ("WrapAdd", ("(op2 (sub unsigned) MOST B)", "(op2 (le unsigned) A LEFT)"), "(op2 (add unsigned) A B)", "sub", "sub"),
    "core::num::wrapping_sub_u64": ("WrapSub", ("(op2 (sub unsigned) MOST B)", "(op2 (le unsigned) B A)"), "(op2 (sub unsigned) A B)", "add", "add"),
}
NOTHING = "::Destruct++none::drop"


def listed(words, cons="lcons", nil="lnil"):
    text = nil
    for word in reversed(list(words)):
        text = f"({cons} {word} {text})"
    return text


def word(x):
    return x[0].lower() + x[1:]


def renamed(name):
    return "std::" + name[6:] if name.startswith("core::") else name


def only(x):
    """The one key of an object, and what is under it."""
    if not isinstance(x, dict) or len(x) != 1:
        raise Unknown(x)
    return next(iter(x.items()))


def shown(t):
    """A type as the name of an instance has it."""
    if t in ("Bool", "Unit"):
        return {"Bool": "bool", "Unit": "()"}[t]
    kind, x = only(t)
    if kind in ("Int", "Float"):
        return f"{'u' if kind == 'Int' else 'f'}{x}"
    if kind == "Const":
        return str(x)
    if kind == "Named":
        return renamed(x[0]["name"]) + arguments(x[1])
    if kind == "Array":
        return f"[{shown(x[0])};{number(x[1])}]"
    if kind == "Ref" and x[1] in ("Mut", "Imm"):
        return f"&{'mut ' if x[1] == 'Mut' else ''}{shown(x[2])}"
    if kind == "Struct" and x[0] == "&[]":
        (_, (_, how, inner)), count = only(x[1][0]), x[1][1]
        if count == {"Int": 64}:
            return f"&{'mut ' if how == 'Mut' else ''}[{shown(inner)}]"
    raise Unknown(t)


def number(x):
    """A count: a number as it stands, or one that a parameter has."""
    kind, found = only(x)
    if kind not in ("Lit", "Const"):
        raise Unknown(x)
    return found


def arguments(types):
    return f"<{','.join(map(shown, types))}>" if types else ""


def filled(x, types):
    """The same code with types and counts in place of the parameters."""
    if isinstance(x, list):
        return [filled(part, types) for part in x]
    if not isinstance(x, dict):
        return x
    if list(x) == ["Param"]:
        return types[x["Param"]]
    return {key: filled(part, types) for key, part in x.items()}


def methods_of(functions):
    """The methods of each impl that is handed on anywhere."""
    found = {}
    for f in functions.values():
        for impl in f["generics"]["impls"]:
            if found.setdefault(impl["name"], impl["methods"]) != impl["methods"]:
                raise Unknown(f"two impls are called {impl['name']}")
    return found


def shapes_of(functions):
    """Each type of a name."""
    found = {}
    for f in functions.values():
        for t in f["types"]:
            if found.setdefault(t["name"], t)["shape"] != t["shape"]:
                raise Unknown(f"two types are called {t['name']}")
    return found


class Library:
    """All functions, impls and types by their names."""

    def __init__(self, functions):
        self.functions, self.impls, self.types = functions, methods_of(functions), shapes_of(functions)


class Function:
    """One function with the types and the impls that it is called with."""

    def __init__(self, library, base, types=(), given=()):
        self.library, self.base, self.given, self.called, self.lent, self.used = library, base, list(given), [], [], []
        self.name = base + arguments(list(types))
        f = library.functions[base]
        if len(f["generics"]["types"]) != len(types):
            raise Unknown(f"{base} has parameters that are types")
        self.f = {key: filled(f[key], types) for key in ("params", "locals", "body")} if types else f
        self.shift = self.count_lent(self.f["body"])
        self.counters = self.counting()

    @staticmethod
    def count_lent(body):
        return sum(1 for step in body if isinstance(step, dict) and "LendStatic" in step)

    def counting(self):
        """The variables that are set to a number that an int holds, and else only to themselves and a number more."""
        set_to = {}
        for step in self.f["body"]:
            if isinstance(step, dict) and "Assign" in step and not step["Assign"][0]["steps"]:
                set_to.setdefault(step["Assign"][0]["local"], []).append(step["Assign"][1])
            elif isinstance(step, dict) and "Call" in step:
                set_to.setdefault(step["Call"][2]["local"], []).append(None)

        def small(o):
            return isinstance(o, dict) and "Int" in o and o["Int"]["value"] < 2**31

        def counts(n, v):
            if v is None:
                return False
            kind, x = only(v)
            return kind == "Opd" and small(x) or kind == "Op2" and x[0] == {"Add": "Signed"} and x[1] == {"Copy": {"local": n, "steps": []}} and small(x[2])

        first = self.f["params"]
        return {n for n, values in set_to.items() if n > first and all(counts(n, v) for v in values)}

    def counted(self, o):
        """Whether an operand is a counter or a number that an int holds."""
        kind, x = only(o) if isinstance(o, dict) else (None, None)
        return kind == "Int" and x["value"] < 2**31 or kind == "Copy" and x["local"] in self.counters and not x["steps"]

    def local(self, n):
        return n + self.shift if n > self.f["params"] else n

    def a_type(self, t):
        if t in ("Bool", "Unit", "Ptr"):
            return "ty" + t
        kind, x = only(t)
        if kind in ("Int", "Float"):
            return f"(ty{kind} {x})"
        if kind == "Named":
            self.used.append((x[0]["name"], x[1]))
            return f'(tyNamed (namedType "{shown(t)}"))'
        if kind == "Array":
            return f"(tyArray {self.a_type(x[0])} (count {number(x[1])}))"
        if kind == "Ref" and x[1] in ("Mut", "Imm"):
            return f"(tyRef (named 0) {word(x[1])} {self.a_type(x[2])})"
        if kind == "Struct" and x[0] == "&[]":
            return f'(tyStruct "&[]" {listed(map(self.a_type, x[1]), "tcons", "tnil")})'
        raise Unknown(t)

    def place(self, p):
        steps = []
        for step in p["steps"]:
            kind, x = only(step)
            if kind not in ("Deref", "Variant", "Field"):
                raise Unknown(step)
            steps.append(f"({word(kind)} {self.a_type(x) if kind == 'Deref' else x})")
        return f"(place {self.local(p['local'])} {listed(steps)})"

    def operand(self, o):
        if o in ("True", "False", "Unit"):
            return word(o)
        kind, x = only(o)
        if kind == "Copy":
            return f"(copy {self.place(x)})"
        if kind == "Int":
            return f"(int {x['width']} {x['value']})"
        if kind == "Float":
            return f"(float {x['width']} {x['bits']})"
        if kind == "NumOf":
            return f"(int {x[0]} {number(x[1])})"
        if kind == "SizeOf":
            return f"(sizeOf {self.a_type(x)})"
        raise Unknown(o)

    @staticmethod
    def operation(op):
        if isinstance(op, str):
            return word(op)
        kind, x = only(op)
        words = [word(w) if isinstance(w, str) else str(w) for w in (x if isinstance(x, list) else [x])]
        return f"({' '.join([word(kind)] + words)})"

    def value(self, v):
        kind, x = only(v)
        if kind == "Opd":
            return f"(rvOpd {self.operand(x)})"
        if kind == "AddrOf":
            return f"(addrOf {self.place(x)})"
        if kind == "Aggregate":
            return f"(aggregate {listed(map(self.operand, x))})"
        if kind == "Repeat":
            return f"(repeat {self.operand(x[0])} {number(x[1])})"
        if kind == "Op1":
            return f"(op1 {self.operation(x[0])} {self.operand(x[1])})"
        if kind == "Op2":
            op = x[0]
            if op in ({"Lt": "Signed"}, {"Le": "Signed"}, {"Add": "Signed"}) and self.counted(x[1]) and self.counted(x[2]):
                op = {only(op)[0]: "Unsigned"}
            return f"(op2 {self.operation(op)} {self.operand(x[1])} {self.operand(x[2])})"
        raise Unknown(v)

    def statement(self, steps):
        """The next statement of the list, with those in it."""
        step = next(steps)
        if step in ("Return", "Skip"):
            return word(step)
        if step in ("Block", "Loop"):
            return f"({word(step)} {self.statement(steps)})"
        if step == "Seq":
            return f"(seq {self.statement(steps)} {self.statement(steps)})"
        kind, x = only(step)
        if kind == "Assign":
            return f"(assign {self.place(x[0])} {self.value(x[1])})"
        if kind == "Call":
            called = self.callee(x[0])
            if called[0].endswith(NOTHING):
                return self.nothing(called[0])
            self.called.append(called)
            name = renamed(called[0]) + arguments(called[1])
            return f'(call (direct (fnRef "{name}")) {listed(map(self.operand, x[1]))} {self.place(x[2])})'
        if kind == "If":
            return f"(if {self.operand(x)} {self.statement(steps)} {self.statement(steps)})"
        if kind == "Switch":
            return self.switch(x, steps)
        if kind == "Exit":
            return f"(exit {x})"
        if kind == "LendStatic":
            slot = self.f["params"] + 1 + len(self.lent)
            self.lent.append((slot, self.a_type(x[1]), self.bytes_of(x[2])))
            return f"(assign {self.place(x[0])} (addrOf (place {slot} lnil)))"
        raise Unknown(step)

    def bytes_of(self, x):
        how, given = only(x)
        if how == "Ints":
            width = given["width"]
            return f"(aggregate {listed(f'(int {width} {n})' for n in given['values'])})"
        if how == "Repeat":
            return f"(aggregate {listed([self.operand(given[0])] * given[1])})"
        if how == "Parts":
            return f"(aggregate {listed(self.bytes_of(o) if isinstance(o, dict) and only(o)[0] in ('Parts', 'Ints') else self.operand(o) for o in given)})"
        raise Unknown(x)

    def nothing(self, name):
        """What is left behind is given back by a function that does nothing."""
        if self.library.functions[name]["body"] != ["Seq", "Seq", "Skip", {"Assign": [{"local": 0, "steps": []}, {"Opd": "Unit"}]}, "Return"]:
            raise Unknown(f"{name} does something")
        return "skip"

    def impl(self, d):
        """An impl that is handed on, with its own types and impls."""
        how, x = only(d)
        if how == "Given" and x < len(self.given):
            return self.given[x]
        if how == "Impl" and x[0].endswith(NOTHING.rsplit("::", 1)[0]):  # each crate has its own
            return {"Impl": [x[0], [], []]}
        if how == "Impl":
            return {"Impl": [x[0], x[1], [self.impl(inner) for inner in x[2]]]}
        raise Unknown(d)

    def callee(self, x):
        """The function that is called, its types and its impls."""
        how, called = only(x)
        if how == "Fn":
            return called[0], called[1]["types"], [self.impl(d) for d in called[1]["dicts"]]
        if how == "Method":
            name, types, impls = self.impl(called[0])["Impl"]
            own = called[2]
            return self.library.impls[name][called[1]], types + own["types"], impls + [self.impl(d) for d in own["dicts"]]
        raise Unknown(x)

    def switch(self, x, steps):
        values = [listed(map(str, one)) for one in x[1]]
        bodies = [self.statement(steps) for _ in values]
        if x[2] not in (True, False):
            raise Unknown(x[2])
        text = f"(default {self.statement(steps)})" if x[2] else "noDefault"
        for value, body in zip(reversed(values), reversed(bodies)):
            text = f"(arm {value} {body} {text})"
        return f"(switch {self.operand(x[0])} {text})"

    def wrapped(self):
        """A function that wraps, in operations that do not: a + b or a - b where that is a number, and else what is over, or lacking, of 2^64."""
        op, (left, test), plain, first, second = WRAPPING[self.name]
        at = [{"Copy": {"local": n, "steps": []}} for n in (1, 2)]
        if self.f["body"] != ["Seq", {"Assign": [{"local": 0, "steps": []}, {"Op2": [op, *at]}]}, "Return"]:
            raise Unknown(f"{self.name} is not {op} of its arguments")
        names = {"A": "(copy (place 1 lnil))", "B": "(copy (place 2 lnil))", "LEFT": "(copy (place 3 lnil))", "MOST": f"(int 64 {2**64 - 1})"}

        def set_to(n, value):
            return f"(assign (place {n} lnil) {re.sub('[A-Z]+', lambda m: names[m[0]], value)})"

        other = [set_to(3, left), set_to(5, f"(op2 ({first} unsigned) A LEFT)"), set_to(0, f"(op2 ({second} unsigned) (copy (place 5 lnil)) (int 64 1))")]
        choice = f"(if (copy (place 4 lnil)) {set_to(0, plain)} (seq {other[0]} (seq {other[1]} {other[2]})))"
        before = ([set_to(3, left)] if "LEFT" in test else []) + [set_to(4, test)]
        body = f"(seq {choice} return)"
        for step in reversed(before):
            body = f"(seq {step} {body})"
        slots = listed(f"(local {t} valueLocal)" for t in ["(tyInt 64)"] * 4 + ["tyBool", "(tyInt 64)"])
        return f'(fn-def "{renamed(self.name)}" (fnItem 0 lnil 2 {slots} {body}))'

    def text(self):
        f = self.f
        if self.name in WRAPPING:
            return self.wrapped()
        steps = iter(f["body"])
        body = self.statement(steps)
        if next(steps, None) is not None:
            raise Unknown(f"{self.name} goes on behind its end")
        for slot, _, value in reversed(self.lent):
            body = f"(seq (assign (place {slot} lnil) {value}) {body})"
        slots = [f"(local {self.a_type(x['ty'])} {word(x['home'])})" for x in f["locals"]]
        at = f["params"] + 1
        slots[at:at] = [f"(local {kind} lentSlot)" for _, kind, _ in self.lent]
        return f'(fn-def "{renamed(self.name)}" (fnItem 0 lnil {f["params"]} {listed(slots)} {body}) {listed(self.shapes())})'

    def shapes(self):
        """The types of names that are used, with those in them."""
        named, done = [], set()
        while self.used:
            name, types = self.used.pop(0)
            whole = renamed(name) + arguments(types)
            if whole in done:
                continue
            done.add(whole)
            if name not in self.library.types:
                raise Unknown(f"the type {name} of {self.name}")
            t = self.library.types[name]
            if t["type_params"] != len(types):
                raise Unknown(f"the type {name} of {self.name}")
            how, x = only(filled(t["shape"], types))
            if how == "Fields":
                shape = f"(fields {listed(map(self.a_type, x), 'tcons', 'tnil')})"
            elif how == "Variants":
                shape = f"(variants {listed((listed(map(self.a_type, v), 'tcons', 'tnil') for v in x), 'ttcons', 'ttnil')})"
            else:
                raise Unknown(t["shape"])
            named.append(f'(pair "{whole}" {shape})')
        return named


def handed(impls):
    """Impls as they are compared: all that give nothing back are one."""
    return [["Nothing" if x[0].endswith(NOTHING.rsplit("::", 1)[0]) else x[0], x[1], handed(x[2])] for x in (d["Impl"] for d in impls)]


def below(root, name):
    """A crate of crates.txt and those that it stands on."""
    lines = (line.split("#")[0].split(":") for line in (pathlib.Path(root) / "crates.txt").read_text().split("\n"))
    deps = {line[0].split()[0]: line[1].split() for line in lines if len(line) == 2}
    found, left = [], [name]
    while left:
        one = left.pop()
        if one in deps and one not in found:
            found.append(one)
            left += deps[one]
    return found


def program_text(paths, name):
    """The functions of a crate and all that they call, of the files mir.json at these paths. One with parameters is written where it is called."""
    functions = {}
    for path in paths:
        functions.update(json.loads(pathlib.Path(path).read_text()))
    library = Library(functions)
    reached, left = {}, [(n, [], []) for n, f in functions.items() if n.startswith(name + "::") and not f["generics"]["types"] and not f["generics"]["bounds"]]
    while left:
        base, types, impls = left.pop()
        one = base + arguments(types)
        if one in reached:
            if reached[one][0] != handed(impls):
                raise Unknown(f"{one} with other impls")
            continue
        if base not in functions:
            raise Unknown(f"no code of {base}")
        f = Function(library, base, types, impls)
        reached[one] = handed(impls), base, f.text()
        left += f.called
    order = {n: i for i, n in enumerate(functions)}
    texts = [reached[n][2] for n in sorted(reached, key=lambda n: (order[reached[n][1]], n))]
    return f'program {listed(texts)} (fnRef "{name}")'


def text_of(root, kit, name):
    """The text of a crate that is proved and built; `kit` is the toolchain's folder rlibs."""
    root, kit = pathlib.Path(root), pathlib.Path(kit)
    own = [root / "crates" / crate / "out" / "rlib" / f"{crate}.rlib" for crate in below(root, name)]
    return program_text([folder / "toolchain" / "mir.json" for folder in [*own, kit / "core.rlib"]], name)
