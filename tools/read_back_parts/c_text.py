"""Reader of the printed C, over pycparser, to the program of lower.py's head. Any form that is not known is refused.

Each expression gets its type by C's own rules. Only these conversions are taken, and each by the rule named here:
    literal    a whole number that fits the type that it is converted to is that number of that type
    widened    an unsigned number converted to a wider unsigned type keeps its value: a cast of the common form
    narrow     C works with u8 and u16 as int: (uint8_t)(a + b) is a + b of u8, since int holds a + b, and the cast cuts it as u8 does
    usize      is u64. A size_t is only the count that is lent beside a pointer, and is widened, or counts elements of a list that is filled
"""
import re
import subprocess
import tempfile
from pathlib import Path

from pycparser import c_ast, c_generator, c_parser

from . import nodes
from .lower import MAXIMUM, Function
from .rattle import Unread
from .walk import root

NUMBERS = {"uint8_t": "u8", "uint16_t": "u16", "uint32_t": "u32", "uint64_t": "u64", "size_t": "size_t", "double": "f64", "bool": "bool",
           "void": "unit"}
WIDTH = nodes.WIDTH
NOWHERE = ("lit", "u64", 0)
ORDERS = {"==", "!=", "<", "<=", ">", ">="}
# What the file takes from the C library, and nothing more of it. FLT_EVAL_METHOD and the others are what it asks for.
HEADERS = {
    "stddef.h": "typedef unsigned long size_t;", "stdbool.h": "typedef _Bool bool;",
    "stdint.h": "typedef unsigned char uint8_t; typedef unsigned short uint16_t; typedef unsigned int uint32_t;"
                "typedef unsigned long uint64_t; typedef signed char int8_t; typedef short int16_t; typedef int int32_t; typedef long int64_t;"
                "\n#define UINT64_C(c) c##ul",
    "string.h": "void *memcpy(void *to, const void *from, size_t count);",
    "float.h": "#define FLT_EVAL_METHOD 0\n#define FLT_RADIX 2\n#define DBL_MANT_DIG 53\n#define DBL_MAX_EXP 1024\n#define DBL_MIN_EXP (-1021)",
}
# The three operations that C has no operator for; they must stand in the file as they stand here.
HELPERS = """
static inline uint64_t to_bits(double x) { uint64_t bits; memcpy(&bits, &x, sizeof bits); return bits; }
static inline double from_bits(uint64_t bits) { double x; memcpy(&x, &bits, sizeof x); return x; }
static inline uint32_t leading_zeros(uint64_t x) {
    uint32_t zeros = 0;
    while (zeros < 64 && x >> (63 - zeros) == 0) { zeros++; }
    return zeros;
}
"""
ENVIRONMENT = {"LOOKED_UP", "environment", "environment_enter", "environment_leave", "environment_control"}
PURE = {"to_bits": ("f64", "u64"), "from_bits": ("u64", "f64"), "leading_zeros": ("u64", "u32")}


def preprocessed(text, folder):
    """The text as a compiler reads it, over the headers above."""
    unconditional(text)
    with tempfile.TemporaryDirectory() as there:
        for name, content in HEADERS.items():
            (Path(there) / name).write_text(content + "\n")
        defined = ["-undef", "-D__attribute__(x)=", "-DDIHKELU_TRUST_ENVIRONMENT"]
        command = ["cc", "-E", "-std=c11", *defined, "-nostdinc", f"-I{there}", f"-I{folder}", "-"]
        try:
            done = subprocess.run(command, input=text, capture_output=True, text=True)
        except FileNotFoundError:
            raise Unread("cc is needed to preprocess the C: install a C compiler") from None
    if done.returncode:
        raise Unread(f"cc -E refused the C: {done.stderr[-500:]}")
    return done.stdout


def parsed(text):
    try:
        return c_parser.CParser().parse(text, "c")
    except Exception as error:  # pycparser's own exception has moved between versions
        raise Unread(f"pycparser cannot read the C: {error}") from error


def same_text(tree):
    return re.sub(r"\s+", " ", c_generator.CGenerator().visit(tree))


def unconditional(text):
    """Rule 'conditional': what a compiler reads hangs on its own macros in directives alone, and in how the floating-point environment
    is set around a call. Nothing else that stands between #if and #endif, and no macro beside, may be code."""
    depth, environment, defined = 0, False, set()
    for line in re.sub(r"//[^\n]*|/\*.*?\*/", "", text.replace("\\\n", " "), flags=re.S).splitlines():
        directive = re.match(r"\s*#\s*(\w+)\s*(.*)", line)
        if directive:
            word, rest = directive.groups()
            if word in ("if", "ifdef", "ifndef"):
                environment = environment or depth == 0 and "DIHKELU_TRUST_ENVIRONMENT" in rest
                depth += 1
            elif word == "endif":
                depth -= 1
                environment = environment and depth > 0
            elif word == "define" and environment:
                defined.add(rest.split()[0])
            elif word not in ("include", "error", "pragma", "elif", "else"):
                raise Unread(f"the directive {line.strip()} may change what is compiled")
        elif depth and line.strip():
            if not environment or not re.match(r"\s|\}|typedef\b|static inline\b", line):
                raise Unread(f"{line.strip()} is compiled under a condition only")
            defined.update(re.findall(r"^(?:static inline|typedef)\b.*?(\w+)(?:\(|;)", line))
            defined.update(re.findall(r"^\} (\w+);", line))
    beside = defined - ENVIRONMENT
    if beside:
        raise Unread(f"{', '.join(sorted(beside))}: defined under a condition, and no part of the floating-point environment")


class Program:
    """The types and functions of a C text."""

    def __init__(self, tree):
        self.types, self.structs, self.enums, self.enumerators = {}, {}, {}, {}
        self.functions, self.definitions, self.signatures = {}, {}, {}
        for item in tree.ext:
            if item.coord and item.coord.file.endswith(".h"):
                continue
            if isinstance(item, c_ast.Typedef):
                self.typedef(item)
            elif isinstance(item, c_ast.FuncDef):
                if item.decl.name in self.definitions:
                    raise Unread(f"{item.decl.name} is defined twice")
                self.definitions[item.decl.name] = item
            elif not isinstance(item, (c_ast.Pragma, c_ast.StaticAssert)) and not declared(item):
                raise Unread(f"line {item.coord}: neither a type nor a function: teach tools/read_back_parts/c_text.py this form")
        self.helpers = {item.decl.name: item for item in parsed(prelude() + HELPERS).ext if isinstance(item, c_ast.FuncDef)}
        called = [name for name, item in self.definitions.items() if "static" not in item.decl.storage]
        self.bodies = {name + "_body" for name in called if name + "_body" in self.definitions}
        self.own = set(self.helpers) | (ENVIRONMENT & set(self.definitions)) | self.bodies

    def check_own(self, name):
        """A function that no source has: an operation that C lacks is as HELPERS has it. How the environment is set and given back is
        tested (tests/environment.c), and a body is read for its call."""
        if name in self.helpers and (name not in self.definitions or same_text(self.definitions[name]) != same_text(self.helpers[name])):
            raise Unread("not as tools/read_back_parts/c_text.py has it in HELPERS")

    def function(self, name):
        """A function in the common form. Rule 'environment': a call NAME that hands its arguments to NAME_body between the two changes
        of the floating-point environment, and returns what that returns, is NAME_body."""
        if name not in self.functions:
            definition = self.definitions[name]
            if name + "_body" in self.bodies:
                self.wrapper(definition, self.definitions[name + "_body"])
                self.functions[name] = Reading(self, self.definitions[name + "_body"], True).function
            else:
                self.functions[name] = Reading(self, definition, "static" not in definition.decl.storage).function
        return self.functions[name]

    def wrapper(self, definition, body):
        name = definition.decl.name
        if self.signature(name) != self.signature(name + "_body"):
            raise Unread(f"{name} and {name}_body take other arguments")
        if "static" in definition.decl.storage or "static" not in body.decl.storage:
            raise Unread(f"{name} and {name}_body are not a call and a static function")
        parameters = [p for p in (definition.decl.type.args.params if definition.decl.type.args else []) if p.name]
        kinds = [re.sub(r"\b%s$" % p.name, "", same_text(p)).strip() for p in parameters] or ["void"]
        result = same_text(definition.decl.type.type).replace(name, "").strip()
        wanted = parsed(prelude() + f"""typedef int environment;
            void f(void) {{
                {result} (*body)({', '.join(kinds)}) = {name}_body;
                environment caller = environment_enter();
                {result} returned = body({', '.join(p.name for p in parameters)});
                environment_leave(caller);
                return returned;
            }}""").ext[-1]
        if same_text(definition.body) != same_text(wanted.body):
            raise Unread("not a call of its body between the two changes of the environment")

    def signature(self, name):
        """The parameters of a function and the type of its result."""
        if name not in self.signatures:
            declared_type = self.definitions[name].decl.type
            parameters = declared_type.args.params if declared_type.args else []
            found = [(p.name, self.kind(p.type)) for p in parameters if not (p.name is None and self.kind(p.type) == "unit")]
            self.signatures[name] = found, self.kind(declared_type.type)
        return self.signatures[name]

    # ---- types

    def typedef(self, item):
        name, inner = item.name, item.type.type
        if isinstance(inner, c_ast.IdentifierType):
            if name not in NUMBERS and name not in ENVIRONMENT:
                raise Unread(f"a second name {name} of a type")
        elif isinstance(inner, c_ast.Enum):
            self.types[name] = ("enum", name)
            self.enums[name] = [(v, []) for v in self.variants(name, inner)]
        elif isinstance(inner, c_ast.Struct):
            self.types[name] = self.struct(name, inner.decls)
        else:
            raise Unread(f"a type {name} that is not known")

    def struct(self, name, decls):
        if any(d.bitsize for d in decls):
            raise Unread(f"{name} has a field of some bits")
        members = [d.name for d in decls]
        if members == ["at"] and isinstance(decls[0].type, c_ast.ArrayDecl):
            return self.array(name, decls[0].type)
        if members == ["at", "count"] and isinstance(decls[0].type, c_ast.PtrDecl) and self.kind(decls[1].type) == "u64":
            _, mutable, inner = self.kind(decls[0].type)
            return ("ref", mutable, ("slice", inner))
        if members in (["tag", "as"], ["tag"]):
            self.enums[name] = self.tagged(name, decls)
            return ("enum", name)
        self.structs[name] = [(d.name, self.kind(d.type)) for d in decls]
        return ("struct", name)

    def array(self, name, decl):
        """C has no empty list: one that is named _x0 has a place that nothing reads."""
        if not isinstance(decl.dim, c_ast.Constant):
            raise Unread(f"{name} has a count that is no number")
        count = int(decl.dim.value, 0)
        if name.endswith("_x0") and count == 1:
            count = 0
        return ("array", self.kind(decl.type), count)

    def variants(self, name, enum):
        found = []
        for k, e in enumerate(enum.values.enumerators):
            if e.value is not None or not e.name.startswith(name + "_"):
                raise Unread(f"{e.name}: a variant with a number or a name of its own")
            self.enumerators[e.name] = (name, k)
            found.append(e.name[len(name) + 1:])
        return found

    def tagged(self, name, decls):
        variants = self.variants(name, decls[0].type.type)
        parts = {v: [] for v in variants}
        for d in decls[1].type.type.decls if len(decls) == 2 else []:
            inner = d.type.type
            if isinstance(inner, c_ast.Struct):
                parts[d.name] = [(p.name, self.kind(p.type)) for p in inner.decls]
            else:
                parts[d.name] = [(None, self.kind(d.type))]
        return [(v, parts[v]) for v in variants]

    def holds_reference(self, kind):
        if kind[0] == "array":
            return self.holds_reference(kind[1])
        if kind[0] == "struct":
            return any(self.holds_reference(k) for _, k in self.structs[kind[1]])
        return kind[0] == "ref"

    def kind(self, decl):
        if isinstance(decl, c_ast.PtrDecl):
            return ("ref", "const" not in decl.type.quals, self.kind(decl.type))
        if isinstance(decl, c_ast.TypeDecl) and isinstance(decl.type, c_ast.IdentifierType):
            name = " ".join(decl.type.names)
            if name in NUMBERS:
                return NUMBERS[name]
            if name in self.types:
                return self.types[name]
        raise Unread(f"{decl.coord}: a type that is not known: teach tools/read_back_parts/c_text.py it")


def prelude():
    """The types of the headers above, for a text that is not preprocessed."""
    return '# 1 "prelude.h"\n' + " ".join(re.sub(r"#.*", "", content) for content in HEADERS.values()) + '\n# 1 "text"\n'


def declared(item):
    return isinstance(item, c_ast.Decl) and isinstance(item.type, c_ast.FuncDecl)


def literal(text):
    """The value and the type of a whole number, by C's rule."""
    digits = text.rstrip("uUlL")
    value, unsigned = int(digits, 0), "u" in text[len(digits):].lower()
    if unsigned:
        return value, "u32" if value <= MAXIMUM["u32"] and "l" not in text.lower() else "u64"
    if value < 2**31:
        return value, "int"
    if digits.lower().startswith("0x") and value <= MAXIMUM["u32"]:
        return value, "u32"
    return value, "long" if value < 2**63 else "u64"


class Reading:
    """One function."""

    def __init__(self, program, definition, exported):
        self.program, self.count, self.scopes, self.kinds = program, 0, [{}], {}
        name = definition.decl.name
        self.function = Function(name, f"C:{definition.coord.line}")
        self.function.exported = exported
        parameters, self.function.result = program.signature(name)
        statements = list(definition.body.block_items or [])
        lists = self.lists(parameters, statements) if self.function.exported else {}
        for parameter, kind in parameters:
            if parameter not in lists:
                self.function.parameters.append((self.bind(parameter, kind), kind))
            elif lists[parameter]:
                self.function.parameters.append((self.bind(*lists[parameter]), lists[parameter][1]))
        self.function.body = self.block(statements[sum(1 for found in lists.values() if found):])

    def fail(self, e, why):
        raise Unread(f"{self.function.name}: {getattr(e, 'coord', '')}: {why}")

    def lists(self, parameters, statements):
        """Rule 'lent': an exported call takes a list as a pointer and a count beside it, and begins by joining the two. Nothing else
        reads the two. By the name of the pointer: the list's name and type; by that of the count: None."""
        found, kinds = {}, dict(parameters)
        order = [name for name, _ in parameters]
        for statement in statements:
            kind = isinstance(statement, c_ast.Decl) and self.program.kind(statement.type)
            if not kind or kind[0] != "ref" or kind[2][0] != "slice" or not isinstance(statement.init, c_ast.InitList):
                return found
            pair = [e.name if isinstance(e, c_ast.ID) else None for e in statement.init.exprs]
            if len(pair) != 2 or pair[0] not in order or order[order.index(pair[0]) + 1:][:1] != pair[1:]:
                return found
            if kinds[pair[0]] != ("ref", kind[1], kind[2][1]) or kinds[pair[1]] != "size_t":
                self.fail(statement, "a list of another type than is lent")
            found[pair[0]], found[pair[1]] = (statement.name, kind), None
        return found

    # ---- names

    def bind(self, name, kind):
        self.count += 1
        unique = f"{name}#{self.count}"
        self.scopes[-1][name], self.kinds[unique] = (unique, kind), kind
        return unique

    def local(self, e):
        for scope in reversed(self.scopes):
            if e.name in scope:
                return scope[e.name]
        return self.fail(e, f"a name {e.name} that is not known")

    # ---- statements

    def block(self, statements):
        self.scopes.append({})
        out, left = [], list(statements or [])
        while left:
            returned = self.by_fields(left)
            out.append(returned or self.statement(left[0]))
            left = left[len(left) if returned else 1:]
        self.scopes.pop()
        return ("block", out, None)

    def statement(self, s):
        found = getattr(self, "do_" + type(s).__name__, None)
        if found is None:
            self.fail(s, f"a statement {type(s).__name__} that is not known")
        return found(s)

    def by_fields(self, statements):
        """Rule 'fields': a variable of an enumeration that is declared, given its tag and then each part of that variant, and returned, all of
        it one after the other to the end of the block, is the variant with these parts returned."""
        first, fields, last = statements[0], statements[1:-1], statements[-1]
        if not isinstance(first, c_ast.Decl) or first.init is not None or first.storage or not isinstance(last, c_ast.Return):
            return None
        kind = self.program.kind(first.type)
        if kind[0] != "enum" or kind != self.function.result or getattr(last.expr, "name", None) != first.name:
            return None
        generator, values = c_generator.CGenerator(), {}
        for s in fields:
            place = generator.visit(s.lvalue) if isinstance(s, c_ast.Assignment) and s.op == "=" else ""
            if not place.startswith(first.name + ".") or place in values or first.name in names_in(s.rvalue):
                return None
            values[place[len(first.name) + 1:]] = s.rvalue
        if len(values) != len(fields) or list(values)[:1] != ["tag"]:
            return None
        return ("return", self.kept(first, self.ordered(first, self.made_variant(first, kind, values)), kind))

    def do_Compound(self, s):
        return self.block(s.block_items)

    def do_Decl(self, s):
        if s.storage or s.bitsize:
            self.fail(s, f"the variable {s.name} does not live as long as its block")
        kind = self.program.kind(s.type)
        code = None if s.init is None else self.kept(s, self.ordered(s, self.given(s.init, kind)), kind)
        return ("let", self.bind(s.name, kind), kind, code)

    def do_Assignment(self, s):
        if s.op != "=":
            self.fail(s, f"the assignment {s.op}")
        place, kind = self.expression(s.lvalue)
        code = self.kept(s, self.ordered(s, self.given(s.rvalue, kind)), kind)
        if place[0] != "var" and writing(code):
            self.fail(s, "a call that writes, beside a place that it may write")
        return ("set", place, code)

    def do_FuncCall(self, s):
        return self.ordered(s, self.expression(s)[0])

    def do_Return(self, s):
        if s.expr is None:
            return ("return", None)
        return ("return", self.kept(s, self.ordered(s, self.given(s.expr, self.function.result)), self.function.result))

    def do_If(self, s):
        condition = self.ordered(s, self.given(s.cond, "bool"))
        then = self.block([s.iftrue])
        return ("if", condition, then, None if s.iffalse is None else self.block([s.iffalse]))

    def do_While(self, s):
        return ("while", self.ordered(s, self.given(s.cond, "bool")), self.block([s.stmt]))

    def do_Break(self, s):
        return ("break",)

    def do_Continue(self, s):
        return ("continue",)

    def do_For(self, s):
        """Rule 'filled': a loop that sets each element of a list to a value that does not read the list is the list of that value."""
        generator = c_generator.CGenerator()
        names = [d.name for d in s.init.decls] if isinstance(s.init, c_ast.DeclList) else [None]
        body = s.stmt.block_items if isinstance(s.stmt, c_ast.Compound) else [s.stmt]
        each = names[0]
        if len(names) != 1 or len(body) != 1 or not isinstance(body[0], c_ast.Assignment) or body[0].op != "=":
            self.fail(s, "a for that does not fill a list")
        target = body[0].lvalue
        if not isinstance(target, c_ast.ArrayRef) or not isinstance(target.name, c_ast.StructRef) or target.name.field.name != "at":
            self.fail(s, "a for that does not fill a list")
        whole = target.name.name if target.name.type == "." else c_ast.UnaryOp("*", target.name.name)
        place, kind = self.expression(whole)
        if kind[0] != "array":
            self.fail(s, "a for over what is no array")
        wanted = f"size_t {each} = 0|{each} < {kind[2]}|{each}++|{each}"
        given = "|".join(generator.visit(e) for e in (s.init, s.cond, s.next, target.subscript))
        value = self.given(body[0].rvalue, kind[1])
        if given.replace("p++", "++") != wanted or names_in(body[0].rvalue) & (names_in(whole) | {each}) or writing(value):
            self.fail(s, f"a for that does not fill its list: {given}")
        return ("set", place, ("repeat", kind, value))

    def do_Switch(self, s):
        subject, kind = self.expression(s.cond)
        groups, labels = [], []
        for case in s.stmt.block_items:
            if not isinstance(case, (c_ast.Case, c_ast.Default)):
                self.fail(case, "a statement before the first case")
            labels.append(None if isinstance(case, c_ast.Default) else case.expr)
            if case.stmts:
                groups.append((labels, self.arm(case, case is s.stmt.block_items[-1])))
                labels = []
        if labels:
            self.fail(s, "a case without a body")
        if kind[0] in ("tag", "enum"):
            return self.by_variant(s, subject, kind[1], groups)
        values = [([self.number(e) for e in labels if e is not None], body) for labels, body in groups]
        other = [body for labels, body in groups if None in labels]
        return ("switch", subject, values, other[0] if other else None)

    def number(self, e):
        if not isinstance(e, c_ast.Constant):
            self.fail(e, "a case that is no number")
        return literal(e.value)[0]

    def by_variant(self, s, subject, name, groups):
        arms = {k: ("block", [], None) for k in range(len(self.program.enums[name]))}
        given = set()
        for labels, body in groups:
            for e in labels:
                if e is not None:
                    owner, k = self.program.enumerators.get(getattr(e, "name", None), (None, None))
                    if owner != name or k in given:
                        self.fail(s, "a case of another enumeration, or twice")
                    given.add(k)
                    arms[k] = body
        for labels, body in groups:
            if None in labels:
                arms.update({k: body for k in arms if k not in given})
        return ("variants", subject, arms)

    def arm(self, case, last):
        """The body of a case, which does not run on into the next one."""
        statements = list(case.stmts)
        while len(statements) == 1 and isinstance(statements[0], c_ast.Compound):
            statements = list(statements[0].block_items)
        if isinstance(statements[-1], c_ast.Break):
            statements.pop()
        elif not last and not leaves(statements):
            self.fail(case, "a case that runs on into the next one")
        if any(breaks(statement) for statement in statements):
            self.fail(case, "a break within a case")
        return self.block(statements)

    # ---- order

    def ordered(self, s, code):
        """Rule 'order': C leaves open in which order operands are worked out. It does not count where no call among them writes,
        or where one does and beside it stand literals alone."""
        calls = writing(code)
        if len(calls) > 1 or calls and not alone(code):
            self.fail(s, "a call that writes, beside other operands")
        return code

    # ---- references

    def shared(self, place):
        """Whether a place lies behind a shared reference of a caller, where nothing is written until this function returns."""
        kind = self.kinds[root(place)]
        return self.program.holds_reference(kind) and not (kind[0] == "ref" and kind[1])

    def kept(self, s, code, kind):
        """Rule 'kept': a shared reference is taken for the value that is there when it is made. In C it is a pointer, and would see what is
        written later. So one that is kept, in a variable or in what is returned, is never of a variable of this function or of
        what this function may write."""
        if self.program.holds_reference(kind):
            for e in within(code):
                if e[0] == "ref" and len(e) == 2 or e[0] in ("lend", "piece", "deref") and not self.shared(e[1]):
                    self.fail(s, "a pointer is kept to what may be written")
        return code

    def apart(self, e, given, kinds):
        """Rule 'apart': what a call may write, no other argument of it points to. The source's borrow rule says so of the source."""
        roots = pointed(given, kinds)
        for code, kind in zip(given, kinds):
            if kind[0] == "ref" and kind[1] and roots.count(root(code)) != 1:
                self.fail(e, "two arguments point to what the call may write")

    # ---- values for a place

    def given(self, e, want):
        """An expression or an initializer where a type is wanted."""
        if isinstance(e, c_ast.InitList):
            return self.initial(e, want)
        code, kind = self.expression(e)
        return self.converted(e, code, kind, want)

    def converted(self, e, code, kind, want):
        if kind == want:
            return code
        if code[0] == "lit" and want in MAXIMUM and kind in ("int", "long", "u32", "u64") and code[2] <= MAXIMUM[want]:
            return ("lit", want, code[2])
        if kind == ("narrow", want):
            return code
        if kind in WIDTH and want in WIDTH and WIDTH[kind] < WIDTH[want]:
            return ("cast", want, code)
        if kind[0] == "ref" and want == ("ref", False, kind[2]):
            return ("lend", code[1]) if code[0] == "ref" else ("deref", code)
        return self.fail(e, f"{kind} where {want} is wanted")

    def zero(self, e, kind):
        """Rule 'zeros': {0} sets every number of a struct or a list to zero."""
        if kind in MAXIMUM or kind == "f64":
            return ("lit", kind, 0)
        if kind == "bool":
            return ("lit", kind, False)
        if kind[0] == "array":
            return ("repeat", kind, self.zero(e, kind[1]))
        if kind[0] == "struct":
            return ("struct", kind, [(i, self.zero(e, k)) for i, (_, k) in enumerate(self.program.structs[kind[1]])])
        return self.fail(e, f"zeros for {kind}")

    def initial(self, e, kind):
        if kind[0] == "array":
            return self.list_of(e, kind)
        if kind[0] == "ref" and kind[2][0] == "slice":
            return self.lent(e, kind)
        if is_zero(e):
            return self.zero(e, kind)
        if any(not isinstance(x, c_ast.NamedInitializer) for x in e.exprs):
            self.fail(e, "a value without its field's name")
        values = {".".join(n.name for n in x.name): x.expr for x in e.exprs}
        if len(values) != len(e.exprs):
            self.fail(e, "a field that is set twice")
        if kind[0] == "struct":
            fields = self.program.structs[kind[1]]
            if sorted(values) != sorted(f for f, _ in fields):
                self.fail(e, f"other fields than {kind[1]} has")
            order = [f for f, _ in fields]
            return ("struct", kind, [(order.index(f), self.given(x, fields[order.index(f)][1])) for f, x in values.items()])
        if kind[0] == "enum":
            return self.made_variant(e, kind, values)
        return self.fail(e, f"braces for {kind}")

    def made_variant(self, e, kind, values):
        tag = values.pop("tag", None)
        owner, k = self.program.enumerators.get(getattr(tag, "name", None), (None, None))
        if owner != kind[1]:
            self.fail(e, "a tag of another enumeration")
        name, parts = self.program.enums[owner][k]
        wanted = [f"as.{name}"] if len(parts) == 1 and parts[0][0] is None else [f"as.{name}.{f}" for f, _ in parts]
        if sorted(values) != sorted(wanted):
            self.fail(e, f"other parts than {name} has")
        return ("variant", kind, k, [self.given(values[w], part) for w, (_, part) in zip(wanted, parts)])

    def list_of(self, e, kind):
        """{{a, b, ..}}: the outer braces are those of the struct around the list."""
        inner = e.exprs[0] if len(e.exprs) == 1 and isinstance(e.exprs[0], c_ast.InitList) else self.fail(e, "a list without its braces")
        if kind[2] == 0 and is_zero(inner):
            return ("array", kind, [])
        if len(inner.exprs) == kind[2] and (kind[2] > 1 or not is_zero(inner)):
            return ("array", kind, [self.given(x, kind[1]) for x in inner.exprs])
        if is_zero(inner):
            return self.zero(e, kind)
        return self.fail(e, "another count of elements than the list has")

    def lent(self, e, kind):
        """Rule 'part': {list.at + a, n} is the part of n elements from a on. A list that is lent may be at a null pointer, which may not be
        moved, not by 0 either: 'a == 0 ? list.at : list.at + a' is the same pointer, and does not."""
        if len(e.exprs) != 2 or any(isinstance(x, (c_ast.NamedInitializer, c_ast.InitList)) for x in e.exprs):
            self.fail(e, "a list of other parts than a pointer and a count")
        if isinstance(e.exprs[0], c_ast.TernaryOp):
            place, kind_of, offset = self.guarded(e.exprs[0])
        else:
            place, kind_of, offset = self.pointer(e.exprs[0])
            if kind_of[3] and offset != NOWHERE:
                self.fail(e, "a pointer that may be null is moved")
        if kind_of[2] != kind[2][1] or kind[1] and not kind_of[1]:
            self.fail(e, "a list of another type")
        piece = ("piece", place, offset, self.given(e.exprs[1], "u64"))
        return ("ref", piece) if kind[1] else piece

    def guarded(self, e):
        """A pointer that is moved only where its offset is not 0."""
        first, later = self.pointer(e.iftrue), self.pointer(e.iffalse)
        test, _ = self.expression(e.cond)
        if first[:2] != later[:2] or first[2] != NOWHERE or test != ("bin", "==", "u64", later[2], NOWHERE):
            self.fail(e, "a pointer by a test that is not of its offset")
        return later

    def pointer(self, e):
        """The list that a pointer points into, the pointer's type, and the place."""
        if isinstance(e, c_ast.BinaryOp) and e.op == "+":
            place, kind, offset = self.pointer(e.left)
            if offset != NOWHERE:
                self.fail(e, "a pointer that is moved twice")
            return place, kind, self.given(e.right, "u64")
        place, kind = self.expression(e)
        if kind[0] != "pointer":
            self.fail(e, "no pointer of a list")
        return place, kind, NOWHERE

    # ---- expressions: the code and its type

    def expression(self, e):
        found = getattr(self, "of_" + type(e).__name__, None)
        if found is None:
            self.fail(e, f"an expression {type(e).__name__} that is not known")
        return found(e)

    def of_Constant(self, e):
        if e.type in ("double", "float") and not e.value.lower().endswith(("f", "l")) and not e.value.lower().startswith("0x"):
            return ("lit", "f64", nodes.float_bits(e.value)), "f64"
        if "int" not in e.type:
            self.fail(e, f"a constant {e.value}")
        value, kind = literal(e.value)
        return ("lit", kind, value), kind

    def of_ID(self, e):
        if e.name in ("true", "false"):
            return ("lit", "bool", e.name == "true"), "bool"
        if e.name in self.program.enumerators:
            name, k = self.program.enumerators[e.name]
            return ("variant", ("enum", name), k, []), ("enum", name)
        name, kind = self.local(e)
        return ("var", name), kind

    def of_CompoundLiteral(self, e):
        kind = self.program.kind(e.type.type)
        return self.initial(e.init, kind), kind

    def of_Cast(self, e):
        want = self.program.kind(e.to_type.type)
        code, kind = self.expression(e.expr)
        if kind == want or kind == ("narrow", want):
            return code, want
        if code[0] == "lit" and kind == "int" and want in MAXIMUM and code[2] <= MAXIMUM[want]:
            return ("lit", want, code[2]), want
        if want not in WIDTH and want != "f64" or kind not in WIDTH and kind not in ("bool", "f64"):
            self.fail(e, f"a cast from {kind} to {want}")
        return ("cast", want, code), want

    def of_UnaryOp(self, e):
        if e.op == "&":
            code, kind = self.expression(e.expr)
            return ("ref", code), ("ref", True, kind)
        code, kind = self.expression(e.expr)
        if e.op == "*" and kind[0] == "ref" and kind[2][0] != "slice":
            return ("deref", code), kind[2]
        if e.op == "!" and kind == "bool":
            return ("not", code), "bool"
        if e.op == "-" and kind == "f64":
            return ("neg", code), "f64"
        return self.fail(e, f"the operator {e.op} of {kind}")

    def of_BinaryOp(self, e):
        if e.op in ("&&", "||"):
            return ("and" if e.op == "&&" else "or", self.given(e.left, "bool"), self.given(e.right, "bool")), "bool"
        a, kind = self.expression(e.left)
        b, other = self.expression(e.right)
        if e.op in ("==", "!=") and (kind[0] in ("tag", "enum") or other[0] in ("tag", "enum")):
            return self.by_tag(e, a, kind, b, other)
        if e.op in ("<<", ">>"):
            return self.shifted(e, a, kind, b, other)
        kind, a, b = self.common(e, a, kind, b, other)
        if e.op in ORDERS:
            return ("bin", e.op, kind, a, b), "bool"
        if kind == "bool" and e.op not in ("&", "|", "^") or kind == "f64" and e.op not in ("+", "-", "*", "/"):
            self.fail(e, f"the operator {e.op} of {kind}")
        if kind in ("u8", "u16"):
            self.holds_in_int(e, kind, a, b)
            return ("bin", e.op, kind, a, b), ("narrow", kind)
        return ("bin", e.op, kind, a, b), kind

    def holds_in_int(self, e, kind, a, b):
        """Of rule 'narrow': products of two u16 can leave int, but not those with a small literal."""
        small = any(x[0] == "lit" and x[2] < 2**15 for x in (a, b))
        if kind == "u16" and e.op == "*" and not small:
            self.fail(e, "a product of two u16, which int may not hold")

    def shifted(self, e, a, kind, b, other):
        if b[0] == "lit" and other == "int":
            b, other = ("lit", "u32", b[2]), "u32"
        if kind not in ("u32", "u64") or other not in WIDTH:
            self.fail(e, f"a shift of {kind} by {other}")
        return ("bin", e.op, kind, a, b), kind

    def common(self, e, a, kind, b, other):
        """The one type that two operands are brought to."""
        if kind == other and (kind in WIDTH or kind in ("f64", "bool")):
            return kind, a, b
        literals = [x for x, k in ((a, kind), (b, other)) if x[0] == "lit" and k in ("int", "long", "u32", "u64")]
        if len(literals) == 2 or kind not in WIDTH and other not in WIDTH:
            self.fail(e, f"operands {kind} and {other}")
        if a in literals and kind != other:
            want = other if kind in ("int", "long") or other == "u64" else None
        elif b in literals and kind != other:
            want = kind if other in ("int", "long") or kind == "u64" else None
        else:
            want = max((kind, other), key=lambda k: WIDTH.get(k, 0)) if kind in WIDTH and other in WIDTH else None
            want = want if want in ("u32", "u64") else None
        if want is None:
            self.fail(e, f"operands {kind} and {other}")
        return want, self.converted(e, a, kind, want), self.converted(e, b, other, want)

    def by_tag(self, e, a, kind, b, other):
        if kind[1] != other[1] or b[0] == "variant" and b[3]:
            self.fail(e, "a test of a tag by what is no variant of it")
        code = ("tag_is", a, b[2]) if b[0] == "variant" else ("tags_same", a, b)
        return (code if e.op == "==" else ("not", code)), "bool"

    def of_TernaryOp(self, e):
        return self.fail(e, "a choice within an expression")

    def of_StructRef(self, e):
        code, kind = self.expression(e.name)
        name = e.field.name
        if e.type == "->":
            if kind[0] != "ref" or kind[2][0] == "slice":
                self.fail(e, f"-> of {kind}")
            code, kind = ("deref", code), kind[2]
        if kind[0] == "ref" and kind[2][0] == "slice" and name == "count":
            return ("len", code), "u64"
        if kind[0] == "ref" and kind[2][0] == "slice" and name == "at":
            return ("deref", code), ("pointer", kind[1], kind[2][1], True)
        if kind[0] == "array" and name == "at":
            return code, ("pointer", True, kind[1], False)
        if kind[0] == "struct":
            for i, (f, inner) in enumerate(self.program.structs[kind[1]]):
                if f == name:
                    return ("field", code, i, inner), inner
        if kind[0] in ("enum", "as", "parts"):
            return self.of_variant(e, code, kind, name)
        return self.fail(e, f"the member {name} of {kind}")

    def of_variant(self, e, code, kind, name):
        if kind[0] == "enum" and name in ("tag", "as"):
            return code, (name, kind[1])
        if kind[0] == "as":
            for k, (variant, parts) in enumerate(self.program.enums[kind[1]]):
                if variant == name and parts:
                    if len(parts) == 1 and parts[0][0] is None:
                        return ("payload", code, k, 0, parts[0][1]), parts[0][1]
                    return code, ("parts", kind[1], k)
        if kind[0] == "parts":
            for i, (f, inner) in enumerate(self.program.enums[kind[1]][kind[2]][1]):
                if f == name:
                    return ("payload", code, kind[2], i, inner), inner
        return self.fail(e, f"the member {name} of {kind}")

    def of_ArrayRef(self, e):
        place, kind = self.expression(e.name)
        if kind[0] != "pointer":
            self.fail(e, f"an element of {kind}")
        return ("index", place, self.given(e.subscript, "u64"), kind[2]), kind[2]

    def of_FuncCall(self, e):
        name = e.name.name if isinstance(e.name, c_ast.ID) else self.fail(e, "a call of no name")
        given = e.args.exprs if e.args else []
        if name in PURE:
            takes, gives = PURE[name]
            if len(given) != 1:
                self.fail(e, f"another count of arguments of {name}")
            return ("pure", name, gives, [self.given(given[0], takes)]), gives
        if name not in self.program.definitions:
            self.fail(e, f"a call of {name}, which is not defined here")
        parameters, result = self.program.signature(name)
        if len(parameters) != len(given):
            self.fail(e, f"another count of arguments of {name}")
        kinds = [kind for _, kind in parameters]
        codes = [self.given(x, kind) for x, kind in zip(given, kinds)]
        self.apart(e, codes, kinds)
        return ("call", name, codes, kinds, result), result


# ---- questions about trees and code

def names_in(e):
    """The variables that an expression reads."""
    if isinstance(e, c_ast.ID):
        return {e.name}
    children = [e.name] if isinstance(e, c_ast.StructRef) else [child for _, child in e.children()]
    return set().union(*map(names_in, children))


def within(code):
    """All expressions within code, itself among them."""
    if isinstance(code, tuple) and code and isinstance(code[0], str):
        yield code
    for part in code if isinstance(code, (tuple, list)) else ():
        yield from within(part)


def pointed(given, kinds):
    """The variables that arguments point to, also by way of a call among them that returns a part of what it is lent."""
    found = []
    for code, kind in zip(given, kinds):
        if code[0] == "call":
            found += pointed(code[2], code[3])
        elif kind[0] == "ref":
            found.append(root(code))
    return found


def leaves(statements):
    """Whether nothing after these statements is reached."""
    last = statements[-1] if statements else None
    if isinstance(last, c_ast.Compound):
        return leaves(last.block_items)
    if isinstance(last, c_ast.If):
        return last.iffalse is not None and leaves([last.iftrue]) and leaves([last.iffalse])
    return isinstance(last, (c_ast.Return, c_ast.Continue))


def breaks(e):
    """Whether a statement has a break that is not one of a loop or a switch within it."""
    if isinstance(e, c_ast.Break):
        return True
    if isinstance(e, (c_ast.While, c_ast.Switch)):
        return False
    return any(breaks(child) for _, child in e.children())


def is_zero(e):
    """Whether an initializer is 0 within braces."""
    while isinstance(e, c_ast.InitList) and len(e.exprs) == 1:
        e = e.exprs[0]
    return isinstance(e, c_ast.Constant) and e.value == "0"


def writing(code):
    """The calls within code that may write through what they are lent."""
    found = []
    if isinstance(code, tuple) and code and code[0] == "call":
        found = [code] if any(k[0] == "ref" and k[1] for k in code[3]) else []
        code = code[2]
    if isinstance(code, (tuple, list)):
        for part in code:
            found += writing(part)
    return found


def alone(code):
    """Whether beside the one call that writes stand literals alone; && and || do have an order."""
    if code[0] == "call" and any(k[0] == "ref" and k[1] for k in code[3]):
        return True
    operands = code[2] if code[0] == "call" else code[3] if code[0] in ("pure", "variant") else [
        e for _, e in code[2]] if code[0] == "struct" else [part for part in code[1:] if isinstance(part, tuple) and part]
    inner = [e for e in operands if writing(e)]
    if code[0] in ("and", "or"):
        return all(alone(e) for e in inner)
    return len(inner) == 1 and alone(inner[0]) and all(e is inner[0] or e[0] == "lit" for e in operands)
