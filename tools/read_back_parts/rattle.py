"""Reader of Rattle sources: a lexer and a recursive-descent parser for the forms that the crates use. Any other form is refused.

Contracts and ghost imports are passed over: they are no part of what runs.
Expressions and statements are tuples whose first entry names the form.
"""
import re


class Unread(Exception):
    """A text with a form that is not known here."""


TOKEN = re.compile(r"""
      (?P<blank>\s+|//[^\n]*)
    | (?P<bytes>b"(?:[^"\\]|\\.)*")
    | (?P<byte>b'(?:[^'\\]|\\x[0-9a-fA-F]{2}|\\.)')
    | (?P<text>"[^"]*")
    | (?P<life>'[a-z_]+)
    | (?P<float>[0-9][0-9_]*\.[0-9][0-9_]*(?:[eE][+-]?[0-9]+)?(?:f64)?|[0-9][0-9_]*[eE][+-]?[0-9]+|[0-9][0-9_]*f64)
    | (?P<int>0x[0-9a-fA-F_]+|[0-9][0-9_]*)(?P<suffix>u8|u16|u32|u64|usize)?
    | (?P<name>[A-Za-z_][A-Za-z0-9_]*)
    | (?P<sign>->|=>|\.\.=|\.\.|::|<<=|>>=|<<|>>|<=|>=|==|!=|&&|\|\||[-+*/%&|^]=|[-+*/%&|^!<>=.,;:(){}\[\]\#?])
""", re.X)
ESCAPES = {"0": 0, "n": 10, "t": 9, "r": 13, "\\": 92, "'": 39, '"': 34}
LEVELS = [["||"], ["&&"], ["==", "!=", "<", ">", "<=", ">="], ["|"], ["^"], ["&"], ["<<", ">>"], ["+", "-"], ["*", "/", "%"]]
ASSIGNED = {"=": None, "+=": "+", "-=": "-", "*=": "*", "/=": "/", "%=": "%", "&=": "&", "|=": "|", "^=": "^"}


def unescaped(text):
    """The bytes between the quotes of a byte string."""
    out, i = [], 0
    while i < len(text):
        if text[i] != "\\":
            out.extend(text[i].encode())
            i += 1
        elif text[i + 1] == "x":
            out.append(int(text[i + 2:i + 4], 16))
            i += 4
        else:
            out.append(ESCAPES[text[i + 1]])
            i += 2
    return bytes(out)


class Parser:
    def __init__(self, text, origin):
        self.text, self.origin, self.at = text, origin, 0
        self.token = self.kind = None
        self.step()

    def fail(self, why):
        line = self.text.count("\n", 0, self.at) + 1
        raise Unread(f"{self.origin}:{line}: {why} at '{self.token}': teach tools/read_back_parts/rattle.py this form")

    def step(self):
        """Reads the next token."""
        while True:
            if self.at >= len(self.text):
                self.token, self.kind, self.begin = "", "end", self.at
                return
            found = TOKEN.match(self.text, self.at)
            if not found:
                self.token = self.text[self.at]
                self.fail("a sign that is not known")
            self.begin, self.at = self.at, found.end()
            if found.lastgroup == "blank":
                continue
            self.token, self.kind = found.group(0), "int" if found.group("int") else found.lastgroup
            self.found = found
            return

    def take(self, *tokens):
        """Whether one of these comes, which is then taken."""
        if self.kind not in ("bytes", "byte", "text") and self.token in tokens:
            self.step()
            return True
        return False

    def want(self, token):
        if not self.take(token):
            self.fail(f"'{token}' is wanted")

    def name(self):
        if self.kind != "name":
            self.fail("a name is wanted")
        found = self.token
        self.step()
        return found

    def skip_to(self, sign):
        """Passes over signs of the proof language, to the first `sign` from here on."""
        self.at = self.text.index(sign, self.begin) + 1
        self.step()

    def skip_braces(self):
        """Passes over a contract, from its '{' to the '}' that closes it."""
        self.at = self.text.index("{", self.begin)
        depth = 0
        for i in range(self.at, len(self.text)):
            depth += {"{": 1, "}": -1}.get(self.text[i], 0)
            if depth == 0:
                self.at = i + 1
                self.step()
                return
        self.fail("a contract is not closed")

    def listed(self, close, one):
        """What `one` reads, with commas between, up to a closing sign."""
        out = []
        while not self.take(close):
            out.append(one())
            if not self.take(","):
                self.want(close)
                break
        return out

    # ---- items

    def items(self, close):
        out = []
        while not (self.kind == "end" if close is None else self.take(close)):
            found = self.item()
            if found:
                out.append(found)
        return out

    def item(self):
        exported = derived = False
        while self.take("#"):
            if self.take("!"):
                if exported or derived:
                    self.fail("an attribute of the file behind one of an item")
                return self.tactics()
            self.want("[")
            if self.take("derive"):
                self.want("(")
                derived = True
                if set(self.listed(")", self.name)) - {"Drop", "Clone", "Copy", "Debug", "PartialEq", "Eq"}:
                    self.fail("a derive that writes code")
            else:
                self.exporting()
                exported = True
            self.want("]")
        if derived and self.token == "ghost":
            self.fail("a derive of nothing that runs")
        if self.token == "ghost":
            self.skip_to(";")
            return None
        public = self.take("pub")
        if public and self.take("("):
            self.name()
            self.want(")")
            public = False
        if self.take("extern"):
            if self.token != '"C"' or not exported:
                self.fail("an extern that is no exported function")
            self.step()
        word = self.name()
        if derived and word not in ("struct", "enum"):
            self.fail("a derive of what is no type")
        reader = {"fn": lambda: self.function(exported, public), "struct": self.struct, "enum": self.enum, "const": self.constant,
                  "use": self.use, "mod": self.module, "impl": self.methods, "trait": self.trait}.get(word)
        if reader is None:
            self.fail(f"an item '{word}' that is not known")
        return reader()

    def tactics(self):
        """`#![tactic(auto)]`, which is for the proof alone."""
        for sign in ("[", "tactic", "(", "auto", ")", "]"):
            self.want(sign)
        return None

    def exporting(self):
        for sign in ("unsafe", "(", "no_mangle", ")"):
            if not self.take(sign):
                self.fail("an attribute that is not known")

    def use(self):
        """The paths that a line brings in."""
        path = [self.name()]
        while self.take("::"):
            if self.take("{"):
                paths = [[*path, name] for name in self.listed("}", self.name)]
                self.want(";")
                return ("use", paths)
            path.append(self.name())
        self.want(";")
        return ("use", [path])

    def module(self):
        name = self.name()
        self.want(";")
        return ("mod", name)

    def constant(self):
        name = self.name()
        self.want(":")
        kind = self.type()
        self.want("=")
        value = self.expression()
        self.want(";")
        return ("const", name, kind, value)

    def generics(self):
        """The parameters that are types or counts: each a name and whether it is a count. What a bound promises is the proof's."""
        out = []
        if not self.take("<"):
            return out
        while not self.take(">"):
            if self.kind == "life":
                self.step()
            else:
                count = self.take("const")
                out.append((self.name(), count))
                if self.take(":"):
                    self.bound()
                    while self.take("+"):
                        self.bound()
            if not self.take(","):
                self.want(">")
                return out
        return out

    def bound(self):
        """What a type must be: a trait, or a function of some types."""
        self.type()
        if self.take("("):
            self.listed(")", self.type)
            if self.take("->"):
                self.type()

    def member(self):
        if self.take("pub") and self.take("("):
            self.name()
            self.want(")")
        name = self.name()
        self.want(":")
        return name, self.type()

    def unnamed(self):
        self.take("pub")
        return None, self.type()

    def struct(self):
        name, generics = self.name(), self.generics()
        if self.take("("):
            parts = self.listed(")", self.unnamed)
            self.want(";")
            return ("struct", name, [(f"part{i}", kind) for i, (_, kind) in enumerate(parts)], generics)
        self.want("{")
        return ("struct", name, self.listed("}", self.member), generics)

    def one_variant(self):
        name = self.name()
        if self.take("("):
            return name, self.listed(")", self.unnamed)
        if self.take("{"):
            return name, self.listed("}", self.member)
        return name, []

    def enum(self):
        name, generics = self.name(), self.generics()
        self.want("{")
        return ("enum", name, self.listed("}", self.one_variant), generics)

    def methods(self):
        """An impl: its type, its functions, each with the impl's parameters before its own, and the trait, if it is of one."""
        generics, of = self.generics(), None
        kind = self.type()
        if self.take("for"):
            of, kind = kind, self.type()
        self.want("{")
        return ("impl", kind, [(*item[:6], generics + item[6], item[7]) for item in self.items("}")], of)

    def trait(self):
        """A trait: its functions that have a body, and the others' names."""
        name = self.name()
        if self.generics():
            self.fail("a trait with parameters")
        self.want("{")
        return ("trait", name, self.items("}"))

    def parameter(self):
        if self.take("&"):
            changed = self.take("mut")
            if self.name() != "self":
                self.fail("a parameter without a type")
            return "self", ("ref", changed, ("name", ["Self"], []))
        changed = self.take("mut")
        name = self.name()
        if name == "self":
            return name, ("name", ["Self"], [])
        self.want(":")
        if changed:
            self.fail("a parameter that is 'mut'")
        return name, self.type()

    def function(self, exported, public):
        line = self.text.count("\n", 0, self.begin) + 1
        name, generics = self.name(), self.generics()
        self.want("(")
        parameters = self.listed(")", self.parameter)
        result = self.type() if self.take("->") else "unit"
        while self.token in ("requires", "ensures"):
            self.skip_braces()
        if self.take(";"):
            return ("fn", name, parameters, result, None, False, generics, line)
        return ("fn", name, parameters, result, self.block(), exported or (public and name.startswith("dihkelu_")), generics, line)

    # ---- types

    def type(self):
        if self.take("&"):
            if self.kind == "life":
                self.step()
            changed = self.take("mut")
            return ("ref", changed, self.type())
        if self.take("["):
            inner = self.type()
            if self.take("]"):
                return ("slice", inner)
            self.want(";")
            count = self.count()
            self.want("]")
            return ("array", inner, count)
        if self.take("("):
            parts = self.listed(")", self.type)
            return ("tuple", parts) if parts else "unit"
        path = [self.name()]
        while self.take("::"):
            path.append(self.name())
        return ("name", path, self.given_types())

    def given_types(self):
        """The types and counts that a name is given."""
        out = []
        if self.take("<"):
            while not self.closed():
                if self.kind == "life":
                    self.step()
                else:
                    out.append(self.count() if self.kind == "int" else self.type())
                if not self.take(","):
                    if not self.closed():
                        self.fail("'>' is wanted")
                    break
        return out

    def closed(self):
        """Whether '>' comes, of which '>>' is two."""
        if self.token == ">>" and self.kind == "sign":
            self.token, self.begin = ">", self.begin + 1
            return True
        return self.take(">")

    def count(self):
        """A number, or the name of one."""
        return self.name() if self.kind == "name" else self.literal()[1]

    # ---- statements

    def block(self):
        self.want("{")
        statements, last = [], None
        while not self.take("}"):
            if last is not None:
                statements.append(("expr", last))
                last = None
            found = self.statement()
            if found[0] == "tail":
                last = found[1]
            else:
                statements.append(found)
        return ("block", statements, last)

    def statement(self):
        if self.take("let"):
            return self.let()
        if self.token in ("if", "match", "while", "for", "{"):
            found = self.primary(True)
            return ("expr", found) if self.take(";") else ("tail", found)
        found = self.expression()
        if self.kind == "sign" and self.token in ASSIGNED:
            op = ASSIGNED[self.token]
            self.step()
            value = self.expression()
            self.want(";")
            return ("set", op, found, value)
        if self.take(";"):
            return ("expr", found)
        if self.token != "}":
            self.fail("';' is wanted")
        return ("tail", found)

    def let(self):
        if self.token == "(" or self.token[:1].isupper():
            pattern = self.pattern()
            self.want("=")
            value = self.expression()
            other = self.block() if self.take("else") else None
            self.want(";")
            return ("let_else", pattern, value, other)
        self.take("mut")
        name = self.name()
        if self.token == "::":
            self.fail("a pattern of a path")
        kind = self.type() if self.take(":") else None
        value = self.expression() if self.take("=") else None
        self.want(";")
        return ("let", name, kind, value)

    # ---- expressions

    def expression(self, bare=True):
        """An expression; not `bare`: one before a '{', so that no name begins a struct."""
        if self.take("return"):
            return ("return", None if self.token in (";", "}", ",") else self.expression(bare))
        if self.take("break"):
            return ("break",)
        if self.take("continue"):
            return ("continue",)
        return self.level(0, bare)

    def level(self, at, bare):
        if at == len(LEVELS):
            return self.converted(bare)
        found = self.level(at + 1, bare)
        while self.kind == "sign" and self.token in LEVELS[at]:
            op = self.token
            self.step()
            found = ("binary", op, found, self.level(at + 1, bare))
        return found

    def converted(self, bare):
        found = self.unary(bare)
        while self.take("as"):
            found = ("as", found, self.type())
        return found

    def unary(self, bare):
        for sign in "-!*":
            if self.take(sign):
                return ("unary", sign, self.unary(bare))
        if self.take("&"):
            changed = self.take("mut")
            return ("ref", changed, self.unary(bare))
        return self.postfix(bare)

    def postfix(self, bare):
        found = self.primary(bare)
        while True:
            if found[0] in ("if", "if_let", "match", "while", "while_let", "for", "block"):
                return found
            if self.take("?"):
                found = ("question", found)
                continue
            if self.take("."):
                if self.kind == "int":
                    found = ("field", found, f"part{self.literal()[1]}")
                    continue
                name = self.name()
                found = ("method", found, name, self.listed(")", self.expression)) if self.take("(") else ("field", found, name)
            elif self.take("["):
                found = ("index", found, self.place())
            elif self.take("("):
                found = ("call", found, self.listed(")", self.expression))
            else:
                return found

    def place(self):
        """What stands between the brackets of an index: a place, or a range."""
        low = None if self.token == ".." else self.expression()
        if self.take(".."):
            high = None if self.token == "]" else self.expression()
            self.want("]")
            return ("range", low, high)
        self.want("]")
        return low

    def literal(self):
        token, kind, found = self.token, self.kind, self.found
        self.step()
        if kind == "int":
            return ("int", int(found.group("int").replace("_", ""), 0), found.group("suffix"))
        if kind == "float":
            return ("float", token.replace("_", "").replace("f64", ""))
        if kind == "byte":
            return ("int", unescaped(token[2:-1])[0], "u8")
        return ("bytes", unescaped(token[2:-1]))

    def primary(self, bare):
        if self.kind in ("int", "float", "byte", "bytes"):
            return self.literal()
        if self.take("("):
            return self.bracketed()
        if self.take("["):
            return self.array()
        if self.token == "{":
            return self.block()
        word = self.name()
        if word == "if":
            return self.choice()
        if word == "match":
            subject = self.expression(False)
            self.want("{")
            return ("match", subject, self.arms())
        if word == "while":
            if self.take("let"):
                pattern = self.pattern()
                self.want("=")
                return ("while_let", pattern, self.expression(False), self.block())
            condition = self.expression(False)
            return ("while", condition, self.block())
        if word == "for":
            return self.loop()
        if word == "matches" and self.take("!"):
            self.want("(")
            subject = self.expression()
            self.want(",")
            pattern = self.pattern()
            self.want(")")
            return ("matches", subject, pattern)
        if word in ("true", "false"):
            return ("bool", word == "true")
        if word in ("loop", "unsafe", "move", "let"):
            self.fail(f"'{word}' is not known")
        path = [word]
        while self.take("::"):
            path.append(self.name())
        if bare and self.take("{"):
            return ("struct", path, self.listed("}", self.given))
        return ("path", path)

    def bracketed(self):
        """What stands in round brackets: one expression, some of a tuple, or a range."""
        if self.take(")"):
            return ("unit",)
        found = self.span()
        if self.take(")"):
            return found
        self.want(",")
        return ("tuple", [found] + self.listed(")", self.expression))

    def span(self, bare=True):
        """An expression, or a range of two."""
        low = self.expression(bare)
        for sign in ("..", "..="):
            if self.take(sign):
                return ("span", low, self.expression(bare), sign == "..=")
        return low

    def loop(self):
        pattern = self.one_pattern()
        if self.name() != "in":
            self.fail("'in' is wanted")
        return ("for", pattern, self.span(False), self.block())

    def given(self):
        name = self.name()
        return name, self.expression() if self.take(":") else ("path", [name])

    def array(self):
        if self.take("]"):
            return ("array", [])
        first = self.expression()
        if self.take(";"):
            count = self.count()
            self.want("]")
            return ("repeat", first, count)
        if not self.take(","):
            self.want("]")
            return ("array", [first])
        return ("array", [first] + self.listed("]", self.expression))

    def choice(self):
        pattern = None
        if self.take("let"):
            pattern = self.pattern()
            self.want("=")
        condition = self.expression(False)
        then, other = self.block(), None
        if self.take("else"):
            other = self.choice() if self.take("if") else self.block()
        return ("if", condition, then, other) if pattern is None else ("if_let", pattern, condition, then, other)

    def arms(self):
        out = []
        while not self.take("}"):
            pattern = self.pattern()
            if self.take("if"):
                pattern = ("guard", pattern, self.expression(False))
            self.want("=>")
            body = self.expression()
            out.append((pattern, body))
            if not self.take(",") and body[0] not in ("block", "if", "if_let", "match"):
                self.want("}")
                break
        return out

    def pattern(self):
        found = [self.one_pattern()]
        while self.take("|"):
            found.append(self.one_pattern())
        return found[0] if len(found) == 1 else ("or", found)

    def one_pattern(self):
        if self.kind in ("int", "byte"):
            return self.literal()[:2]
        if self.take("&"):
            return ("lent", self.one_pattern())
        if self.take("("):
            parts = self.listed(")", self.one_pattern)
            return ("parts", parts) if parts else ("any",)
        self.take("mut")
        if self.token in ("true", "false"):
            return ("bool", self.name() == "true")
        path = [self.name()]
        if path == ["_"]:
            return ("any",)
        while self.take("::"):
            path.append(self.name())
        if self.take("("):
            return ("variant", path, self.listed(")", self.part_pattern), None)
        if self.take("{"):
            return ("variant", path, None, dict(self.listed("}", self.named_pattern)))
        return ("bind", path[0]) if len(path) == 1 and not path[0][0].isupper() else ("variant", path, [], None)

    def part_pattern(self):
        return ("rest",) if self.take("..") else self.one_pattern()

    def named_pattern(self):
        if self.take(".."):
            return "..", ("any",)
        name = self.name()
        return name, self.one_pattern() if self.take(":") else ("bind", name)


def read(text, origin):
    """The items of one file."""
    return Parser(text, origin).items(None)
