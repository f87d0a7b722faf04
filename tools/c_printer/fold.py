"""Steps of one operation each, put together to expressions as they were written.

A value is moved forward to the one place that reads it, within one list of statements, and only where nothing between
writes what it reads. Calls that may write memory stay where they are. What is named in the source stays a variable.
"""
from .program import Unknown

LEAVING = ("return", "break", "continue")

# ---- what is read and written


def parts(e):
    """The expressions directly within one."""
    kind = e[0]
    if kind in ("lit", "true", "false", "unit", "var"):
        return ()
    if kind in ("field", "tag", "payload", "addr", "repeat", "un", "is"):
        return (e[2],) if kind in ("repeat", "un") else (e[1],)
    if kind == "deref":
        return (e[2],)
    if kind in ("index", "offset", "and", "or"):
        return (e[1], e[2])
    if kind == "bin":
        return (e[2], e[3])
    if kind in ("aggregate", "call"):
        return e[2]
    raise Unknown(e)


def rebuilt(e, new):
    """The same expression over other parts."""
    kind = e[0]
    if not new:
        return e
    if kind in ("field", "tag", "payload", "addr", "is"):
        return (kind, new[0]) + e[2:]
    if kind in ("repeat", "un"):
        return (kind, e[1], new[0]) + e[3:]
    if kind == "deref":
        return (kind, e[1], new[0])
    if kind in ("index", "offset", "and", "or"):
        return (kind,) + tuple(new)
    if kind == "bin":
        return (kind, e[1], new[0], new[1], e[4])
    return (kind, e[1], tuple(new))


def mapped(e, change):
    done = change(e)
    if done is not None:
        return done
    return rebuilt(e, [mapped(p, change) for p in parts(e)])


def count(e, n):
    return 1 if e == ("var", n) else sum(count(p, n) for p in parts(e))


def variables(e):
    if e[0] == "var":
        return {e[1]}
    found = set()
    for p in parts(e):
        found |= variables(p)
    return found


def has(e, kinds):
    return e[0] in kinds or any(has(p, kinds) for p in parts(e))


def root(place):
    """The variable that a place is of, and whether it is reached through a pointer."""
    while place[0] in ("field", "tag", "payload", "index"):
        place = place[1]
    return (None, True) if place[0] == "deref" else (place[1], False)


def lists(s):
    """The lists of statements within a statement."""
    if s[0] == "if":
        return [s[2], s[3]]
    if s[0] == "switch":
        return [b for _, b in s[2]] + ([s[3]] if s[3] is not None else [])
    return [s[-1]] if s[0] in ("loop", "while") else []


def with_lists(s, new):
    """The same statement over other lists of statements."""
    if s[0] == "if":
        return s[:2] + new
    if s[0] == "switch":
        arms = [(values, body) for (values, _), body in zip(s[2], new)]
        return ["switch", s[1], arms, new[-1] if s[3] is not None else None]
    return s[:-1] + new if s[0] in ("loop", "while") else s


def statement_mapped(s, change):
    """The same statement with its expressions and places changed."""
    s = with_lists(s, [[statement_mapped(t, change) for t in body] for body in lists(s)])
    if s[0] == "set":
        return ["set", mapped(s[1], change), mapped(s[2], change)]
    if s[0] in ("do", "if", "switch", "while") or s[0] == "return" and s[1] is not None:
        return [s[0], mapped(s[1], change)] + s[2:]
    return s


def on_the_way(place):
    """The expressions that are read to reach a place: pointers and indices."""
    if place[0] == "deref":
        return [place[2]]
    if place[0] == "index":
        return on_the_way(place[1]) + [place[2]]
    return on_the_way(place[1]) if place[0] in ("field", "tag", "payload") else []


def place_mapped(place, change):
    """The same place, what is read on the way changed."""
    if place[0] == "deref":
        return ("deref", place[1], mapped(place[2], change))
    if place[0] == "index":
        return ("index", place_mapped(place[1], change), mapped(place[2], change))
    if place[0] in ("field", "tag", "payload"):
        return (place[0], place_mapped(place[1], change)) + place[2:]
    return place


def heads(s):
    """The expressions that a statement reads itself, once and first."""
    if s[0] == "set":
        return on_the_way(s[1]) + [s[2]]
    if s[0] == "return":
        return [s[1]] if s[1] is not None else []
    return [s[1]] if s[0] in ("do", "if", "switch", "while") else []


class Folder:
    def __init__(self, function, temporaries, writers):
        self.f = function
        self.temporaries = temporaries
        self.writers = writers  # functions that write memory

    def impure(self, e):
        return (e[0] == "call" and e[1] in self.writers) or any(self.impure(p) for p in parts(e))

    def reads_memory(self, e):
        return has(e, ("deref", "call")) or bool(variables(e) & self.f.memory)

    def written(self, s):
        """The variables that a statement writes, and whether it writes memory."""
        found, memory = set(), any(self.impure(e) for e in heads(s))
        if s[0] == "set":
            n, through = root(s[1])
            memory |= through or n in self.f.memory
            if not through:
                found.add(n)
        for inner in lists(s):
            for t in inner:
                more, also = self.written(t)
                found |= more
                memory |= also
        return found, memory

    # ---- liveness

    def live(self, statements, after, left):
        """The variables that are read from here on; `left` are those read where the loop around is left, and where its next round begins."""
        for s in reversed(statements):
            after = self.live_before(s, after, left)
        return after

    def live_before(self, s, after, left):
        kind = s[0]
        if kind == "set":
            found = set(after)
            if s[1][0] == "var":
                found.discard(s[1][1])
            else:
                found |= variables(s[1])
            return found | variables(s[2])
        if kind == "do":
            return after | variables(s[1])
        if kind == "return":
            return variables(s[1]) if s[1] is not None else set()
        if kind in ("break", "continue"):
            return set(left[kind == "continue"])
        if kind == "if":
            return variables(s[1]) | self.live(s[2], after, left) | self.live(s[3], after, left)
        if kind == "switch":
            found = variables(s[1])
            for inner in lists(s):
                found |= self.live(inner, after, left)
            return found
        found = set(after) if kind == "while" else set()
        while True:
            more = self.live(s[-1], found, (after, found)) | (variables(s[1]) if kind == "while" else set())
            if more <= found:
                return found
            found |= more

    # ---- folding

    def fold(self, statements, after, left):
        """One list, its inner lists first, until nothing more moves."""
        while True:
            before = repr(statements)
            statements = [statement_mapped(s, self.simple) for s in statements]
            statements = self.inner(statements, after, left)
            statements = self.forward(statements, after, left)
            statements = self.joined(statements, after, left)
            if repr(statements) == before:
                return statements

    def simple(self, e):
        """A part of a value that stands there whole, and what an address is of."""
        inner = [self.simple(p) or p for p in parts(e)]
        new = rebuilt(e, inner) if any(x is not y for x, y in zip(inner, parts(e))) else e
        of, kind = new[1] if len(new) > 1 else None, new[0]
        if kind == "deref" and new[2][0] == "addr" and self.f.type_of(new[2][1]) == new[1]:
            return new[2][1]
        if isinstance(of, tuple) and of and of[0] == "aggregate" and of[1][0] == "slice" and kind == "field":
            return of[2][new[2]]
        if isinstance(of, tuple) and of and of[0] == "aggregate" and of[1][0] == "named":
            if kind == "field" and self.f.named[of[1][1]][0] == "fields":
                return of[2][new[2]]
            if kind == "tag":
                return of[2][0]
            if kind == "payload" and of[2][0][2] == new[2]:
                return of[2][1 + new[3]]
            if kind == "is":
                return ("true",) if of[2][0][2] == new[2] else ("false",)
        if kind == "bin" and new[1] in ("eq", "ne") and new[2][0] == "tag" and new[3][0] == "lit":
            test = ("is", new[2][1], new[3][2], len(self.f.named[self.f.type_of(new[2][1])[1]][1]))
            return test if new[1] == "eq" else negated(test)
        if kind in ("and", "or") and new[1] in (("true",), ("false",)):
            return new[2] if new[1] == (("true",) if kind == "and" else ("false",)) else new[1]
        return new if new is not e else None

    def inner(self, statements, after, left):
        new = []
        for s in reversed(statements):
            kind = s[0]
            if kind == "set" and s[1][0] == "var" and s[1][1] in self.temporaries and s[1][1] not in after and not has(s[2], ("call",)):
                continue  # what is set is never read
            if kind == "set" and s[1][0] == "var" and s[2][0] == "call" and s[1][1] not in after | self.f.memory:
                s = ["do", s[2]]  # what is returned is never read
            elif kind == "if":
                s = ["if", s[1], self.fold(s[2], after, left), self.fold(s[3], after, left)]
            elif kind == "switch":
                s = ["switch", s[1], [(v, self.fold(b, after, left)) for v, b in s[2]], s[3] if s[3] is None else self.fold(s[3], after, left)]
            elif kind in ("loop", "while"):
                again = self.live_before(s, after, left)
                s = s[:-1] + [self.fold(s[-1], again, (after, again))]
                if kind == "loop" and s[1] and s[1][0][0] == "if" and s[1][0][2:] == [[["break"]], []]:
                    s = ["while", negated(s[1][0][1]), s[1][1:]]
            after = self.live_before(s, after, left)
            new.append(s)
        return new[::-1]

    def forward(self, statements, after, left):
        """Moves each value to the statement that reads it."""
        i = 0
        statements = list(statements)
        while i < len(statements):
            s = statements[i]
            if s[0] == "set" and s[1][0] == "var" and s[1][1] in self.temporaries and not self.impure(s[2]) and not filled(s[2]):
                j = self.reader(statements, i, after, left)
                if j is not None:
                    n, e = s[1][1], s[2]
                    statements[j] = self.replaced(statements[j], n, e)
                    del statements[i]
                    i = max(i - 1, 0)
                    continue
            i += 1
        return statements

    def reader(self, statements, i, after, left):
        n, e = statements[i][1][1], statements[i][2]
        wanted, memory = variables(e), self.reads_memory(e)
        for j in range(i + 1, len(statements)):
            s = statements[j]
            reads = sum(count(h, n) for h in heads(s))
            if reads or n in self.mentioned(s):
                if s[0] in ("loop", "while") or reads == 0:
                    return None
                if reads > 1 and has(e, ("bin", "un", "call", "aggregate", "repeat", "and", "or", "deref")):
                    return None
                rest = self.live(statements[j + 1 :], after, left)
                if s[0] == "set" and s[1] == ("var", n):
                    return j
                if n in rest or any(n in self.live(inner, rest, left) for inner in lists(s)):
                    return None
                return j
            wrote, wrote_memory = self.written(s)
            if wrote & wanted or (memory and wrote_memory) or s[0] in ("loop", "while"):
                return None
        return None

    def mentioned(self, s):
        found = set()
        for h in heads(s):
            found |= variables(h)
        if s[0] == "set":
            found |= variables(s[1])
        for inner in lists(s):
            for t in inner:
                found |= self.mentioned(t)
        return found

    def replaced(self, s, n, e):
        def change(x):
            return e if x == ("var", n) else None

        if s[0] == "set":
            return ["set", place_mapped(s[1], change), mapped(s[2], change)]
        if s[0] == "return":
            return ["return", mapped(s[1], change)]
        return [s[0], mapped(s[1], change)] + s[2:]

    # ---- branches

    def joined(self, statements, after, left):
        new = []
        rest = list(statements)
        while rest:
            s = rest.pop(0)
            nxt = rest[0] if rest else None
            if s[0] == "set" and s[1] == s[2]:
                continue
            told = self.told(s)
            if told is not None:
                rest = told + rest
                continue
            if s[0] == "set" and s[1][0] == "var" and s[1][1] in self.temporaries and nxt == ["return", s[1]] and not filled(s[2]):
                rest[0] = ["return", s[2]]
                continue
            joint = self.both(s, nxt)
            if joint is not None:
                rest[0] = joint
                continue
            if nxt is not None and self.known(s, nxt, self.live(rest[1:], after, left)):
                n = nxt[1][1][1]
                rest[0] = self.pushed(s, n, lambda e, nxt=nxt, n=n: [["set", ("var", n), e], *nxt[2 if e[2][0][2] == nxt[1][2] else 3]])
                continue
            as_value = self.as_value(s)
            if as_value is not None:
                rest.insert(0, as_value)
                continue
            if s[0] in ("if", "switch") and nxt is not None:
                to = None
                if nxt[0] == "return" and nxt[1] is not None and nxt[1][0] == "var":
                    n, to = nxt[1][1], lambda e: [["return", e]]
                elif nxt[0] == "set" and nxt[1][0] == "var" and nxt[2][0] == "var":
                    n, to = nxt[2][1], lambda e, place=nxt[1]: [["set", place, e]]
                if to is not None and n in self.temporaries and self.ends(s, n):
                    if nxt[0] == "return" or n not in self.live(rest[1:], after, left):
                        rest[0] = self.pushed(s, n, to)
                        continue
            if s[0] == "if" and s[3] and leaves(s[2]):
                new.append(["if", s[1], s[2], []])
                rest = s[3] + rest
                continue
            if s[0] == "if" and s[2] and leaves(s[3]):
                new.append(["if", negated(s[1]), s[3], []])
                rest = s[2] + rest
                continue
            if s[0] == "if" and not s[2]:
                if not s[3]:
                    continue
                s = ["if", negated(s[1]), s[3], []]
            new.append(s)
            if s[0] in LEAVING:
                break
        return new

    def both(self, s, nxt):
        """x = a; if (x) x = b;  is  x = a && b.  x = a; if (!x) x = b;  is  x = a || b."""
        if s[0] != "set" or s[1][0] != "var" or self.f.type_of(s[1]) != ("bool",) or nxt is None or nxt[0] != "if" or self.impure(s[2]):
            return None
        x, c = s[1], nxt[1]

        def sets(inner):
            return len(inner) == 1 and inner[0][0] == "set" and inner[0][1] == x and not self.impure(inner[0][2])

        if c == x and sets(nxt[2]) and not nxt[3] and not count(nxt[2][0][2], x[1]):
            return ["set", x, ("and", s[2], nxt[2][0][2])]
        if c == x and sets(nxt[3]) and not nxt[2] and not count(nxt[3][0][2], x[1]):
            return ["set", x, ("or", s[2], nxt[3][0][2])]
        if c == negated(x) and sets(nxt[2]) and not nxt[3] and not count(nxt[2][0][2], x[1]):
            return ["set", x, ("or", s[2], nxt[2][0][2])]
        return None

    def told(self, s):
        """The way through a branch that is gone for certain, or that all ways are; or None."""
        if s[0] == "switch" and s[1][0] == "lit":
            return next((body for values, body in s[2] if s[1][2] in values), s[3])
        if s[0] == "if" and s[1] in (("true",), ("false",)):
            return s[2 if s[1] == ("true",) else 3]
        all_ways = lists(s) if s[0] in ("if", "switch") else []
        if all_ways and all_ways[0] and all(way == all_ways[0] for way in all_ways) and not has(s[1], ("call",)):
            return all_ways[0]
        return None

    def known(self, s, nxt, after):
        """Whether a branch sets the value by whose variant the next statement branches, in each way to another variant."""
        if s[0] not in ("if", "switch") or nxt[0] != "if" or nxt[1][0] != "is" or nxt[1][1][0] != "var":
            return False
        n = nxt[1][1][1]
        if n not in self.temporaries or n in after or not self.ends(s, n):
            return False
        values = list(ends_in(s, n))
        if any(e[0] != "aggregate" for e in values):
            return False
        ways = [e[2][0][2] == nxt[1][2] for e in values]
        return all(ways.count(way) <= 1 or not nxt[2 if way else 3] for way in (True, False))

    def as_value(self, s):
        """A branch that only says whether: && and ||."""
        if s[0] == "switch":
            return self.variant_as_value(s)
        if s[0] != "if" or len(s[2]) != 1 or len(s[3]) != 1:
            return None
        (a, b), c = (s[2][0], s[3][0]), s[1]
        if a[0] != b[0] or a[0] not in ("set", "return") or (a[0] == "set" and (a[1] != b[1] or a[1][0] != "var")):
            return None
        x, y = a[-1], b[-1]
        if x is None or y is None or self.impure(x) or self.impure(y) or self.f.type_of(x) != ("bool",):
            return None
        if (x, y) in ((("true",), ("false",)), (("false",), ("true",))):
            e = c if x == ("true",) else negated(c)
        elif y == ("false",):
            e = ("and", c, x)
        elif x == ("true",):
            e = ("or", c, y)
        elif x == ("false",):
            e = ("and", negated(c), y)
        elif y == ("true",):
            e = ("or", negated(c), x)
        else:
            return None
        return a[:-1] + [e]

    def variant_as_value(self, s):
        """A choice by variants that only says whether the value is one of them."""
        ways = s[2]
        if s[1][0] != "tag" or s[3] is not None or len(ways) != 2 or any(len(body) != 1 or body[0][0] != "set" for _, body in ways):
            return None
        places = {body[0][1] for _, body in ways}
        if len(places) != 1 or any(body[0][2] not in (("true",), ("false",)) for _, body in ways):
            return None
        yes = [v for values, body in ways if body[0][2] == ("true",) for v in values]
        no = [v for values, body in ways if body[0][2] == ("false",) for v in values]
        some = no if len(no) == 1 and len(yes) > 1 else yes
        if len(some) != 1:
            return None
        e = ("is", s[1][1], some[0], len(yes) + len(no))
        return ["set", places.pop(), negated(e) if some is no else e]

    def ends(self, s, n):
        """Whether each way through a branch ends by setting a variable, or leaves."""
        if s[0] == "if" and not (s[2] and s[3]):
            return False
        if s[0] not in ("if", "switch"):
            return False
        for inner in lists(s):
            last = inner[-1] if inner else None
            if last is None:
                return False
            if last[0] in LEAVING or (last[0] == "set" and last[1] == ("var", n)):
                continue
            if not self.ends(last, n):
                return False
        return True

    def pushed(self, s, n, to):
        def push(inner):
            last = inner[-1]
            if last[0] in LEAVING:
                return inner
            if last[0] == "set":
                return inner[:-1] + to(last[2])
            return inner[:-1] + [self.pushed(last, n, to)]

        if s[0] == "if":
            return ["if", s[1], push(s[2]), push(s[3])]
        return ["switch", s[1], [(v, push(b)) for v, b in s[2]], s[3] if s[3] is None else push(s[3])]


def ends_in(s, n):
    """What a variable is set to where the ways through a branch end."""
    for inner in lists(s):
        last = inner[-1]
        if last[0] == "set":
            yield last[2]
        elif last[0] not in LEAVING:
            yield from ends_in(last, n)


def zeros(e):
    """Whether a value is all zeros, which C writes as {0}."""
    return e[0] == "lit" and e[2] == 0 or e[0] in ("aggregate", "repeat") and e[1][0] != "slice" and all(zeros(p) for p in parts(e))


def filled(e):
    """Whether a value is a list of the same element, which takes a loop."""
    return e[0] == "repeat" and not zeros(e)


def leaves(statements):
    """Whether nothing after a list is reached."""
    if not statements:
        return False
    last = statements[-1]
    if last[0] in LEAVING:
        return True
    if last[0] == "if":
        return leaves(last[2]) and leaves(last[3])
    if last[0] == "switch":
        return all(leaves(b) for b in lists(last))
    return False


def negated(e):
    if e[0] == "is" and e[3] == 2:
        return ("is", e[1], 1 - e[2], 2)
    if e[0] == "bin" and e[1] in ("eq", "ne") and e[2][0] == e[3][0] == "tag":
        return ("bin", "ne" if e[1] == "eq" else "eq", *e[2:])
    return e[2] if e[0] == "un" and e[1] == "not" else ("un", "not", e, ("bool",))
