"""Small functions of the language's own library in the place of their calls, as `is_some` and what stands behind `?`.

A function is taken that has no loop, writes no memory and calls only functions that write none; each way through it ends where its value
is set. Its variables become variables of the caller; an argument that it does not set stands where the argument is read.
"""
from . import fold
from .program import Unknown

OWN = ("std::num::wrapping_add_u64", "std::num::wrapping_sub_u64")  # which are printed as functions


def small(name):
    """Whether a function is the library's, or the equality that a derive gives."""
    return name.startswith("std::") and name not in OWN or name.endswith("PartialEq::eq")


def ended(statements):
    """The same with nothing behind a way that leaves, each way ending without 'return'; None where that is not known."""
    out = []
    for i, s in enumerate(statements):
        if s[0] in ("loop", "while", "break", "continue"):
            return None
        if s[0] == "return":
            return out
        inner = fold.lists(s)
        if not any(returns(body) for body in inner):
            out.append(s)
            continue
        rest = statements[i + 1 :]
        open_ways = [body for body in inner if not fold.leaves(body)]
        if any(returns(body) for body in open_ways) or len(open_ways) > 1 and rest:
            return None
        ways = [ended(body if fold.leaves(body) else body + rest) for body in inner]
        if None in ways:
            return None
        return out + [fold.with_lists(s, ways)]
    return out


def returns(statements):
    return any(s[0] == "return" or any(returns(body) for body in fold.lists(s)) for s in statements)


def writes(s):
    """Whether a statement writes memory that its function was given."""
    return s[0] == "set" and fold.root(s[1])[1] or any(writes(t) for body in fold.lists(s) for t in body)


def set_in(statements):
    """How often each variable is set."""
    found = {}
    for s in statements:
        if s[0] == "set" and not fold.root(s[1])[1]:
            n = fold.root(s[1])[0]
            found[n] = found.get(n, 0) + 1
        for body in fold.lists(s):
            for n, k in set_in(body).items():
                found[n] = found.get(n, 0) + k
    return found


def fixed(place):
    """Whether a place is a variable, or a part of it that is always the same."""
    while place[0] in ("field", "payload") or place[0] == "index" and place[2][0] == "lit":
        place = place[1]
    return place[0] == "var"


class Inliner:
    def __init__(self, functions, writers):
        self.functions, self.writers, self.bodies = functions, writers, {}

    def body(self, name):
        """A small function's body without calls of small functions, or None."""
        if name not in self.bodies:
            self.bodies[name] = None
            if name in self.functions and small(name):
                f = self.functions[name]
                self.within(f)
                body = ended(f.body)
                if body is not None and not any(writes(s) or self.calls_writer(s) for s in body):
                    self.bodies[name] = body
        return self.bodies[name]

    def calls_writer(self, s):
        heads = fold.heads(s)
        return any(self.impure(e) for e in heads) or any(self.calls_writer(t) for body in fold.lists(s) for t in body)

    def impure(self, e):
        return e[0] == "call" and e[1] in self.writers or any(self.impure(p) for p in fold.parts(e))

    def within(self, f):
        """One function, in whose body the calls are replaced."""
        addresses = {}
        once = {n for n, k in set_in(f.body).items() if k == 1}
        self.addresses(f.body, once, addresses)
        f.body = self.statements(f, f.body, addresses)

    def addresses(self, statements, once, found):
        """The variables that are only ever the address of one place."""
        for s in statements:
            if s[0] == "set" and s[1][0] == "var" and s[1][1] in once:
                if s[2][0] == "addr" and fixed(s[2][1]):
                    found[s[1][1]] = s[2]
                elif s[2][0] == "var" and s[2][1] in found:
                    found[s[1][1]] = found[s[2][1]]
            for body in fold.lists(s):
                self.addresses(body, once, found)

    def statements(self, f, statements, addresses):
        out = []
        for s in statements:
            call = s[-1] if s[0] in ("set", "do") and s[-1][0] == "call" else None
            body = self.body(call[1]) if call else None
            if body is None:
                out.append(fold.with_lists(s, [self.statements(f, inner, addresses) for inner in fold.lists(s)]))
                continue
            out += self.replaced(f, s, call, body, addresses)
        return out

    def replaced(self, f, s, call, body, addresses):
        callee, base = self.functions[call[1]], len(f.types)
        f.types += callee.types
        f.memory |= {base + n for n in callee.memory}
        written = set(set_in(body))
        before, given = [], {}
        for i, e in enumerate(call[2], 1):
            e = addresses.get(e[1], e) if e[0] == "var" else e
            if e[0] == "addr":
                f.inlined.add(fold.root(e[1])[0])
            if i in written or i in callee.memory:
                before.append(["set", ("var", base + i), e])
            else:
                given[i] = e
        f.inlined |= set(range(base, len(f.types)))

        def change(e):
            if e[0] == "var":
                return given.get(e[1], ("var", base + e[1]))
            return None

        out = before + [fold.statement_mapped(t, change) for t in body]
        if s[0] == "set":
            out.append(["set", s[1], ("var", base)])
        return out
