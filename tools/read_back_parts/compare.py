"""Two functions path by path, and two programs function by function."""
from . import nodes
from .rattle import Unread
from .walk import UNSET, Walk

PATHS = 20000


class Differs(Exception):
    """The two sides are not the same program."""


class Comparison:
    """One function on both sides. Pairs of carried variables that are met in one place must be equal before the loop and
    after each round: a set of pairs that is closed under this is an invariant of both loops, so they stay equal."""

    def __init__(self, source, printed, program):
        self.source, self.printed, self.program = source, printed, program
        self.same_pairs, self.pairs, self.states, self.partial = set(), {}, {}, []

    def check(self):
        todo, paths = [()], 0
        while todo:
            choices = todo.pop()
            paths += 1
            if paths > PATHS:
                raise Unread(f"more than {PATHS} paths: raise PATHS in tools/read_back_parts/compare.py")
            left = Walk(self.source, "source", self.program, choices)
            right = Walk(self.printed, "C", self.program, choices)
            ways = self.traces(left.trace, right.trace)
            self.partial.append((left.partial, right.partial))
            for at in range(len(choices), len(ways)):
                todo += [tuple(left.taken[:at]) + (way,) for way in range(1, ways[at])]
        self.loops()
        self.defined()
        return paths

    def fail(self, what, a, b):
        raise Differs(f"{what} differs: the source has {nodes.shown(a)}, the C has {nodes.shown(b)}")

    def traces(self, left, right):
        """The counts of ways of the tests; all events are the same in the same order."""
        ways = []
        for a, b in zip(left, right):
            if a[0] != b[0]:
                raise Differs(f"a step differs: the source has {described(a)}, the C has {described(b)}")
            if a[0] == "test":
                if a[2] != b[2]:
                    self.fail("the kind of a test", a[1], b[1])
                self.hold("a test", a[1], b[1])
                ways.append(a[2])
            elif a[0] == "store":
                if a[1] != b[1]:
                    raise Differs("a store goes to another place")
                self.hold("what is stored", a[2], b[2])
            elif a[0] == "call":
                self.hold("a call that writes", a[1], b[1])
            elif a[0] == "return":
                self.hold("what is returned", a[1], b[1])
                for x, y in zip(a[2], b[2]):
                    self.hold("what is left in a lent place", x, y)
            else:
                if a[1] != b[1]:
                    raise Differs("a loop stands at another place")
                self.states.setdefault(a[1], []).append((a[2], b[2]))
        if len(left) != len(right):
            longer = left if len(left) > len(right) else right
            raise Differs(f"{'the source' if longer is left else 'the C'} goes on with {described(longer[min(len(left), len(right))])}")
        return ways

    def loops(self):
        """Carries the pairs that were met through all rounds, until no new pair is met."""
        done = set()
        while True:
            open_pairs = [(key, pair) for key, pairs in self.pairs.items() for pair in sorted(pairs) if (key, pair) not in done]
            if not open_pairs:
                return
            for key, (a, b) in open_pairs:
                done.add((key, (a, b)))
                for left, right in self.states[key]:
                    self.hold(f"the variable {a.split('#')[0]} of a loop", left[a], right[b])

    def defined(self):
        """On each path the C does no division, shift, element or call that the source does not do there, where it is proved to be
        defined. What is worked out too early would not show in any value."""
        partner = {(key, b): a for key, pairs in self.pairs.items() for a, b in sorted(pairs)}
        known = {}

        def translated(x):
            if not isinstance(x, nodes.Node):
                return x
            if x not in known:
                args = tuple(map(translated, x.args))
                if x.op == "carried":
                    args = ("source", x.args[1], partner.get((x.args[1], x.args[2])))
                known[x] = nodes.node(x.op, args, x.type)
            return known[x]

        for left, right in self.partial:
            for x in right:
                if translated(x) not in left:
                    raise Differs(f"the C works out {nodes.shown(x)} where the source does not")

    def hold(self, what, a, b):
        if not self.same(a, b):
            self.fail(what, a, b)

    def same(self, a, b):
        if a is b:
            return a is None or a.op != UNSET
        if (a, b) in self.same_pairs:
            return True
        if not isinstance(a, nodes.Node) or not isinstance(b, nodes.Node):
            return False
        if a.op != b.op or a.type != b.type or len(a.args) != len(b.args):
            return False
        if a.op == "carried":
            if a.args[1] != b.args[1]:
                return False
            self.pairs.setdefault(a.args[1], set()).add((a.args[2], b.args[2]))
        elif a.op == UNSET:
            return False
        else:
            for x, y in zip(a.args, b.args):
                if not (self.same(x, y) if isinstance(x, nodes.Node) else x == y and type(x) is type(y)):
                    return False
        self.same_pairs.add((a, b))
        return True


def described(event):
    return {"test": "a test of ", "store": "a store of ", "call": "the call ", "loop": "a loop", "round": "a loop's next round",
            "return": "a return of "}[event[0]] + (nodes.shown(event[2 if event[0] == "store" else 1])
                                                   if event[0] not in ("loop", "round") else "")


def same_function(source, printed, program):
    """How many paths two functions have in common; Differs where they are not the same."""
    for what, a, b in (("the parameters", [k for _, k in source.parameters], [k for _, k in printed.parameters]),
                       ("the result", source.result, printed.result), ("whether it is exported", source.exported, printed.exported)):
        if a != b:
            raise Differs(f"{what}: the source has {a}, the C has {b}")
    return Comparison(source, printed, program).check()


def same_type(name, sources, printed):
    """A struct or an enumeration has the same fields or variants, in the same order and of the same types."""
    if name not in sources.instances and name in sources.paths and sources.items[sources.paths[name]][0] != "fn":
        sources.named(sources.paths[name])
    if name not in sources.instances:
        raise Differs("a type of the C that the sources do not have")
    kind = sources.instances[name][0]
    if name not in (printed.structs if kind == "struct" else printed.enums):
        raise Differs(f"a {kind} of the sources, and another kind of type in the C")
    if kind == "struct":
        a, b = sources.structs[name], printed.structs[name]
    else:
        a = [(v, parts_named(parts)) for v, parts in sources.enums[name]]
        b = [(v, parts_named(parts)) for v, parts in printed.enums[name]]
    if a != b:
        raise Differs(f"the source has {a}, the C has {b}")


def parts_named(parts):
    """Parts of a variant: where there is one alone, C has no name for it."""
    return [parts[0][1]] if len(parts) == 1 else [(f or f"part{i}", kind) for i, (f, kind) in enumerate(parts)]


class Result:
    """What a comparison of two programs found: a name and a sentence for each difference."""
    def __init__(self):
        self.differences, self.functions, self.paths, self.types = [], 0, 0, 0

    def note(self, name, work):
        """What some work gives; where it finds a difference, that is noted under a name. What cannot be followed is not the same."""
        try:
            return work()
        except (Differs, Unread) as error:
            self.differences.append((name, str(error)))
        except Exception as error:
            self.differences.append((name, f"cannot be followed: {type(error).__name__}: {error}"))
        return None


def same_program(sources, printed, only=None, also=()):
    """Compares all that the exports reach and what is reached `also`: types, which functions there are, and these or those in `only`."""
    result = Result()
    reached = sources.reached(also)
    for name in sorted(set(reached) - set(printed.definitions)):
        result.differences.append((name, "a function that is reached in the sources and is not in the C"))
    for name in sorted(set(printed.definitions) - set(reached) - printed.own):
        result.differences.append((name, "a function of the C that is not reached in the sources"))
    for name in sorted(set(printed.structs) | set(printed.enums)):
        result.note(name, lambda: same_type(name, sources, printed))
        result.types += 1
    for name in sorted(printed.own):
        result.note(name, lambda: printed.check_own(name))
    for name in sorted(set(reached) & set(printed.definitions)):
        if only is None or name in only:
            paths = result.note(name, lambda: same_function(reached[name], printed.function(name), sources))
            result.functions, result.paths = result.functions + 1, result.paths + (paths or 0)
    return result
