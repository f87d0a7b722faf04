#!/usr/bin/env python3
"""Tests of tools/read_back: the printed C passes as it is, and each of many wrong prints is found, with its function named.

A wrong print is an edit of the C's text, made at several places that a seeded walk over all functions chooses. The walk goes by names, so
that a change of one function leaves the places in all others as they are. An edit that would leave the program as it is, such as one
that exchanges equal values, is none.
"""
import copy
import functools
import hashlib
import json
import math
import re
import shutil
import subprocess
import sys
import tempfile
import unittest
from pathlib import Path

ROOT = Path(__file__).resolve().parent.parent
sys.path.insert(0, str(ROOT / "tools"))
sys.dont_write_bytecode = True
sys.setrecursionlimit(20000)
from read_back_parts import c_text, compare, lower, rattle  # noqa: E402

rattle.read = functools.lru_cache(maxsize=None)(rattle.read)
SEED = 46
PLACES = 6
TEXT = (ROOT / "c" / "dihkelu.c").read_text()
FILES = lower.load(ROOT)
SOURCES = lower.Sources(FILES)
PRINTED = c_text.Program(c_text.parsed(c_text.preprocessed(TEXT, ROOT / "c")))
FUNCTION = re.compile(r"^(?:static )?\w+ (?P<name>\w+)\((?P<args>[^{}]*?)\) (?P<body>\{\n.*?^\}\n)", re.M | re.S)
TYPES = {*PRINTED.types, *c_text.NUMBERS, "int64_t"} - {"double", "void"}


def functions():
    """Each function that the sources have, by its name: its text as it stands in the C."""
    reached = SOURCES.reached()
    found = {}
    for match in FUNCTION.finditer(TEXT):
        name = match["name"].removesuffix("_body") if match["name"].removesuffix("_body") in reached else match["name"]
        if name in reached and (match["name"] != name or name + "_body" not in PRINTED.definitions):
            found[match["name"]] = match[0]
    return found


FUNCTIONS = functions()


def with_function(name, text):
    """The C with one function in place of that of its name."""
    text = re.sub(r"//[^\n]*", "", re.sub(r"UINT64_C\((\w+)\)", r"\1ul", text))
    types = "".join(f"typedef int {word};\n" for word in sorted(TYPES & set(re.findall(r"\w+", text))))
    changed = copy.copy(PRINTED)
    changed.definitions = {**PRINTED.definitions, name: c_text.parsed(types + text).ext[-1]}
    changed.functions, changed.signatures = {}, {}
    return changed


def found_in(printed, names=None):
    """The functions and types that differ, by name."""
    return dict(compare.same_program(SOURCES, printed, names).differences)


def next_float(match):
    return repr(math.nextafter(float(match[0]), math.inf))


def exchanged(match):
    """Two parts of a match, in each other's place."""
    if "x" in match.re.groupindex and match["x"] == match["y"]:
        return match[0]
    between = match.string[match.end("a"):match.start("b")]
    return match.string[match.start():match.start("a")] + match["b"] + between + match["a"] + match.string[match.end("b"):match.end()]


def swap(one, other):
    return lambda match: other if match[0] == one else one


def same_signature(match):
    """Another function that takes and gives the same."""
    name = match[1]
    wanted = [kind for _, kind in PRINTED.signature(name)[0]], PRINTED.signature(name)[1]
    for other in sorted(FUNCTIONS):
        given = [kind for _, kind in PRINTED.signature(other)[0]], PRINTED.signature(other)[1]
        if other != name and given == wanted:
            return match[0].replace(name, other)
    return match[0]


CALLED = r"\b(" + "|".join(n for n in FUNCTIONS if not n.startswith("dihkelu_")) + r")\("
LINE = r"^(?: {4})+"
SIMPLE = r"[\w.>\[\]-]+"
# A title, what is looked for in a function's body, and what is written in its place.
WRONG = [
    ("< for <=", r" <= ", " < "),
    ("<= for <", r" < ", " <= "),
    ("> for <", r" < ", " > "),
    ("!= for ==", r" == (?!0 \?)", " != "),
    ("== for !=", r" != ", " == "),
    ("- for +", r" \+ ", " - "),
    ("+ for -", r" - ", " + "),
    ("* for /", r" / ", " * "),
    ("/ for *", r"(?<=\w) \* (?=\w)", " / "),
    ("/ for %", r" % ", " / "),
    (">> for <<", r" << ", " >> "),
    ("operands of - exchanged", rf"(?P<a>\b[a-z]{SIMPLE}) - (?P<b>{SIMPLE}\b)", exchanged),
    ("operands of / exchanged", rf"(?P<a>\b{SIMPLE}) / (?P<b>{SIMPLE}\b)", exchanged),
    ("operands of < exchanged", rf"(?P<a>\b{SIMPLE}) < (?P<b>{SIMPLE}\b)", exchanged),
    ("a sum in another order", r"(?P<a>\b\w+) \+ (?P<b>\w+) \+ ", r"\g<b> + \g<a> + "),
    ("brackets moved", r"\b(\w+) - (\w+) - (\w+)\b", r"\1 - (\2 - \3)"),
    ("a float's last bit", r"\b\d+\.\d+(?:e-?\d+)?\b", next_float),
    ("a float's sign", r"(?<![-\w.])\d+\.\d*[1-9]\d*\b", r"-\g<0>"),
    ("a minus dropped", r"(?<=[(=,] )-(?=\w)|(?<=\()-(?=\w)|(?<=return )-(?=\w)", ""),
    ("a whole number's last bit", r"(?<![.\w])[1-9]\d*\b(?![.\w])(?! \?)", lambda m: str(int(m[0]) ^ 1)),
    ("a hexadecimal number's last bit", r"\b0x([0-9a-f]+)(?=u?\b)", lambda m: f"{int(m[0], 16) ^ 1:#x}"),
    ("a store dropped", rf"{LINE}\w+(?:\.|->)at\[.*?\] = [^;]*;\n", ""),
    ("an assignment dropped", rf"{LINE}\w+ = [^;{{}}]*;\n", ""),
    ("a call dropped", r"(?<=[;{}]\n)(?: {4})+\w+\([^;{}]*\);\n", ""),
    ("a value not set", rf"({LINE}(?:double|uint64_t|bool|uint32_t) \w+) = [^;]*;", r"\1;"),
    ("a cast dropped from a product", r"\* \(uint64_t\)(?=\w)", "* "),
    ("a cast to fewer bits", r"\(uint64_t\)(?=(?!x\b)\w)", "(uint8_t)"),
    ("a cast to other bits", r"\(uint8_t\)(?=\()", "(uint16_t)"),
    ("a loop one short", r"while \((\w+) < (\S+)\)", r"while (\1 + 1 < \2)"),
    ("a loop one too long", r"while \((\w+) < ", r"while (\1 <= "),
    ("a step of two", r"(\w+) = \1 \+ 1;", r"\1 = \1 + 2;"),
    ("a loop from 1", r"(uint(?:64|32)_t \w+ = )0;(?=\n\s+while)", r"\g<1>1;"),
    ("a loop left at once", r"(while \([^{}]*\) \{\n)(\s+)", r"\1\2break;\n\2"),
    ("a loop gone through once", r"\bwhile \(", "if ("),
    ("signed for unsigned", rf"(?<=^    )uint64_t(?= \w+ = )", "int64_t"),
    ("32 bits for 64", rf"(?<=^    )uint64_t(?= \w+ = )", "uint32_t"),
    ("float for double", rf"(?<=^    )double(?= \w+ = )", "float"),
    ("re for im", r"\.(?:re|im)\b", swap(".re", ".im")),
    ("s for p", r"\.(?:s|p)\b(?! = )", swap(".s", ".p")),
    ("sin for cos", r"(?<=\w)\.(?:sin|cos)\b(?! =)", swap(".sin", ".cos")),
    ("reflected for transmitted", r"\.(?:reflectance|transmittance)(?=_[sp]\b(?! =))", swap(".reflectance", ".transmittance")),
    ("two fields of a struct exchanged", r"\{(?P<a>\.\w+) = (?P<x>[^,{}]+), (?P<b>\.\w+) = (?P<y>[^,{}]+)", exchanged),
    ("two dependent statements exchanged",
     rf"(?P<a>{LINE}\w+ (?P<v>\w+) = [^;{{}}]*;\n)(?P<b>{LINE}[^;{{}}\n]*\b(?P=v)\b[^;{{}}]*;\n)", exchanged),
    ("two settings exchanged",
     rf"(?P<a>{LINE}(?P<v>\w+) = [^;{{}}]*;\n)(?P<b>{LINE}[^;{{}}\n]*= [^;{{}}]*\b(?P=v)\b[^;{{}}]*;\n)", exchanged),
    ("two stores exchanged", rf"(?P<a>{LINE}\w+(?:->|\.)at\[[^;]*;\n)(?P<b>{LINE}\w+(?:->|\.)at\[[^;]*;\n)", exchanged),
    ("a wrong callee", CALLED, same_signature),
    ("two arguments exchanged", r"\b\w+\((?P<a>\w+), (?P<b>\w+)\b(?=[,)])", lambda m: m[0] if m["a"] == m["b"] else exchanged(m)),
    ("an argument in place of its neighbour", r"(?<=[(,] )(?P<a>[a-z]\w*), (?P<b>\w+)\)", lambda m: f"{m['a']}, {m['a']})"),
    ("a branch missing", rf"{LINE}if \([^{{}}]*\) \{{[^{{}}]*\}}\n", ""),
    ("a branch without its test", r"if \((?!\()[^{}]*?\) \{", "if (true) {"),
    ("a branch turned round", r"\bif \(!(\w[^{}]*)\) \{", r"if (\1) {"),
    ("|| for &&", r" && ", " || "),
    ("&& for ||", r" \|\| ", " && "),
    ("& for &&", r" && ", " & "),
    ("&& for &", r"(?<=[\w)]) & (?=[\w(])", " && "),
    ("a ! dropped", r"(?<=[( ])!(?=[\w(])", ""),
    ("true for false", r"\b(?:true|false)\b", swap("true", "false")),
    ("another variant tested", r"(?<=== )(\w+)_(Ok|Err)\b",
     lambda m: f"{m[1]}_{'Err' if m[2] == 'Ok' else 'Ok'}"),
    ("a part of another variant", r"\.as\.(?:Ok|Err)\b(?! =)", swap(".as.Err", ".as.Ok")),
    ("cases exchanged", r"case (?P<a>\w+):(?=\n\s+(?:return|\{))[^:]*?case (?P<b>\w+):", exchanged),
    ("a case dropped", rf"{LINE}case \d+:\n{LINE}return [^;]*\([^;]*;\n", ""),
    ("a list filled one short", r"each < (\d+)", lambda m: f"each < {int(m[1]) - 1}"),
    ("a list filled from 1", r"size_t each = 0", "size_t each = 1"),
    ("a list lent one short", r"(?<=\.at, )(\d+)(?=\})", lambda m: str(int(m[1]) - 1)),
    ("a part of a list from its start", r"(\w+) == 0 \? (\w+\.at) : \2 \+ \1", r"\2"),
    ("a part from another place", r"(\w+) == 0 \? (\w+\.at) : \2 \+ \1", r"\1 == 1 ? \2 : \2 + \1"),
    ("a part of another length", r"(?<=\.count) - \w+(?=\})", ""),
    ("a list of another length", r"\bf64_x16(?= \w+)", "f64_x8"),
    ("two elements exchanged", r"\{\{(?P<a>[\w.]+), (?P<b>[\w.]+), ", lambda m: m[0] if m["a"] == m["b"] else exchanged(m)),
    ("the next element", r"at\[(\w+)\](?! = )", r"at[\1 + 1]"),
    ("a store to the next element", r"at\[(\w+)\] = ", r"at[\1 + 1] = "),
    ("another list read", r"\b(?P<a>\w+)->at\[(\w+)\](?P<rest>[^;\n]*)(?P<b>(?!(?P=a))\b\w+)->at\[\2\]", lambda m: m[0].replace(
        m["a"] + "->", m["b"] + "->", 1)),
    ("the list's own count", r"\bwhile \((\w+) < (\w+)\.count\)", r"while (\1 < \2.count - 1)"),
    ("what is returned", r"return (\w+);", r"return \1 + 1;"),
    ("nothing returned", rf"{LINE}return;\n", ""),
]
# The same of the lines that begin a function.
WRONG_HEADS = [("a const dropped", r"\bconst (?=\w+ \*)", ""), ("another result", r"\A(static )?uint64_t", r"\1uint32_t"),
               ("two parameters exchanged", r"\((?P<a>double) (\w+), (?P<b>(?!double)\w+) (\w+)", r"(\g<b> \4, \g<a> \2")]
# The same of the sources.
WRONG_SOURCES = [
    ("< for <=", r" <= ", " < "), ("+ for -", r" - ", " + "), ("a float's last bit", r"\b\d+\.\d+\b", next_float),
    ("a whole number", r"(?<=[ (])[1-9]\d*(?=;)", lambda m: str(int(m[0]) ^ 1)), ("a statement dropped", r"^ +\w+ \+?= [^;{}\n]*;\n", ""),
    ("operands exchanged", r"(?P<a>\b\w+) / (?P<b>\w+\b)", exchanged), ("|| for &&", r" && ", " || "), ("a ! dropped", r"(?<= )!(?=\w)", ""),
    ("true for false", r"\b(?:true|false)\b", swap("true", "false")), ("an early return dropped", r"^ +return [^;{}]*;\n", ""),
]


def chance(*words):
    """A number for some words, as if by chance."""
    return hashlib.sha256(repr((SEED, words)).encode()).digest()


def edits(title, pattern, put, texts, count):
    """Up to `count` edited texts, each of another function: its name and the text."""
    places = [(name, match) for name, text in texts.items() for match in re.finditer(pattern, text, re.M)
              if match.start() > text.index("{\n")]
    seen = set()
    for name, match in sorted(places, key=lambda place: chance(title, place[0], place[1].start())):
        new = match.expand(put) if isinstance(put, str) else put(match)
        if name not in seen and new != match[0]:
            seen.add(name)
            yield name, texts[name][:match.start()] + new + texts[name][match.end():]
            if len(seen) == count:
                return


def heads(title, was, put):
    """Edits of the lines that begin a function."""
    names = [n for n in FUNCTIONS if re.search(was, FUNCTIONS[n].split("{")[0]) and not n.startswith("dihkelu_")]
    for name in sorted(names, key=lambda n: chance(title, n))[:PLACES]:
        yield name, re.sub(was, put, FUNCTIONS[name], count=1)


class Printed(unittest.TestCase):
    def test_the_file_as_it_is(self):
        result = compare.same_program(SOURCES, PRINTED)
        self.assertEqual(result.differences, [])
        self.assertEqual(result.functions, len(SOURCES.reached()))
        self.assertGreater(result.paths, result.functions)

    def test_wrong_prints(self):
        """Each wrong print of a function is found in it and nowhere else."""
        tried, kinds, nowhere = 0, 0, []
        for title, pattern, put in WRONG + WRONG_HEADS:
            head = (title, pattern, put) in WRONG_HEADS
            made = list(heads(title, pattern, put) if head else edits(title, pattern, put, FUNCTIONS, PLACES))
            kinds += bool(made)
            nowhere += [] if made else [title]
            for name, text in made:
                with self.subTest(wrong=title, function=name):
                    self.assertIn(name.removesuffix("_body"), found_in(with_function(name, text), {name.removesuffix("_body")}), text)
                tried += 1
        self.assertGreaterEqual(kinds, 60, f"no place for: {nowhere}")
        print(f"{tried} wrong prints of {kinds} kinds were made; no place for: {nowhere}", file=sys.stderr)

    def test_wrong_sources(self):
        """Each change of a source that an export reaches is found."""
        reached = {f.name for f in SOURCES.reached().values()}
        texts, where = {}, {}
        for path, text in FILES:
            for match in re.finditer(r"^(?:pub(?:\(crate\))? )?fn (\w+)(?=[(<]).*?^\}\n", text, re.M | re.S):
                name = "_".join(path + (match[1],))
                if name in reached:
                    start = match[0].index("\n{\n") + 1 if "\n{\n" in match[0] else match[0].index("{\n")
                    texts[name], where[name] = match[0][start:], path
        files = dict(FILES)
        for title, pattern, put in WRONG_SOURCES:
            texts = {name: " " + text if not text.startswith(" ") else text for name, text in texts.items()}
            made = list(edits(title, pattern, put, texts, 2))
            self.assertTrue(made, f"no place for: {title}")
            for name, text in made:
                path = where[name]
                changed = {**files, path: files[path].replace(texts[name][1:], text[1:], 1)}
                self.assertNotEqual(changed[path], files[path])
                with self.subTest(wrong=title, function=name):
                    try:
                        differ = dict(compare.same_program(lower.Sources(list(changed.items())), PRINTED, {name}).differences)
                    except rattle.Unread as error:
                        differ = {name: str(error)} if name in str(error) else {}
                    self.assertIn(name, differ)


class WholeFile(unittest.TestCase):
    """Changes outside of functions, and the command."""

    # What is looked for, with the name of the type that it is in, and what is written in its place.
    WRONG = [
        (r"double (?P<a>\w+);\n    double (?P<b>\w+);\n\} (?P<name>\w+);", exchanged),
        (r"(?<=\{\n    )uint32_t(?= \w+;[^{}]*\} (?P<name>\w+);)", "uint64_t"),
        (r"(?<=\{\n    )bool(?= \w+;[^{}]*\} (?P<name>\w+);)", "uint8_t"),
        (r"typedef enum \{\n    (?P<a>\w+),\n    (?P<b>\w+),[^{}]*\} (?P<name>\w+);", exchanged),
        (r"(?<=union \{\n        )uint32_t(?= \w+;\n        refusal_Refusal \w+;\n    \} as;\n\} (?P<name>\w+);)", "uint64_t"),
        (r"(?<=struct \{ )\w+ (?P<a>part0); \w+ (?P<b>part1);(?=[^{}]*\}[^{}]*\} as;\n\} (?P<name>\w+);)", exchanged),
    ]

    def test_functions_and_types(self):
        """Types that are wrong, a function too many, one too few and two operations that C lacks: all at once, and each is named."""
        text, names = TEXT, {"spare", "to_bits", "leading_zeros"}
        for was, put in self.WRONG:
            match = next(m for m in re.finditer(was, text, re.M | re.S) if m["name"] not in names)
            names.add(match["name"])
            text = text[:match.start()] + (put if isinstance(put, str) else put(match)) + text[match.end():]
        missing = sorted(n for n in FUNCTIONS if not n.startswith("dihkelu_"))[0]
        names.add(missing)
        text = text.replace(FUNCTIONS[missing], "static double spare(double x) {\n    return x;\n}\n")
        text = text.replace("memcpy(&bits, &x, sizeof bits)", "memcpy(&bits, &x, 4)").replace("zeros < 64 &&", "zeros < 63 &&")
        found = found_in(c_text.Program(c_text.parsed(c_text.preprocessed(text, ROOT / "c"))), set())
        self.assertEqual(set(found), names)

    def test_what_hangs_on_the_compiler(self):
        for put in ("#define double float\n", "#if __GNUC__\nstatic int spare;\n#endif\n"):
            with self.assertRaises(rattle.Unread):
                c_text.preprocessed(TEXT.replace("// ==== types\n", put, 1), ROOT / "c")
        inside = "#if defined(DIHKELU_TRUST_ENVIRONMENT)\n#define LOOKED_UP\nstatic inline int environment_enter(void) {\n    return 0;\n}\n"
        c_text.unconditional(inside + "#endif\n")
        for put in ("static int spare;\n", "#define double float\n", "static inline double ieee_abs(double x) {\n", "typedef float real;\n"):
            with self.assertRaises(rattle.Unread):
                c_text.unconditional(inside + put + "#endif\n")
        bits = "typedef struct { uint32_t number : 8; uint32_t place; } spare;\n"
        for put in ("static int spare;\n", bits, "typedef union { double x; } spare;\n"):
            with self.assertRaises(rattle.Unread):
                c_text.Program(c_text.parsed(c_text.prelude() + put))

    def test_command(self):
        done = subprocess.run([ROOT / "tools/read_back"], capture_output=True, text=True)
        self.assertEqual((done.returncode, done.stderr), (0, ""))
        with tempfile.NamedTemporaryFile("w", suffix=".c") as file:
            file.write(TEXT.replace("    return x * x;\n", "    return x + x;\n", 1))
            file.flush()
            done = subprocess.run([ROOT / "tools/read_back", file.name], capture_output=True, text=True)
        self.assertEqual(done.returncode, 1)
        self.assertRegex(done.stdout, "^ieee_powi2: what is returned differs: the source has .* the C has .*\n$")

    @unittest.skipUnless(shutil.which("rt"), "LEFT OUT: the toolchain's types are not held to std_types.txt, since rt is not there")
    def test_std_types(self):
        """The toolchain has each type of std_types.txt, with as many parts of the same parameters."""
        kit = Path(subprocess.run(["rt", "doc"], capture_output=True, text=True, check=True).stdout.strip()).parent
        code = dict(json.loads((kit / "rlibs/core.rlib/toolchain/mir.json").read_text()))
        theirs = {t["name"]: t["shape"] for f in code.values() for t in f["types"]}
        names = {"Option": "core::option::Option", "Result": "core::result::Result", "Pair": "(,)", "Triple": "(,,)"}
        items = rattle.read((ROOT / "tools/read_back_parts/std_types.txt").read_text(), "std_types.txt")
        self.assertEqual([item[1] for item in items], list(names))
        for what, name, parts, generics in items:
            at = {g: {"Param": i} for i, (g, _) in enumerate(generics)}

            def shape(kinds):
                return [at[kind[1][0]] for _, kind in kinds]

            if names[name] in theirs:
                mine = {"Fields": shape(parts)} if what == "struct" else {"Variants": [shape(kinds) for _, kinds in parts]}
                self.assertEqual(theirs[names[name]], mine)
        self.assertLessEqual({"core::option::Option", "core::result::Result", "(,)"}, set(theirs))

    @unittest.skipUnless(shutil.which("rt"), "LEFT OUT: the toolchain's std::num is not held to std_num.txt, since rt is not there")
    def test_std(self):
        """The toolchain has each function of std_num.txt, one operation that wraps, whose text is that of the integers that are left over."""
        kit = Path(subprocess.run(["rt", "doc"], capture_output=True, text=True, check=True).stdout.strip()).parent
        theirs = dict(json.loads((kit / "rlibs/core.rlib/toolchain/mir.json").read_text()))
        wraps = {"wrapping_add_u64": ("WrapAdd", 1), "wrapping_sub_u64": ("WrapSub", -1)}
        items = rattle.read((ROOT / "tools/read_back_parts/std_num.txt").read_text(), "std_num.txt")
        self.assertEqual({mine[1] for mine in items}, set(wraps))
        for mine in items:
            op, sign = wraps[mine[1]]
            at = [{"Copy": {"local": n, "steps": []}} for n in (1, 2)]
            body = ["Seq", {"Assign": [{"local": 0, "steps": []}, {"Op2": [op, *at]}]}, "Return"]
            code = theirs[f"core::num::{mine[1]}"]
            self.assertEqual((code["params"], code["locals"], code["body"]), (2, 3 * [{"ty": {"Int": 64}, "home": "ValueLocal"}], body))
            ends = [0, 1, 2, 2**63 - 1, 2**63, 2**64 - 2, 2**64 - 1]
            for a, b in [(a, b) for a in ends for b in ends]:
                self.assertEqual(run_std(mine[4], {"a": a, "b": b}), (a + sign * b) % 2**64, (mine[1], a, b))


def run_std(tree, given):
    """What a function of std_num.txt returns: its tree with whole numbers, each of which must be a u64."""
    form = tree[0]
    if form == "block":
        assert not tree[1]
        return run_std(tree[2], given)
    if form == "if":
        return run_std(tree[2] if run_std(tree[1], given) else tree[3], given)
    if form == "path":
        return {("u64", "MAX"): 2**64 - 1}.get(tuple(tree[1])) or given[tree[1][0]]
    if form == "int":
        return tree[1]
    assert form == "binary", tree
    a, b = run_std(tree[2], given), run_std(tree[3], given)
    if tree[1] == "<=":
        return a <= b
    found = a + b if tree[1] == "+" else a - b
    assert tree[1] in "+-" and 0 <= found < 2**64, tree
    return found


C_TYPES = """typedef struct { const double *at; uint64_t count; } slice_f64; typedef struct { double *at; uint64_t count; } slice_mut_f64;
typedef struct { double at[4]; } f64_x4;
"""


def same(rust, c):
    """Whether the functions of a source and of a C text are the same program."""
    sources = lower.Sources([(("dihkelu",), rust), *lower.library()])
    printed = c_text.Program(c_text.parsed(c_text.prelude() + C_TYPES + c))
    try:
        for name, function in sources.reached().items():
            compare.same_function(function, printed.function(name), sources)
    except (compare.Differs, rattle.Unread):
        return False
    return True


class Forms(unittest.TestCase):
    """What stands in a source beside code: it is passed over where it is known to be no part of what runs, and refused else."""

    def test_passed_over(self):
        text = "// A file.\n#![tactic(auto)]\n"
        self.assertEqual(rattle.read(text, "x"), [])
        item = rattle.read(text + "\n#[derive(Clone, Copy)]\npub struct A {\n    pub n: u64,\n}\n", "x")
        self.assertEqual(item, rattle.read("#[derive(Drop)]\nstruct A { n: u64 }", "x"))
        self.assertEqual(item, rattle.read("#[derive(Debug, PartialEq, Eq)]\nstruct A { n: u64 }", "x"))
        self.assertEqual(rattle.read("use a::{B, c};\nuse d::E;\n", "x"), [("use", [["a", "B"], ["a", "c"]]), ("use", [["d", "E"]])])
        bare = rattle.read("fn f(a: u64) -> u64 { a }", "x")[0][:-1]
        clauses = "\n    requires low { a ≤ 9 }\n    ensures* { result ≡ a }\n    ensures { (λ r. {r}) }\n"
        self.assertEqual(rattle.read(f"fn f(a: u64) -> u64{clauses}{{ a }}", "x")[0][:-1], bare)

    def test_who_may_be_called_from_c(self):
        for text, exported in [("pub fn dihkelu_f() { }", True), ("fn dihkelu_f() { }", False), ("pub(crate) fn dihkelu_f() { }", False), ("pub fn f() { }", False),
                               ('#[unsafe(no_mangle)] pub extern "C" fn f() { }', True)]:
            self.assertEqual(rattle.read(text, "x")[0][5], exported, text)

    def test_refused(self):
        for text in ["#[derive(Hash)] struct A { n: u64 }", "#[derive(PartialOrd)] struct A { n: u64 }", "fn f(a: u64) -> u64 { (|x| x)(a) }", "#[derive(Drop)] fn f() { }", "#[no_mangle] fn f() { }", "#[unsafe(naked)] fn f() { }", "#![no_std]",
                     "#[derive(Drop)] #![tactic(auto)] struct A { n: u64 }", 'pub extern "C" fn f() { }', "#[test] fn f() { }", "trait A<T> { }"]:
            with self.assertRaises(rattle.Unread, msg=text):
                rattle.read(text, "x")


RESULT = """typedef struct { enum { result_u32_dihkelu_E_Ok, result_u32_dihkelu_E_Err, } tag; union { uint32_t Ok; dihkelu_E Err; } as; } result_u32_dihkelu_E;
static result_u32_dihkelu_E dihkelu_g(uint32_t a) { return (result_u32_dihkelu_E){.tag = result_u32_dihkelu_E_Ok, .as.Ok = a}; }
"""
C_E = "typedef enum { dihkelu_E_Low, dihkelu_E_High, } dihkelu_E;\n"
RUST_E = "\nenum E { Low, High }\nfn g(a: u32) -> Result<u32, E> { Ok(a) }\n"
OPTION = "typedef struct { enum { option_u64_None, option_u64_Some, } tag; union { uint64_t Some; } as; } option_u64;\n"


class Today(unittest.TestCase):
    """Loops with for, Option, Result, '?' and what a derive gives: what they are in C, and what they are not."""
    HEAD = "pub fn dihkelu_f"

    def both(self, rust, c, *wrong):
        """The C is the source's program; with each of some edits it is not."""
        self.assertTrue(same(self.HEAD + rust, c), c)
        for was, put in wrong:
            self.assertIn(was, c)
            with self.subTest(put=put):
                self.assertFalse(same(self.HEAD + rust, c.replace(was, put, 1)))

    def test_for_over_numbers(self):
        self.both("(n: u64) -> u64 { let mut s = 0; for i in 2..n { if i == 7 { continue; } if s > 9 { break; } s += i; } s }",
                  "uint64_t dihkelu_f(uint64_t n) { uint64_t s = 0; uint64_t i = 2; while (i < n) { if (i == 7) { i = i + 1; continue; }"
                  "if (9 < s) { break; } s = s + i; i = i + 1; } return s; }",
                  ("{ i = i + 1; continue; }", "{ continue; }"), ("i = 2", "i = 1"), ("i < n", "i <= n"), ("s + i; i = i + 1", "s + i; i = i + 2"),
                  ("s = s + i; i = i + 1;", "i = i + 1; s = s + i;"), ("break", "continue"))

    def test_for_backwards(self):
        self.both("(n: u64) -> u64 { for i in (3..n).rev() { if i % 5 == 0 { return i; } } n }",
                  "uint64_t dihkelu_f(uint64_t n) { uint64_t i = n; while (3 < i) { i = i - 1; if (i % 5 == 0) { return i; } } return n; }",
                  ("3 < i", "3 <= i"), ("i = n", "i = n - 1"), ("{ i = i - 1; if (i % 5 == 0) { return i; } }", "{ if (i % 5 == 0) { return i; } i = i - 1; }"))

    def test_for_without_a_name(self):
        self.both("(n: u64) -> u64 { let mut s = n; for _ in 0..5 { s = s / 2; } s }",
                  "uint64_t dihkelu_f(uint64_t n) { uint64_t s = n; uint32_t k = 0; while (k < 5) { s = s / 2; k = k + 1; } return s; }",
                  ("k < 5", "k < 6"), ("k = 0", "k = 1"), ("s / 2", "s / 3"))

    def test_for_over_a_list(self):
        c = ("double dihkelu_f(const double *a_at, size_t a_count) { slice_f64 a = {a_at, a_count}; double s = 0.0; uint64_t x_index = 0;"
             "while (x_index < a.count) { double x = a.at[x_index]; s = s + x; x_index = x_index + 1; } return s; }")
        wrong = (("x_index = 0", "x_index = 1"), ("x_index < a.count", "x_index < a.count - 1"), ("a.at[x_index]", "a.at[0]"), ("s + x", "x + s"),
                 ("x_index + 1", "x_index + 2"))
        for rust in ["for x in a { s += *x; }", "for &x in a { s += x; }", "for x in a.iter() { s += *x; }", "for (_, x) in a.iter().enumerate() { s += *x; }",
                     "for (i, _) in a.iter().enumerate() { s += a[i]; }", "for i in 0..a.len() { s += a[i]; }"]:
            self.both(f"(a: &[f64]) -> f64 {{ let mut s = 0.0; {rust} s }}", c, *wrong)

    def test_for_over_an_array(self):
        self.both("(b: f64) -> f64 { let a = [b; 4]; let mut s = 0.0; for x in &a { s += *x; } s }",
                  "double dihkelu_f(double b) { f64_x4 a; for (size_t each = 0; each < 4; each++) { a.at[each] = b; } double s = 0.0; uint64_t i = 0;"
                  "while (i < 4) { double x = a.at[i]; s = s + x; i = i + 1; } return s; }", ("i < 4", "i < 3"), ("i < 4", "i < 5"))

    def test_for_over_places_and_elements(self):
        self.both("(a: &[u64]) -> usize { for (i, x) in a.iter().enumerate() { if *x == 7 { return i; } } a.len() }",
                  "typedef struct { const uint64_t *at; uint64_t count; } slice_u64;\n"
                  "uint64_t dihkelu_f(const uint64_t *a_at, size_t a_count) { slice_u64 a = {a_at, a_count}; uint64_t i = 0;"
                  "while (i < a.count) { uint64_t x = a.at[i]; if (x == 7) { return i; } i = i + 1; } return a.count; }",
                  ("return i;", "return x;"), ("x == 7", "i == 7"))

    def test_result(self):
        rust = "(a: u32) -> u32 { match h(a) { Ok(x) => x, Err(E::Low) => 1, Err(E::High) => 2 } }\nfn h(a: u32) -> Result<u32, E> { let x = g(a)?; if x < 3 { return Err(E::Low); } g(x + 1) }" + RUST_E
        c = C_E + RESULT + (
            "static result_u32_dihkelu_E dihkelu_h(uint32_t a) { result_u32_dihkelu_E value = dihkelu_g(a);"
            "if (value.tag == result_u32_dihkelu_E_Err) { return (result_u32_dihkelu_E){.tag = result_u32_dihkelu_E_Err, .as.Err = value.as.Err}; }"
            "uint32_t x = value.as.Ok; if (x < 3) { return (result_u32_dihkelu_E){.tag = result_u32_dihkelu_E_Err, .as.Err = dihkelu_E_Low}; }"
            "return dihkelu_g(x + 1); }"
            "uint32_t dihkelu_f(uint32_t a) { result_u32_dihkelu_E value = dihkelu_h(a); if (value.tag == result_u32_dihkelu_E_Ok) { return value.as.Ok; }"
            "if (value.as.Err == dihkelu_E_Low) { return 1; } return 2; }")
        self.both(rust, c, (".as.Err = value.as.Err", ".as.Err = dihkelu_E_Low"), ("if (value.tag == result_u32_dihkelu_E_Err)", "if (value.tag == result_u32_dihkelu_E_Ok)"),
                  (".tag = result_u32_dihkelu_E_Err, .as.Err = dihkelu_E_Low", ".tag = result_u32_dihkelu_E_Ok, .as.Ok = 0"), ("== dihkelu_E_Low", "== dihkelu_E_High"),
                  ("return value.as.Ok;", "return a;"), ("dihkelu_g(x + 1)", "dihkelu_g(x)"), (".as.Err = dihkelu_E_Low", ".as.Err = dihkelu_E_High"))

    def test_result_of_another_type(self):
        c = C_E + RESULT + "uint32_t dihkelu_f(uint32_t a) { return dihkelu_g(a).as.Ok; }"
        rust = "(a: u32) -> u32 { match g(a) { Ok(x) => x, Err(_) => 1 } }" + RUST_E
        self.assertFalse(same(self.HEAD + rust, c))
        for question in ["-> Option<u32> { Some(g(a)?) }", "-> u32 { g(a)? }", "-> Result<u32, u64> { Ok(g(a)?) }"]:
            with self.assertRaises(rattle.Unread):
                lower.Sources([(("dihkelu",), f"pub fn dihkelu_f(a: u32) {question}{RUST_E}"), *lower.library()]).reached()

    def test_result_by_fields(self):
        """A variant that is returned field by field, as where another one is much larger."""
        self.both("(n: u64) -> u64 { match g(n) { Ok(x) => x, Err(e) => e as u64 } }\nfn g(n: u64) -> Result<u64, u32> { if n < 7 { return Err(3); } Ok(n) }",
                  "typedef struct { enum { result_u64_u32_Ok, result_u64_u32_Err, } tag; union { uint64_t Ok; uint32_t Err; } as; } result_u64_u32;\n"
                  "static result_u64_u32 dihkelu_g(uint64_t n) { if (n < 7) { result_u64_u32 reply; reply.tag = result_u64_u32_Err; reply.as.Err = 3; return reply; }"
                  "return (result_u64_u32){.tag = result_u64_u32_Ok, .as.Ok = n}; }\n"
                  "uint64_t dihkelu_f(uint64_t n) { result_u64_u32 r = dihkelu_g(n); if (r.tag == result_u64_u32_Ok) { return r.as.Ok; } return (uint64_t)r.as.Err; }",
                  ("reply.tag = result_u64_u32_Err;", "reply.tag = result_u64_u32_Ok;"), ("reply.as.Err = 3;", "reply.as.Err = 4;"), ("reply.as.Err = 3;", "reply.as.Ok = 3;"),
                  ("reply.as.Err = 3;", ""), ("reply.tag = result_u64_u32_Err;", ""), ("reply.as.Err = 3;", "reply.as.Err = 3; reply.as.Err = 3;"),
                  ("reply.as.Err = 3;", "reply.as.Err = reply.as.Err;"), ("reply.tag = result_u64_u32_Err; reply.as.Err = 3;", "reply.as.Err = 3; reply.tag = result_u64_u32_Err;"))

    def test_option(self):
        find = "\nfn find(a: u64) -> Option<u64> { if a < 5 { return None; } Some(a) }\n"
        c_find = OPTION + ("static option_u64 dihkelu_find(uint64_t a) { if (a < 5) { return (option_u64){.tag = option_u64_None}; }"
                           "return (option_u64){.tag = option_u64_Some, .as.Some = a}; }\n")
        left = "option_u64 value = dihkelu_find(a); if (value.tag == option_u64_None) { return 3; } uint64_t x = value.as.Some; return x; }"
        for body, c, wrong in [
            ("let Some(x) = find(a) else { return 3; }; x", left, (("return 3", "return 4"), ("== option_u64_None", "!= option_u64_None"), ("value.as.Some", "a"))),
            ("if let Some(x) = find(a) { x } else { 3 }", left, (("return x", "return 3"),)),
            ("find(a).unwrap_or(3)", left, (("return 3", "return 2"),)),
            ("if find(a).is_none() { return 3; } a", "if (dihkelu_find(a).tag == option_u64_None) { return 3; } return a; }", (("_None", "_Some"), ("== ", "!= "))),
            ("if matches!(find(a), Some(_)) { return 3; } a", "if (dihkelu_find(a).tag != option_u64_None) { return 3; } return a; }", (("!= ", "== "),)),
            ("while let Some(x) = find(a) { return x; } 3", "while (true) { option_u64 value = dihkelu_find(a); if (value.tag == option_u64_None) { break; } "
             "return value.as.Some; } return 3; }", (("break", "continue"), ("return value.as.Some", "return 3"))),
            ("if next(a).is_some() { 1 } else { 2 }\n}\nfn next(a: u64) -> Option<u64> { let x = find(a)?; Some(x)", (
                "if (dihkelu_next(a).tag == option_u64_Some) { return 1; } return 2; }"), ()),
        ]:
            c_next = ""
            if "dihkelu_next" in c:
                c_next = ("static option_u64 dihkelu_next(uint64_t a) { option_u64 value = dihkelu_find(a); if (value.tag == option_u64_None) {"
                          "return (option_u64){.tag = option_u64_None}; } return (option_u64){.tag = option_u64_Some, .as.Some = value.as.Some}; }\n")
            self.both("(a: u64) -> u64 { " + body + " }" + find, c_find + c_next + "uint64_t dihkelu_f(uint64_t a) { " + c, *wrong, ("a < 5", "a < 6"))

    def test_equality(self):
        rust = "(a: u64, b: u64) -> bool { let x = P { n: a, m: b }; x == P { n: b, m: a } }\n#[derive(PartialEq)] struct P { n: u64, m: u64 }"
        c = ("typedef struct { uint64_t n; uint64_t m; } dihkelu_P;\nbool dihkelu_f(uint64_t a, uint64_t b) { dihkelu_P x = {.n = a, .m = b}; "
             "return x.n == b && x.m == a; }")
        self.both(rust, c, ("&& x.m == a", ""), ("&&", "||"), ("x.n == b", "x.n == a"), ("x.n == b && x.m == a", "x.m == a && x.n == b"))

    def test_for_over_a_part(self):
        rust = "(a: &[f64], n: usize) -> f64 { let mut s = 0.0; for x in &a[..n] { s += *x; } s }"
        c = ("double dihkelu_f(const double *a_at, size_t a_count, uint64_t n) { slice_f64 a = {a_at, a_count}; double s = 0.0; uint64_t i = 0;"
             "while (i < n) { double x = a.at[i]; s = s + x; i = i + 1; } return s; }")
        self.both(rust, c, ("i < n", "i < a.count"), ("i < n", "i <= n"), ("a.at[i]", "a.at[i + 1]"))

    def test_for_that_writes(self):
        rust = "(a: &mut [f64], b: f64) -> u64 { for x in a.iter_mut() { *x = *x * b; } 0 }"
        c = ("uint64_t dihkelu_f(double *a_at, size_t a_count, double b) { slice_mut_f64 a = {a_at, a_count}; uint64_t i = 0;"
             "while (i < a.count) { a.at[i] = a.at[i] * b; i = i + 1; } return 0; }")
        self.both(rust, c, ("i < a.count", "i < a.count - 1"), ("a.at[i] * b", "b * a.at[i]"), ("a.at[i] =", "a.at[0] ="))

    def test_patterns_within_patterns(self):
        rust = ("(a: u64) -> u64 { match find(a) { Some(0) => 4, Some(3) => 5, Some(n) if n < 9 => n, Some(_) => 7, None => 6 } }\n"
                "fn find(a: u64) -> Option<u64> { if a < 5 { return None; } Some(a) }")
        c = OPTION + ("static option_u64 dihkelu_find(uint64_t a) { if (a < 5) { return (option_u64){.tag = option_u64_None}; }"
                      "return (option_u64){.tag = option_u64_Some, .as.Some = a}; }\n"
                      "uint64_t dihkelu_f(uint64_t a) { option_u64 x = dihkelu_find(a); if (x.tag == option_u64_Some) { switch (x.as.Some) { case 0: return 4; case 3: return 5;"
                      "default: if (x.as.Some < 9) { return x.as.Some; } return 7; } } return 6; }")
        self.both(rust, c, ("case 0", "case 1"), ("return 4", "return 5"), ("< 9", "<= 9"), ("return 7", "return 6"), ("== option_u64_Some", "== option_u64_None"))

    def test_elements_that_may_not_be_there(self):
        for body, c, wrong in [
            ("match a.get(i) { Some(x) => *x, None => 0.5 }", "if (i < a.count) { return a.at[i]; } return 0.5;", (("i < a", "i <= a"), ("0.5", "1.5"), ("a.at[i]", "a.at[0]"))),
            ("if a.is_empty() { 0.5 } else { a[0] }", "if (a.count == 0) { return 0.5; } return a.at[0];", (("== 0", "== 1"), ("0.5", "1.5"))),
            ("let Some(x) = a.first() else { return 0.5; }; *x", "if (0 < a.count) { return a.at[0]; } return 0.5;", (("0 <", "1 <"), ("at[0]", "at[1]"))),
            ("a[i.min(3)]", "uint64_t k; if (3 < i) { k = 3; } else { k = i; } return a.at[k];", (("3 < i", "i < 3"), ("k = 3", "k = 2"))),
        ]:
            head = "double dihkelu_f(const double *a_at, size_t a_count, uint64_t i) { slice_f64 a = {a_at, a_count};"
            self.both(f"(a: &[f64], i: usize) -> f64 {{ {body} }}", f"{head} {c} }}", *wrong)

    def test_not_followed(self):
        """What is not known is refused, and not passed over."""
        for text in ["(a: &mut Option<u64>) { if let Some(x) = a { *x = 3; } }", "(a: u64) -> u64 { let f = |x| x + 1; f(a) }", "(a: &[u64]) -> u64 { a.iter().sum() }",
                     "(a: &[u64]) -> bool { a.iter().any(|x| *x == 3) }", "(a: u64) -> Option<u64> { Some(a).map(|x| x) }", "(a: &[u64]) -> u64 { for x in a.chunks(2) { } 0 }",
                     "(a: u64) -> u64 { let x: Option<u64> = None; x.unwrap() }", "(a: u64) -> bool { P { n: a } == P { n: 3 } }\nstruct P { n: u64 }\n"
                     "impl PartialEq for P { fn eq(&self, other: &P) -> bool { true } }", "(n: u64) -> u64 { for i in 0..=n { } n }",
                     "(n: u64) -> u64 { for i in 0..=255u8 { } n }", "(n: u64) -> u64 { for i in 0..=18446744073709551615 { } n }"]:
            with self.subTest(text=text), self.assertRaises(rattle.Unread):
                lower.Sources([(("dihkelu",), self.HEAD + text), *lower.library()]).reached()

    def test_instances(self):
        rust = ("(a: f64) -> f64 { let x = [a; 4]; last(&x, 2.0) }\n"
                "fn last<T: Copy, const N: usize>(xs: &[T; N], other: T) -> T { let mut found = other; for i in 0..N { found = xs[i]; } found }")
        c = ("static double dihkelu_last_f64_4(const f64_x4 *xs, double other) { double found = other; uint64_t i = 0;"
             "while (i < 4) { found = xs->at[i]; i = i + 1; } return found; }\n"
             "double dihkelu_f(double a) { f64_x4 x; for (size_t each = 0; each < 4; each++) { x.at[each] = a; } return dihkelu_last_f64_4(&x, 2.0); }")
        self.both(rust, c, ("i < 4", "i < 3"), ("found = other", "found = 0.0"))
        self.assertFalse(same(self.HEAD + rust, c.replace("last_f64_4", "last_f64_5")))


class Kept(unittest.TestCase):
    """The forms of tools/test_forms/forms.txt, and forms.c, which tools/test_printer.py holds to what is printed."""
    FOLDER = ROOT / "tools" / "test_forms"
    # Edits of what is never reached, or of one of two tests that say the same.
    SAME = {("a whole number's last bit", "forms_isok"), ("|| for &&", "forms_isok"), ("true for false", "forms_same_fault")}

    def setUp(self):
        self.sources = lower.Sources([(("forms",), (self.FOLDER / "forms.txt").read_text()), *lower.library()])
        self.paths = tuple(path for path, item in self.sources.items.items() if path[0] == "forms" and item[0] == "fn" and not item[6])
        self.reached = self.sources.reached(self.paths)
        self.text = re.sub(r"//[^\n]*", "", (self.FOLDER / "forms.c").read_text())

    def differences(self, text, names=None):
        printed = c_text.Program(c_text.parsed(c_text.prelude() + text))
        found = dict(compare.same_program(self.sources, printed, names, self.paths).differences)
        return {name: why for name, why in found.items() if name not in c_text.PURE}

    def test_printed(self):
        self.assertEqual(self.differences(self.text), {})
        self.assertGreater(len(self.reached), 30)

    def test_wrong_prints(self):
        texts = {m["name"]: m[0] for m in FUNCTION.finditer(self.text)}
        self.assertEqual(set(texts), set(self.reached))
        tried = 0
        for title, pattern, put in WRONG:
            for name, new in edits(title, pattern, put, texts, 40):
                if (title, name) in self.SAME:
                    continue
                with self.subTest(wrong=title, function=name):
                    try:
                        found = self.differences(self.text.replace(texts[name], new), {name})
                    except rattle.Unread as error:
                        found = {name: str(error)}
                    self.assertIn(name, found, new)
                tried += 1
        self.assertGreater(tried, 150)


class Small(unittest.TestCase):
    """Programs of a few lines: what is the same though it is written otherwise, and what is not though it looks so."""
    HEAD = 'pub fn dihkelu_f'

    PARTS = (
        "(a: &[f64], i: usize) -> f64 { g(&a[i..]) }\nfn g(a: &[f64]) -> f64 { 1.0 }",
        "static double dihkelu_g(slice_f64 a) { return 1.0; }\n"
        "double dihkelu_f(const double *a_at, size_t a_count, uint64_t i) { slice_f64 a = {a_at, a_count};",
        "(a: &mut [f64], n: usize) -> f64 { g(&mut a[..n]) }\nfn g(a: &mut [f64]) -> f64 { 1.0 }",
        "static double dihkelu_g(slice_mut_f64 a) { return 1.0; }\n"
        "double dihkelu_f(double *a_at, size_t a_count, uint64_t n) { slice_mut_f64 a = {a_at, a_count};",
    )

    def test_same(self):
        part, c_part, part_put, c_part_put = self.PARTS
        for rust, c in [
            (part, c_part + "return dihkelu_g((slice_f64){i == 0 ? a.at : a.at + i, a.count - i}); }"),
            (part_put, c_part_put + "return dihkelu_g((slice_mut_f64){a.at, n}); }"),
            # a struct that holds a reference
            ("(a: &[f64]) -> u64 { count(new(a, 7)) }\npub struct Part<'a> { pub numbers: &'a [f64], pub place: usize }\n"
             "fn new<'a>(a: &'a [f64], place: usize) -> Part<'a> { Part { numbers: a, place } }\n"
             "fn count<'a>(p: Part<'a>) -> u64 { p.numbers.len() as u64 + p.place as u64 }",
             "typedef struct { slice_f64 numbers; uint64_t place; } dihkelu_Part;\n"
             "static dihkelu_Part dihkelu_new(slice_f64 a, uint64_t place) { return (dihkelu_Part){.numbers = a, .place = place}; }\n"
             "static uint64_t dihkelu_count(dihkelu_Part p) { return p.numbers.count + p.place; }\n"
             "uint64_t dihkelu_f(const double *a_at, size_t a_count) { slice_f64 a = {a_at, a_count};"
             "dihkelu_Part p = dihkelu_new(a, 7); return dihkelu_count(p); }"),
            ("(a: u64) -> u64 { if a < 3 { 1 } else { a } }", "uint64_t dihkelu_f(uint64_t a) { if (a < 3) { return 1; } return a; }"),
            ("(a: u64) -> bool { if a > 3 { a < 9 } else { false } }", "bool dihkelu_f(uint64_t a) { return 3 < a && a < 9; }"),
            ("(a: f64) -> f64 { let b = a * a; let c = b + 1.0; c / b }", "double dihkelu_f(double a) { return (a * a + 1.0) / (a * a); }"),
            ("(n: u64) -> u64 { let mut i = 0; let mut s = 0; while i < n { s += i; i += 1; } s }",
             "uint64_t dihkelu_f(uint64_t n) { uint64_t t = 0; uint64_t k = 0; while (k < n) { t = t + k; k = k + 1; } return t; }"),
            ("(a: u8) -> u8 { a - 48 }", "uint8_t dihkelu_f(uint8_t a) { return (uint8_t)(a - 48); }"),
            ("(a: f64) -> f64 { let x = [a; 4]; x[2] }",
             "double dihkelu_f(double a) { f64_x4 x; for (size_t each = 0; each < 4; each++) { x.at[each] = a; } return x.at[2]; }"),
        ]:
            with self.subTest(rust=rust):
                self.assertTrue(same(self.HEAD + rust, c))

    def test_not_same(self):
        put = "fn put(x: &mut f64) -> f64 { *x = 1.0; 2.0 }\n"
        c_put = "static double dihkelu_put(double *x) { *x = 1.0; return 2.0; }\n"
        four = "{{a, a, a, a}}"
        both = "fn both(x: &mut [f64; 4], y: &mut [f64; 4]) -> f64 { x[0] = 1.0; y[0] }\n"
        c_both = "static double dihkelu_both(f64_x4 *x, f64_x4 *y) { x->at[0] = 1.0; return y->at[0]; }\n"
        read = "fn read(y: &[f64; 4], x: &mut [f64; 4]) -> f64 { x[0] = 1.0; y[0] }\n"
        c_read = "static double dihkelu_read(const f64_x4 *y, f64_x4 *x) { x->at[0] = 1.0; return y->at[0]; }\n"
        part, c_part, part_put, c_part_put = self.PARTS
        for rust, c in [
            # a division before the test that makes it safe
            ("(a: u64, b: u64) -> u64 { if b == 0 { return 0; } a / b }",
             "uint64_t dihkelu_f(uint64_t a, uint64_t b) { uint64_t q = a / b; if (b == 0) { return 0; } return q; }"),
            # an element before the test of its place
            ("(a: &[f64], i: u64) -> f64 { if i < a.len() as u64 { let at = i as usize; return a[at]; } 0.0 }",
             "double dihkelu_f(const double *a_at, size_t a_count, uint64_t i) { slice_f64 a = {a_at, a_count};"
             "double x = a.at[i]; if (i < a.count) { return x; } return 0.0; }"),
            # two variables of a loop that change places
            ("(n: u64) -> u64 { let mut i = 0; let mut s = 0; let mut t = 1; while i < n { s += i; t += i; i += 1; } s }",
             "uint64_t dihkelu_f(uint64_t n) { uint64_t i = 0; uint64_t s = 0; uint64_t t = 1;"
             "while (i < n) { s = s + i; t = t + i; i = i + 1; } return t; }"),
            # the order of a call that writes and of a read, which C leaves open
            (f"(a: f64) -> f64 {{ let mut x = a; let y = put(&mut x); y + x }}\n{put}",
             f"{c_put}double dihkelu_f(double a) {{ double x = a; return dihkelu_put(&x) + x; }}"),
            # a call that writes, once where the source has it twice
            (f"(a: f64) -> f64 {{ let mut x = a; let y = put(&mut x); let z = put(&mut x); y + z }}\n{put}",
             f"{c_put}double dihkelu_f(double a) {{ double x = a; double y = dihkelu_put(&x); return y + y; }}"),
            # a list that is filled with what it has
            ("(a: f64) -> f64 { let mut x = [a; 4]; x = [x[0] + a; 4]; x[2] }",
             "double dihkelu_f(double a) { f64_x4 x; for (size_t each = 0; each < 4; each++) { x.at[each] = a; }"
             "for (size_t each = 0; each < 4; each++) { x.at[each] = x.at[0] + a; } return x.at[2]; }"),
            # a product of 32 bits that is widened after it was cut
            ("(a: u32) -> u64 { 9 * (a as u64) }", "uint64_t dihkelu_f(uint32_t a) { return (uint64_t)(9 * a); }"),
            # a product of u16, which C works out in int
            ("(a: u16) -> u16 { a * a }", "uint16_t dihkelu_f(uint16_t a) { return (uint16_t)(a * a); }"),
            # a null pointer that is moved
            (part, c_part + "return dihkelu_g((slice_f64){a.at + i, a.count - i}); }"),
            (part, c_part + "return dihkelu_g((slice_f64){i == 1 ? a.at : a.at + i, a.count - i}); }"),
            # a part before the test that there is one
            ("(a: &[f64], n: usize) -> f64 { if n > a.len() { return 0.0; } g(&a[..n]) }\nfn g(a: &[f64]) -> f64 { 1.0 }",
             c_part.replace("i)", "n)") + "slice_f64 b = {a.at, n}; if (a.count < n) { return 0.0; } return dihkelu_g(b); }"),
            # a list that is read through a pointer after it was changed, where the source reads a copy
            ("(a: f64) -> f64 { let mut x = [a; 4]; let y = x; x[0] = 1.0; g(&y) }\nfn g(a: &[f64]) -> f64 { 1.0 }",
             "static double dihkelu_g(slice_f64 a) { return 1.0; }\ndouble dihkelu_f(double a) { f64_x4 x;"
             "for (size_t each = 0; each < 4; each++) { x.at[each] = a; } slice_f64 y = {x.at, 4}; x.at[0] = 1.0; return dihkelu_g(y); }"),
            # two lists that are equal, and one of them lent twice
            (f"(a: f64) -> f64 {{ let mut x = [a; 4]; let mut y = [a; 4]; both(&mut x, &mut y) }}\n{both}",
             f"{c_both}double dihkelu_f(double a) {{ f64_x4 x = {four}; f64_x4 y = {four}; return dihkelu_both(&x, &x); }}"),
            (f"(a: f64) -> f64 {{ let mut x = [a; 4]; let y = [a; 4]; read(&y, &mut x) }}\n{read}",
             f"{c_read}double dihkelu_f(double a) {{ f64_x4 x = {four}; f64_x4 y = {four}; return dihkelu_read(&x, &x); }}"),
            # a variable that outlives its call
            ("(n: u64) -> u64 { let a = n; a + 1 }", "uint64_t dihkelu_f(uint64_t n) { static uint64_t a = n; return a + 1; }"),
            # a part of a list that is changed whole
            (part_put, c_part_put + "return dihkelu_g(a); }"),
        ]:
            with self.subTest(rust=rust):
                self.assertFalse(same(self.HEAD + rust, c))


WRAPPED = """
static uint64_t dihkelu_f_body(const double *a_at, size_t a_count, double b, double c) {
    slice_f64 a = {a_at, a_count};
    if (b < c) { return a.count; }
    return 0;
}
typedef int environment;
static inline environment environment_enter(void) { return 0; }
static inline void environment_leave(environment caller) { (void)caller; }
uint64_t dihkelu_f(const double *a_at, size_t a_count, double b, double c) {
    uint64_t (*body)(const double *, size_t, double, double) = dihkelu_f_body;
    environment caller = environment_enter();
    uint64_t returned = body(a_at, a_count, b, c);
    environment_leave(caller);
    return returned;
}
"""


class Environment(unittest.TestCase):
    """A call that sets the floating-point environment around its body."""
    RUST = Small.HEAD + "(a: &[f64], b: f64, c: f64) -> u64 { if b < c { a.len() as u64 } else { 0 } }"

    def test_wrapped(self):
        self.assertTrue(same(self.RUST, WRAPPED))

    def test_wrapped_without_arguments(self):
        text = re.sub(r"(?<=dihkelu_f)(_body)?\([^()]*a_at[^()]*\)", r"\1(void)", WRAPPED)
        text = text.replace("(*body)(const double *, size_t, double, double)", "(*body)(void)").replace("body(a_at, a_count, b, c)", "body()")
        text = re.sub(r"    slice_f64 .*?    return 0;", "    return 7;", text, flags=re.S)
        self.assertTrue(same(Small.HEAD + "() -> u64 { 7 }", text))

    def test_wrongly_wrapped(self):
        for was, put in [("body(a_at, a_count, b, c);", "body(a_at, a_count, c, b);"), ("= dihkelu_f_body", "= dihkelu_g_body"),
                         ("    environment_leave(caller);\n", ""), ("    return returned;", "    return returned + 1;"),
                         ("static uint64_t dihkelu_f_body", "uint64_t dihkelu_f_body"), ("if (b < c)", "if (b <= c)"),
                         ("double b, double c) {\n    uint64_t (*", "double b, float c) {\n    uint64_t (*")]:
            with self.subTest(put=put):
                self.assertIn(was, WRAPPED)
                self.assertFalse(same(self.RUST, WRAPPED.replace(was, put, 1)))


if __name__ == "__main__":
    unittest.main()
