"""The files of the release that are made."""
import pathlib

from . import emit, environment, fold, header as headers, inline, program, source

BANNER = """// Made by tools/c_source from the checked program; a change is made in crates/ and this file written anew.
// SPDX-License-Identifier: MIT OR Apache-2.0
"""
LICENCES = ("LICENSE-MIT", "LICENSE-APACHE", "NOTICE")
PACKAGES = ("c", "fortran", "python", "rust/dihkelu-sys")

PRELUDE = """//
// Light through a train of coated windows: the whole library in one file. dihkelu.h says what each call does. Functions
// have their crate's name in front, and those that are called stand before those that call.
//
// The answers are those of the proved library, bit for bit, only where each operation on doubles is rounded once, to
// nearest, as IEEE 754 has it. What can be known when this is compiled is tested here; the environment of the caller is
// set for each call and given back.
#include "dihkelu.h"

#include <float.h>
#include <stdbool.h>

#if defined(__FAST_MATH__) || (defined(__FINITE_MATH_ONLY__) && __FINITE_MATH_ONLY__)
#error "compile this without -ffast-math, -Ofast and -ffinite-math-only: the answers would be others"
#endif
#if defined(__NO_SIGNED_ZEROS__) || defined(__ASSOCIATIVE_MATH__) || defined(__RECIPROCAL_MATH__)
#error "compile this without the options that -ffast-math is made of: the answers would be others"
#endif
// 0 and 1 leave doubles as they are, and so do 16, 32, 33 and 64, which speak of narrower numbers; 2 and 65 do not.
#if !defined(FLT_EVAL_METHOD) || FLT_EVAL_METHOD < 0 || FLT_EVAL_METHOD == 2 || FLT_EVAL_METHOD > 64
#error "operations on doubles are rounded twice here, as 32-bit x86 does without SSE2: the answers would be others"
#endif

// No a * b + c is worked out with one rounding. GCC does not know the standard's pragma. Where the machine has a fused
// multiply-add, GCC 12 makes one of two products even with -ffp-contract=off, when it joins them to a vector: not here.
#if defined(__GNUC__) && !defined(__clang__)
#pragma GCC optimize("fp-contract=off", "no-tree-slp-vectorize")
#else
#pragma STDC FP_CONTRACT OFF
#endif

_Static_assert(FLT_RADIX == 2 && DBL_MANT_DIG == 53, "double is no binary64");
_Static_assert(DBL_MAX_EXP == 1024 && DBL_MIN_EXP == -1021, "double is no binary64");
_Static_assert(sizeof(double) == 8 && sizeof(uint64_t) == 8, "a byte has another size");
// A count is a size_t in dihkelu.h and a uint64_t inside: widened there, and never cut. An index is below its list's count.
_Static_assert(sizeof(size_t) <= sizeof(uint64_t), "a count would be cut");
_Static_assert(sizeof(int) >= 4 && sizeof(size_t) >= 4, "this is for machines of 32 bits or more");

// The bits of a double, and the double of bits.
static inline uint64_t to_bits(double x) {
    uint64_t bits;
    memcpy(&bits, &x, sizeof bits);
    return bits;
}

static inline double from_bits(uint64_t bits) {
    double x;
    memcpy(&x, &bits, sizeof x);
    return x;
}

"""

LEADING_ZEROS = """// How many zeros stand before the first 1 of 64 digits; 64 where there is none.
static inline uint32_t leading_zeros(uint64_t x) {
    uint32_t zeros = 0;
    while (zeros < 64 && x >> (63 - zeros) == 0) {
        zeros++;
    }
    return zeros;
}

"""

TRAIN_PRELUDE = """//
// What the program `train` prints of a sheet, over the library's source, whose inner functions it calls.
#include "dihkelu.c"

"""


def calls(e, found):
    if e[0] == "call":
        found.append(e[1])
    for p in fold.parts(e):
        calls(p, found)


def called(statements):
    found = []
    for s in statements:
        for h in fold.heads(s):
            calls(h, found)
        for inner in fold.lists(s):
            found += called(inner)
    return found


class Unit:
    """One program's functions that some are reached from, each after those that it calls."""

    def __init__(self, text, items, heads, entries, known=()):
        functions, self.named = program.program(text)
        writers = {n for n, f in functions.items() if any(t[0] in ("ref", "slice") and t[1] for t in f.types[1 : f.count + 1])}
        inliner = inline.Inliner(functions, writers)
        for f in functions.values():
            inliner.within(f)
        crates = {c: i for i, c in enumerate(heads)}
        place = {name: i for i, name in enumerate(items)}
        reached, order, known = set(), [], set(known)

        def reach(name):
            if name in reached or name in known:
                return
            reached.add(name)
            for n in called(functions[name].body):
                reach(n)

        entries = entries(functions)
        for name in entries:
            reach(name)
        done = set()

        def place_after(name):
            if name in done or name not in reached:
                return
            done.add(name)
            for n in sorted(set(called(functions[name].body)), key=lambda n: (place.get(n, -1), n)):
                place_after(n)
            order.append(name)

        for name in sorted(reached, key=lambda n: (crates.get(n.split("::")[0], -1), place.get(n, -1), n)):
            place_after(name)
        self.functions = {n: functions[n] for n in order}
        self.entries = entries
        self.items, self.heads = items, heads
        self.writers = writers

    def print(self, types, exported):
        out, crate, names = [], None, set()
        working = environment.working(self.functions, called)
        for name, f in self.functions.items():
            c = emit.identifier(name)
            if c in names:
                raise program.Unknown(f"two functions are called {c}")
            names.add(c)
            guarded = exported(name) and name in working
            text = emit.Printer(f, types, self.items.get(name.split("<")[0]), exported(name), self.writers, guarded).printed()
            if name.split("::")[0] != crate:
                crate = name.split("::")[0]
                out.append("\n".join([f"// ==== {crate}", "//"] + self.heads[crate]) if self.heads.get(crate) else f"// ==== {crate}")
            out.append(text)
        return "\n\n".join(out) + "\n"


def notice(root):
    """The notice as a comment, up to where it speaks of other files: the C may be taken alone."""
    text = (pathlib.Path(root) / "NOTICE").read_text().split("\nThe whole notice")[0]
    return "\n".join(f"// {line}".rstrip() for line in ["", *text.strip().split("\n")]) + "\n"


def licences(root):
    """Each package's copies of the licences."""
    return {f"{package}/{name}": (pathlib.Path(root) / name).read_text() for package in PACKAGES for name in LICENCES}


def made(root, library, text):
    """Each file's path and what is in it."""
    items, heads = source.sources(root)

    def exports(functions):
        return [n for n in functions if n.startswith("dihkelu::dihkelu_")]

    unit = Unit(library, items, heads, exports)
    types = emit.Types(unit.named, items)
    body = unit.print(types, lambda name: name in unit.entries)
    first = len(types.definitions)
    zeros = LEADING_ZEROS if "leading_zeros(" in body else ""
    c = BANNER + notice(root) + PRELUDE + zeros + environment.PRELUDE + "// ==== types\n\n" + "\n\n".join(types.definitions) + "\n\n" + body
    train = Unit(text, items, heads, lambda functions: ["train_text::train_text"], unit.functions)
    types.named = {**types.named, **train.named}
    body = train.print(types, lambda name: False)
    t = BANNER + TRAIN_PRELUDE + "\n\n".join(types.definitions[first:]) + "\n\n" + body
    header = (pathlib.Path(root) / "include" / "dihkelu.h").read_text()
    return {
        "c/dihkelu.c": c,
        "c/train_text.c": t,
        "c/dihkelu.h": header,
        "c/dihkelu.3": headers.manual(header),
        "fortran/dihkelu.f90": headers.fortran(header),
        "rust/dihkelu-sys/src/raw.rs": headers.rust(header),
        "rust/dihkelu-sys/Cargo.toml": headers.cargo(header),
        # copies, since rt takes no links
        **{f"{folder}/dihkelu.{ending}": it for folder in ("python/source", "rust/dihkelu-sys/c") for ending, it in (("c", c), ("h", header))},
        "rust/dihkelu-sys/src/safe.rs": (pathlib.Path(root) / "include" / "dihkelu.rs").read_text(),
        **licences(root),
    }
