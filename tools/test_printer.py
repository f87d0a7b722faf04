#!/usr/bin/env python3
"""Tests of tools/c_printer: what it must not move, what it must refuse, and what the files that it makes say."""

import json
import re
import sys
import tempfile
import unittest
from pathlib import Path

ROOT = Path(__file__).resolve().parent.parent
sys.path.insert(0, str(ROOT / "tools"))
sys.dont_write_bytecode = True
from c_printer import emit, environment, files, header, program, rlib, source  # noqa: E402

HEADER = (ROOT / "include" / "dihkelu.h").read_text()
U64, F64, LENT = "(tyInt 64)", "(tyFloat 64)", "(tyRef (named 0) mut (tyFloat 64))"


def listed(items):
    return "lnil" if not items else f"(lcons {items[0]} {listed(items[1:])})"


def var(n, *steps):
    return f"(place {n} {listed(list(steps))})"


def copy(n, *steps):
    return f"(copy {var(n, *steps)})"


def assign(to, value):
    return f"(assign {to if to.startswith('(') else var(to)} {value})"


def seq(*steps):
    return steps[0] if len(steps) == 1 else f"(seq {steps[0]} {seq(*steps[1:])})"


def printed(locals_, count, *steps):
    """The C of one function without a source."""
    slots = listed([f"(local {t} valueLocal)" for t in locals_])
    text = f'program (lcons (fn-def "std::f" (fnItem 0 lnil {count} {slots} {seq(*steps)})) lnil) (fnRef "std::f")'
    functions, named = program.program(text)
    types = emit.Types(named, {})
    return emit.Printer(functions["std::f"], types, None, False, set()).printed()


def op2(op, a, b):
    return f"(op2 {op} {a} {b})"


ONE = "(int 64 1)"
DEREF = "(deref (tyFloat 64))"


class Moved(unittest.TestCase):
    def test_put_together(self):
        c = printed([U64, U64, U64], 1, assign("2", op2("(add unsigned)", copy(1), ONE)), assign("0", op2("(mul unsigned)", copy(2), copy(1))), "return")
        self.assertIn("return (a + 1) * a;", c)

    def test_result_that_is_not_read(self):
        call = f'(call (direct (fnRef "std::g")) {listed([copy(1)])} {var(2)})'
        c = printed([U64, U64, U64], 1, call, assign("0", f"(rvOpd {copy(1)})"), "return")
        self.assertIn("    std_g(a);\n    return a;", c)
        c = printed([U64, U64, U64], 1, call, assign("0", op2("(mul unsigned)", copy(2), copy(2))), "return")
        self.assertIn("uint64_t value = std_g(a);\n    return value * value;", c)

    def test_not_over_a_write_of_what_it_reads(self):
        c = printed([U64, U64, U64], 1, assign("2", op2("(add unsigned)", copy(1), ONE)), assign("1", f"(rvOpd {ONE})"), assign("0", op2("(mul unsigned)", copy(2), copy(1))), "return")
        self.assertIn("uint64_t value = a + 1;\n    a = 1;\n    return value * a;", c)

    def test_not_over_a_write_of_memory(self):
        c = printed([F64, LENT, F64], 1, assign("2", f"(rvOpd {copy(1, DEREF)})"), assign(var(1, DEREF), "(rvOpd (float 64 0))"), assign("0", f"(rvOpd {copy(2)})"), "return")
        self.assertIn("double value = *a;\n    *a = 0.0;\n    return value;", c)

    def test_not_into_a_loop(self):
        test = f"(if {copy(3)} skip (exit 1))"
        body = seq(assign("3", op2("(lt unsigned)", copy(1), copy(2))), test, assign("1", op2("(add unsigned)", copy(1), ONE)))
        c = printed([U64, U64, U64, "tyBool"], 1, assign("2", op2("(mul unsigned)", copy(1), copy(1))), f"(block (loop {body}))", assign("0", f"(rvOpd {copy(1)})"), "return")
        self.assertIn("uint64_t value = a * a;\n    while (a < value) {\n        a = a + 1;\n    }\n    return a;", c)

    def test_continue_and_break_within_a_switch(self):
        step = assign("1", op2("(sub unsigned)", copy(1), ONE))
        arms = f"(arm {listed(['5'])} (exit 1) (arm {listed(['6', '7'])} {seq(step, '(exit 0)')} (default {step})))"
        c = printed([U64, U64, U64], 1, f"(block (loop {seq(f'(switch {copy(1)} {arms})', assign('1', op2('(div unsigned)', copy(1), '(int 64 2)')))}))", assign("0", f"(rvOpd {copy(1)})"), "return")
        self.assertIn("        if (a == 5) {\n            break;\n        } else if (a == 6 || a == 7) {\n            a = a - 1;\n            continue;\n        } else {\n            a = a - 1;\n        }\n        a = a / 2;\n", c)

    def test_order_of_operations_stays(self):
        c = printed([F64, F64, F64, F64, F64], 3, assign("4", op2("floatAdd", copy(2), copy(3))), assign("0", op2("floatAdd", copy(1), copy(4))), "return")
        self.assertIn("return a + (b + c);", c)
        c = printed([F64, F64, F64, F64, F64], 3, assign("4", op2("floatSub", copy(1), copy(2))), assign("0", op2("floatSub", copy(4), copy(3))), "return")
        self.assertIn("return a - b - c;", c)

    def test_bits(self):
        c = printed([U64, U64, U64, U64, U64], 2, assign("3", op2("shl", copy(1), ONE)), assign("4", op2("(shr unsigned)", copy(1), "(int 64 63)")),
                    assign("3", op2("or", copy(3), copy(4))), assign("0", op2("xor", copy(3), copy(2))), "return")  # fmt: skip
        self.assertIn("return ((a << 1) | (a >> 63)) ^ b;", c)
        byte = "(tyInt 8)"
        c = printed([byte, byte, byte], 1, assign("2", op2("(shr unsigned)", copy(1), "(int 8 3)")), assign("0", f"(op1 not {copy(2)})"), "return")
        self.assertIn("return (uint8_t)~(uint8_t)(a >> 3);", c)

    def test_signs(self):
        minus_zero = f"(float 64 {1 << 63})"
        c = printed([F64, F64], 1, assign("1", f"(op1 floatNeg {minus_zero})"), assign("0", op2("floatMul", copy(1), minus_zero)), "return")
        self.assertIn("a = -(-0.0);\n    return a * -0.0;", c)


class Refused(unittest.TestCase):
    def refused(self, *steps, locals_=(U64, U64, U64), kind=program.Unknown):
        with self.assertRaises((kind, KeyError)):
            printed(list(locals_), 1, *steps)

    def test_unknown(self):
        self.refused(assign("0", op2("(rotateLeft unsigned)", copy(1), ONE)), "return")
        self.refused(assign("0", op2("(div signed)", copy(1), ONE)), "return")
        self.refused(assign("0", f"(op1 bitReverse {copy(1)})"), "return")
        self.refused("(goto 3)", "return")
        self.refused("(block (loop (exit 2)))", "return")
        self.refused("(block (exit 1))", "return")
        self.refused(assign("0", "(rvOpd (float 32 0))"), "return")

    def test_what_only_a_function_of_c_does(self):
        self.refused(assign("0", op2("floatRem", copy(1), copy(1))), "return", locals_=(F64, F64))

    def test_no_number(self):
        for bits in (0x7FF0 << 48, 0x7FF8 << 48, 0xFFF0 << 48):
            self.refused(assign("0", f"(rvOpd (float 64 {bits}))"), "return", locals_=(F64, F64))

    def test_an_offset_that_is_no_element(self):
        slice_ = '(tyStruct "&[]" (tcons (tyRef (named 0) imm (tyFloat 64)) (tcons (tyInt 64) tnil)))'
        at = "(field 0)"
        for offset, told in ((op2("(mul unsigned)", copy(2), "(int 64 8)"), True), (op2("(mul unsigned)", copy(2), "(int 64 4)"), False), (f"(rvOpd {copy(2)})", False)):
            steps = [assign("3", offset), assign("4", op2("offset", copy(1, at), copy(3))), assign("0", f"(rvOpd {copy(4, DEREF)})"), "return"]
            slots = [F64, slice_, U64, U64, "tyPtr"]
            if told:
                self.assertIn("return a.at[b];", printed(slots, 2, *steps))
            else:
                with self.assertRaises(program.Unknown):
                    printed(slots, 2, *steps)

    def test_brackets(self):
        with self.assertRaises(program.Unknown):
            program.program("program (lcons")

    def test_a_field_that_is_a_word_of_c(self):
        item = source.Item([])
        item.names = ["case"]
        types = emit.Types({"a::A": ("fields", [("int", 64)])}, {"a::A": item})
        with self.assertRaises(program.Unknown):
            types.fields("a::A")
        item.names = ["index"]
        self.assertEqual(types.fields("a::A"), ["index"])

    def test_a_function_that_the_sources_have_otherwise(self):
        functions, named = program.program(f'program (lcons (fn-def "gate::gate" (fnItem 0 lnil 0 {listed([f"(local {U64} valueLocal)"])} (seq {assign("0", f"(rvOpd {ONE})")} return))) lnil) x')
        items, _ = source.sources(ROOT)
        with self.assertRaises(program.Unknown):
            emit.Printer(functions["gate::gate"], emit.Types(named, items), items["gate::gate"], False, set())

    def test_an_unknown_type_in_the_header(self):
        with self.assertRaises(ValueError):
            header.calls("DIHKELU_MUST_USE uint64_t dihkelu_new(float x);")


def at(n, *steps):
    return {"local": n, "steps": list(steps)}


class Kept(unittest.TestCase):
    """Code as the toolchain keeps it of a library (mir.json)."""

    U64, BYTE = {"Int": 64}, {"Int": 8}

    def code(self, types, params, *body, **more):
        generics = {"types": [], "outlives": [], "bounds": [], "method_of": None, "trait_lifetimes": 0, "impls": []}
        return {"lifetimes": 0, "params": params, "generics": {**generics, **more}, "types": [], "locals": [{"ty": t, "home": "ValueLocal"} for t in types], "body": list(body)}

    def printed(self, *functions):
        with tempfile.NamedTemporaryFile("w", suffix=".json") as file:
            json.dump(functions, file)
            file.flush()
            found, named = program.program(rlib.program_text([file.name], "std"))
        return "\n".join(emit.Printer(f, emit.Types(named, {}), None, False, set()).printed() for f in found.values())

    def op2(self, op, a, b):
        return {"Op2": [op, {"Copy": at(a)}, {"Copy": at(b)}]}

    def test_a_loop(self):
        body = ["Seq", "Block", "Loop", "Seq", {"Assign": [at(2), self.op2({"Lt": "Unsigned"}, 1, 1)]}, "Seq", {"If": {"Copy": at(2)}}, "Skip", {"Exit": 1},
                {"Assign": [at(1), {"Op2": [{"Sub": "Unsigned"}, {"Copy": at(1)}, {"Int": {"width": 64, "value": 1}}]}]},
                "Seq", {"Assign": [at(0), {"Opd": {"Copy": at(1)}}]}, "Return"]  # fmt: skip
        c = self.printed(["std::f", self.code([self.U64, self.U64, "Bool"], 1, *body)])
        self.assertIn("    while (a < a) {\n        a = a - 1;\n    }\n    return a;", c)

    def test_lent_bytes(self):
        array = {"Array": [self.BYTE, {"Lit": 2}]}
        for given, said in [({"Ints": {"width": 8, "values": [65, 66]}}, "{{65, 66}}"), ({"Repeat": [{"Int": {"width": 8, "value": 7}}, 2]}, "{{7, 7}}")]:
            body = ["Seq", {"LendStatic": [at(2), array, given]}, "Seq", {"Assign": [at(0), {"Opd": {"Copy": at(2, {"Deref": array})}}]}, "Return"]
            c = self.printed(["std::f", self.code([array, self.U64, {"Ref": ["Erased", "Imm", array]}], 1, *body)])
            self.assertIn(f"    u8_x2 text = {said};\n    return text;", c)

    def test_what_wraps(self):
        calls = ["Seq", {"Call": [{"Fn": ["core::num::wrapping_add_u64", {"types": [], "dicts": []}]}, [{"Copy": at(1)}, {"Copy": at(1)}], at(0)]}, "Return"]
        caller = ["std::f", self.code([self.U64, self.U64], 1, *calls)]
        wraps = ["Seq", {"Assign": [at(0), self.op2("WrapAdd", 1, 2)]}, "Return"]
        c = self.printed(caller, ["core::num::wrapping_add_u64", self.code([self.U64] * 3, 2, *wraps)])
        self.assertIn("return std_num_wrapping_add_u64(a, a);", c)
        self.assertIn("    if (a <= 0xffffffffffffffffu - b) {\n        return a + b;\n    }\n    return a - (0xffffffffffffffffu - b) - 1;", c)
        for other in (self.op2("WrapSub", 1, 2), self.op2("WrapAdd", 2, 1), self.op2({"Add": "Unsigned"}, 1, 2)):
            with self.assertRaises(program.Unknown):
                self.printed(caller, ["core::num::wrapping_add_u64", self.code([self.U64] * 3, 2, "Seq", {"Assign": [at(0), other]}, "Return")])

    def refused(self, *body, types=(U64, U64, U64), **more):
        with self.assertRaises((program.Unknown, KeyError)):
            self.printed(["std::f", self.code(list(types), 1, *body, **more)])

    def test_unknown(self):
        self.refused("Seq", {"Assign": [at(0), self.op2("WrapAdd", 1, 1)]}, "Return")
        self.refused("Seq", {"Assign": [at(0), self.op2({"Div": "Signed"}, 1, 1)]}, "Return")
        self.refused("Seq", {"Assign": [at(0), {"Op1": ["BitReverse", {"Copy": at(1)}]}]}, "Return")
        self.refused({"Goto": 3}, "Return")
        self.refused("Seq", {"Assign": [at(0), {"Opd": {"Copy": at(1)}}]}, "Return", "Return")
        self.refused("Seq", {"Call": [{"Fn": ["std::none", {"types": [], "dicts": []}]}, [], at(0)]}, "Return")
        self.refused("Seq", {"Call": [{"Method": [{"Given": 0}, 1, {"types": [], "dicts": []}]}, [], at(0)]}, "Return")
        self.refused("Return", types=({"Int": 64}, {"Param": 0}))
        self.refused("Return", types=({"Float": 32}, {"Float": 32}))
        self.assertEqual(self.printed(["std::f", self.code([self.U64], 0, "Return", bounds=[{"of": "core::ops::Fn"}])]), "")


class Forms(unittest.TestCase):
    """The forms of tools/test_forms/forms.txt: forms.json is what the toolchain keeps of it, forms.c what is printed."""

    FOLDER = ROOT / "tools" / "test_forms"

    def printed(self, change=lambda text: text):
        """The C; `change` is what is done to the kept code before."""
        items = {}
        source.read_file(self.FOLDER / "forms.txt", "forms", items)
        with tempfile.NamedTemporaryFile("w", suffix=".json") as file:
            file.write(change((self.FOLDER / "forms.json").read_text()))
            file.flush()
            text = rlib.program_text([file.name], "forms")
        unit = files.Unit(text, items, {"forms": []}, lambda functions: [n for n in functions if n in items])
        types = emit.Types(unit.named, items)
        body = unit.print(types, lambda name: False)
        return "\n\n".join(types.definitions) + "\n\n" + body

    def test_printed(self):
        self.assertEqual(self.printed(), (self.FOLDER / "forms.c").read_text())

    def changed(self, old, new, count=1):
        def change(text):
            self.assertIn(old, text)
            return text.replace(old, new, count)

        return self.printed(change)

    def test_refused(self):
        """What is not known is not passed over."""
        kept = (self.FOLDER / "forms.json").read_text()
        for old, new in [
            ('{"Fn":["core::result::ResultTry::branch"', '{"Fn":["core::result::ResultTry::other"'),
            ('{"Impl":["core::convert::AnyFrom"', '{"Impl":["core::convert::OtherFrom"'),
            ('{"Exit":2}', '{"Exit":7}'),
            ('{"Given":0}', '{"Given":9}'),
            ('{"Given":0}', '{"Super":[0,{"Given":0}]}'),
            ('"Lt":"Signed"', '"Gt":"Signed"'),
            ('{"Add":"Signed"}', '{"Sub":"Signed"}'),
            ('{"NumOf":[64,{"Param":1}]}', '{"NumOf":[64,{"Other":1}]}'),
            ('"name":"core::option::Option","type_params":1', '"name":"core::option::Option","type_params":2'),
        ]:
            self.assertIn(old, kept)
            with self.subTest(new=new), self.assertRaises((program.Unknown, KeyError, IndexError)):
                self.changed(old, new, -1)

    def test_two_of_one_name(self):
        text = (self.FOLDER / "forms.json").read_text()
        with self.assertRaises(program.Unknown):
            self.changed('"name":"forms::Kind","type_params":0,"shape":{"Variants":[[],[],[]]}', '"name":"forms::Kind","type_params":0,"shape":{"Variants":[[],[]]}')
        self.assertGreater(text.count('"name":"forms::Kind"'), 1)
        for one, other in (("a::b<u32>", "a::b_u32"), ("std::option::Option<a::B>", "option::a_B"), ("f<[u8;4]>", "f_u8_x4"), ("f<&[f64],4>", "f_slice_f64_4")):
            self.assertEqual(emit.identifier(one), emit.identifier(other))


class Environment(unittest.TestCase):
    """An exported call that reaches an operation on doubles is a body, and a call around it that sets the environment."""

    def unit(self, operation):
        slots = listed([f"(local {t} valueLocal)" for t in (F64, F64)])
        inner = f'(fn-def "a::inner" (fnItem 0 lnil 1 {slots} {seq(assign("0", operation), "return")}))'
        call = f'(call (direct (fnRef "a::inner")) {listed([copy(1)])} {var(0)})'
        outer = f'(fn-def "a::outer" (fnItem 0 lnil 1 {slots} {seq(call, "return")}))'
        text = f'program {listed([inner, outer])} (fnRef "a::outer")'
        items = {name: source.Item([]) for name in ("a::inner", "a::outer")}
        for item in items.values():
            item.parameters = ["a"]
        return files.Unit(text, items, {}, lambda functions: ["a::outer"])

    def test_reached_through_another_function(self):
        unit = self.unit(op2("floatMul", copy(1), copy(1)))
        self.assertEqual(environment.working(unit.functions, files.called), {"a::inner", "a::outer"})
        c = unit.print(emit.Types(unit.named, {}), lambda name: name == "a::outer")
        self.assertIn("static double a_outer_body(double a) {", c)
        self.assertIn("\ndouble a_outer(double a) {\n    double (*LOOKED_UP body)(double) = a_outer_body;\n    environment caller = environment_enter();", c)
        self.assertIn("    double returned = body(a);\n    environment_leave(caller);\n    return returned;\n}", c)

    def test_none_is_reached(self):
        unit = self.unit(f"(rvOpd {copy(1)})")
        self.assertEqual(environment.working(unit.functions, files.called), set())
        self.assertIn("\ndouble a_outer(double a) {\n    return a_inner(a);", unit.print(emit.Types(unit.named, {}), lambda name: name == "a::outer"))

    def test_which_calls_set_none(self):
        c = (ROOT / "c" / "dihkelu.c").read_text()
        bare = {call.name for call in header.calls(HEADER) if f"static {call.returns} {call.name}_body(" not in c}
        self.assertEqual(bare, {"dihkelu_version", "dihkelu_coating_from_name", "dihkelu_coating_name", "dihkelu_trim", "dihkelu_diattenuator"})


class Release(unittest.TestCase):
    def test_one_version(self):
        text = header.version(HEADER)
        major, minor, _ = map(int, text.split("."))

        def found(path, pattern):
            return re.search(pattern, (ROOT / path).read_text(), re.M).group(1)

        self.assertEqual(found("CHANGELOG.md", r"^## (\S+) \(\d{4}-\d\d-\d\d\)$"), text)
        self.assertEqual(found("rust/dihkelu-sys/Cargo.toml", r'^version = "(.*)"$'), text)
        self.assertEqual(found("python/dihkelu/__init__.py", r'^__version__ = "(.*)"$'), text)
        self.assertEqual(int(found("include/dihkelu.rs", r"^pub const VERSION: u32 = (\w+);"), 16), (major << 16) + minor)
        self.assertEqual(int(found("python/dihkelu/library.py", r"^VERSION = (\w+)"), 16), (major << 16) + minor)
        self.assertEqual(int(found("crates/dihkelu/src/lib.rt", r"dihkelu_version\(\)[^{]*\{[^}]*\}\n\{\n    (\w+)"), 16), (major << 16) + minor)
        self.assertEqual(found("c/dihkelu.c", r"^uint32_t dihkelu_version\(void\) \{\n    return (\d+);"), str((major << 16) + minor))

    def test_the_name_of_debians_package(self):
        folder = ROOT / "packaging" / "debian"
        name = "libdihkelu" + header.version(HEADER).rsplit(".", 1)[0]
        self.assertEqual(set(re.findall(r"libdihkelu[\d.]+", (folder / "control").read_text())), {name})
        self.assertEqual([p.stem for p in folder.glob("libdihkelu[0-9]*")], [name])

    def test_two_versions_in_the_header(self):
        with self.assertRaises(ValueError):
            header.version(HEADER.replace("DIHKELU_VERSION_TEXT \"0.", "DIHKELU_VERSION_TEXT \"9."))

    def test_dates_and_order_of_the_changelog(self):
        titles = re.findall(r"^## (.*)$", (ROOT / "CHANGELOG.md").read_text(), re.M)
        numbers = [tuple(map(int, re.fullmatch(r"(\d+)\.(\d+)\.(\d+) \(\d{4}-\d\d-\d\d\)", t).groups())) for t in titles]
        self.assertEqual(numbers, sorted(numbers, reverse=True))

    def test_each_package_carries_the_licences(self):
        for path, text in files.licences(ROOT).items():
            self.assertEqual((ROOT / path).read_text(), text, path)
        c = (ROOT / "c" / "dihkelu.c").read_text()
        for line in ("Copyright (c) 2026 OpticsLab Contributors", "Permission is hereby granted", 'THE SOFTWARE IS PROVIDED "AS IS"'):
            self.assertIn(line, c)


class Made(unittest.TestCase):
    def test_every_call_is_declared_and_defined(self):
        names = [c.name for c in header.calls(HEADER)]
        self.assertEqual(len(names), HEADER.count("\nDIHKELU_MUST_USE uint"))
        c, fortran, raw = ((ROOT / f).read_text() for f in ("c/dihkelu.c", "fortran/dihkelu.f90", "rust/dihkelu-sys/src/raw.rs"))
        for name in names:
            self.assertIn(f"_t {name}(", c)
            self.assertIn(f"bind(c, name='{name}')", fortran)
            self.assertIn(f"pub fn {name}(", raw)
        self.assertLessEqual(max(map(len, fortran.split("\n"))), 132)

    def test_a_small_variant_of_a_large_type(self):
        """A refusal beside a surface's answers is returned field by field: what stands in braces is filled up with zeros, by memset with clang."""
        text = (ROOT / "c" / "dihkelu.c").read_text()
        refused = "result_surface_Answers_refusal_Refusal_Err"
        self.assertNotRegex(text, r"\{\.tag = " + refused)
        self.assertIn(f"    reply.tag = {refused};\n", text)

    def test_names_and_comments_are_the_sources(self):
        items, _ = source.sources(ROOT)
        c = (ROOT / "c" / "dihkelu.c").read_text()
        gate = items["gate::gate"]
        self.assertEqual(gate.parameters, ["src"])
        self.assertIn("\n".join(gate.comment) + "\nstatic result_u32_refusal_Refusal gate_gate(slice_u8 src) {", c)
        root = items["math_sqrt::root_by_digits"]
        self.assertEqual(root.bindings, ["q", "left", "step", "t"])
        self.assertIn("    while (1 < step) {\n        step = step / 2;\n        uint64_t t = 2 * q + step;\n", c)

    def test_nothing_is_cast_but_whole_numbers(self):
        c = (ROOT / "c" / "dihkelu.c").read_text() + (ROOT / "c" / "train_text.c").read_text()
        self.assertEqual(set(re.findall(r"\(((?:u?int\d+_t|double|size_t|char|void)(?: \*)?)\)[\w(]", c)) - {"void"}, {"uint8_t", "uint32_t", "uint64_t", "double"})


if __name__ == "__main__":
    unittest.main()
