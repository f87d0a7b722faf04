"""The calls that include/dihkelu.h declares, and what is made of them: the manual page, and the declarations for Fortran and Rust."""
import re
import textwrap

MADE = "Made by tools/c_source from include/dihkelu.h, which says what each call does."


class Call:
    def __init__(self, comment, returns, name, arguments):
        self.comment = comment  # lines; empty where the one before speaks of both
        self.returns, self.name = returns, name
        self.arguments = []  # name, C's type without *, whether it is lent, whether it is written, whether it is a list, whose count is the next
        for a, after in zip(arguments, arguments[1:] + [""]):
            n = a.split()[-1].lstrip("*")
            kind = re.sub(r"\bconst\b|\*|\b" + n + r"\b", "", a).strip()
            self.arguments.append((n, kind, "*" in a, "*" in a and "const" not in a, "*" in a and after.startswith("size_t ")))
        for n, kind, *_ in self.arguments:
            if kind not in ("uint8_t", "uint32_t", "uint64_t", "size_t", "double"):
                raise ValueError(f"{name}: the type {kind} of {n} is not known")


def calls(header):
    found = []
    pattern = r"(?:/\*((?:(?!\*/).)*)\*/\n)?(?:#define[^\n]*\n)*DIHKELU_MUST_USE (uint\d+_t) (dihkelu_\w+)\(([^)]*)\);"
    for comment, returns, name, arguments in re.findall(pattern, header, re.S):
        lines = [re.sub(r"^ \*", "", line).strip() for line in comment.strip("\n").split("\n")] if comment else []
        arguments = " ".join(arguments.split())
        found.append(Call([line.strip("- ") for line in lines], returns, name, [] if arguments == "void" else arguments.split(", ")))
    return found


def constants(header):
    return [(n, int(v, 0)) for n, v in re.findall(r"^#define (DIHKELU_\w+) (0x[0-9A-Fa-f]+|\d+)u?$", header, re.M)]


def manual(header):
    """The manual page dihkelu(3): the header's own comments and declarations."""
    text = [line for line in header.split("\n") if not line.startswith(("#if", "#e", "#include"))]
    begin = next(i for i, line in enumerate(text) if line.startswith("/* ---- the version"))
    top = "\n".join(text[:begin])
    intro = top[top.index("/*") : top.index("*/")].replace("/* ", "", 1).split("\n")
    rest = "\n".join(text[begin:])
    rest = rest[rest.index("/* ---- the calls") :].split("\n")
    cut = len("DIHKELU_MUST_USE ")
    rest = [line[cut:] if line.startswith(("DIHKELU_MUST_USE ", " " * 2 * cut)) else line for line in rest if line != "}"]

    def roff(lines):
        lines = [line.replace("\\", "\\e").replace("-", "\\-") for line in lines]
        return "\n".join("\\&" + line if line[:1] in (".", "'") else line for line in lines)

    intro = [line[3:] if line.startswith(" * ") else line.lstrip(" *") for line in intro]
    return (
        '.\\" Made by tools/c_source from the header.\n'
        '.TH DIHKELU 3 "" "dihkelu"\n.SH NAME\ndihkelu \\- light through a train of coated windows\n.SH SYNOPSIS\n'
        ".B #include <dihkelu.h>\n.PP\nLink with \\-ldihkelu.\n.SH DESCRIPTION\n.nf\n"
        + roff(intro).strip()
        + "\n.fi\n.SH CALLS\n.nf\n"
        + roff(rest).strip()
        + "\n.fi\n.SH SEE ALSO\n.BR train (1),\n.BR dihkelu\\-sheet (5)\n"
    )


FORTRAN = {
    "uint8_t": "integer(c_int8_t)", "uint32_t": "integer(c_int32_t)", "uint64_t": "integer(c_int64_t)",
    "size_t": "integer(c_size_t)", "double": "real(c_double)",
}  # fmt: skip


def continued(words, indent):
    """Words with spaces between, in lines of Fortran."""
    lines = [indent + words[0]]
    for w in words[1:]:
        if len(lines[-1]) + len(w) > 120:
            lines[-1] += " &"
            lines.append(indent + "    " + w)
        else:
            lines[-1] += " " + w
    return lines


def fortran(header):
    out = [
        f"! {MADE}",
        "! SPDX-License-Identifier: MIT OR Apache-2.0",
        "!",
        "! A call returns 64 bits: test dihkelu_refusal of them first. A list is passed with its count of elements behind it.",
        "! Fortran has no unsigned numbers: counts and codes are below 2**31, and dihkelu_place gives 64 bits.",
        "module dihkelu",
        "    use, intrinsic :: iso_c_binding, only: c_double, c_int8_t, c_int32_t, c_int64_t, c_size_t",
        "    implicit none",
        "    private",
        "",
    ]
    for n, v in constants(header):  # capitals are no difference in Fortran, and some calls have these names
        name = "dihkelu_header_version" if n == "DIHKELU_VERSION" else n.lower() + "_count"
        out.append(f"    integer(c_int32_t), parameter, public :: {name} = {v}")
    public = [c.name for c in calls(header)] + ["dihkelu_refusal", "dihkelu_place", "dihkelu_value"]
    out += [""] + continued(["public ::"] + [n + ("," if n != public[-1] else "") for n in public], "    ") + ["", "    interface"]
    for c in calls(header):
        for line in c.comment:  # Fortran's lines have 132 characters at most
            out += [f"        ! {part}" for part in textwrap.wrap(line, 120)] or ["        !"]
        arguments = [a[0] for a in c.arguments]
        listed = [n + ("," if n != arguments[-1] else ")") for n in arguments] or [")"]
        head = [f"function {c.name}(" + listed[0]] + listed[1:] + [f"bind(c, name='{c.name}')", "result(returned)"]
        out += continued(head, "        ")
        kinds = sorted({re.search(r"\((\w+)\)", FORTRAN[k]).group(1) for k in [c.returns] + [a[1] for a in c.arguments]})
        out.append(f"            import :: {', '.join(kinds)}")
        for n, kind, lent, written, is_list in c.arguments:
            how = "value" if not lent else "intent(inout)" if written else "intent(in)"
            out.append(f"            {FORTRAN[kind]}, {how} :: {n}{'(*)' if is_list else ''}")
        out += [f"            {FORTRAN[c.returns]} :: returned", f"        end function {c.name}", ""]
    out[-1:] = [
        "    end interface",
        "",
        "contains",
        "",
        "    ! The refusal's number; 0 for an answer.",
        "    elemental function dihkelu_refusal(returned) result(number)",
        "        integer(c_int64_t), intent(in) :: returned",
        "        integer(c_int32_t) :: number",
        "        number = int(ishft(returned, -32), c_int32_t)",
        "    end function dihkelu_refusal",
        "",
        "    ! The place of a refusal; 0 for an answer.",
        "    elemental function dihkelu_place(returned) result(place)",
        "        integer(c_int64_t), intent(in) :: returned",
        "        integer(c_int64_t) :: place",
        "        place = merge(ibits(returned, 0, 32), 0_c_int64_t, dihkelu_refusal(returned) /= 0)",
        "    end function dihkelu_place",
        "",
        "    ! The call's own number; 0 for a refusal.",
        "    elemental function dihkelu_value(returned) result(number)",
        "        integer(c_int64_t), intent(in) :: returned",
        "        integer(c_int32_t) :: number",
        "        number = int(merge(ibits(returned, 0, 32), 0_c_int64_t, dihkelu_refusal(returned) == 0), c_int32_t)",
        "    end function dihkelu_value",
        "end module dihkelu",
        "",
    ]
    return "\n".join(out)


RUST = {"uint8_t": "u8", "uint32_t": "u32", "uint64_t": "u64", "size_t": "usize", "double": "f64"}


def rust(header):
    out = [f"//! {MADE}", '//! They are unsafe: what a caller owes stands there under "WHAT THE CALLER OWES".', "", 'extern "C" {']
    for c in calls(header):
        # in square brackets stands a link
        out += [f"    /// {line}".rstrip().replace("[", "\\[").replace("]", "\\]") for line in c.comment]
        arguments = [f"{n}: {'*mut ' if written else '*const ' if lent else ''}{RUST[k]}" for n, k, lent, written, _ in c.arguments]
        line = f"    pub fn {c.name}({', '.join(arguments)}) -> {RUST[c.returns]};"
        out += [line] if len(line) <= 100 else [f"    pub fn {c.name}("] + [f"        {a}," for a in arguments] + [f"    ) -> {RUST[c.returns]};"]
    return "\n".join(out + ["}", ""])


def version(header):
    """Major, minor and patch; the number that the library returns has the first two."""
    text = re.search(r'^#define DIHKELU_VERSION_TEXT "(\d+\.\d+\.\d+)"$', header, re.M).group(1)
    major, minor, _ = map(int, text.split("."))
    if dict(constants(header))["DIHKELU_VERSION"] != (major << 16) + minor:
        raise ValueError("the header's DIHKELU_VERSION and DIHKELU_VERSION_TEXT are two versions")
    return text


def cargo(header):
    return f"""# Made by tools/c_source: the version is the header's.
[package]
name = "dihkelu-sys"
version = "{version(header)}"
edition = "2021"
description = "Light through a train of coated windows: the C library and its calls"
license = "MIT OR Apache-2.0"
links = "dihkelu"

[workspace]
"""
