"""Names and first comments from the sources: parameters, variables, fields and variants by their order."""
import pathlib
import re


def pieces(text):
    """A list between brackets, cut at its own commas."""
    found, depth, last = [], 0, ""
    for c in text:
        if c in "([{<":
            depth += 1
        elif c in ")]}>":
            depth -= 1
        if c == "," and depth == 0:
            found.append(last)
            last = ""
        else:
            last += c
    found.append(last)
    return [f.strip() for f in found if f.strip()]


class Item:
    """What the sources say of a function or a type."""

    def __init__(self, comment):
        self.comment = comment
        self.parameters = []
        self.bindings = []
        self.first_is_constant = False
        self.names = []  # fields, or (variant, its fields)


def comment_above(lines, i):
    i -= 1
    while i >= 0 and lines[i].strip().startswith("#["):
        i -= 1
    found = []
    while i >= 0 and lines[i].strip().startswith("//"):
        found.append(lines[i].strip())
        i -= 1
    return found[::-1]


HIDDEN, LIST = object(), object()  # a variable without a name; the list of a loop, which may have one


def names_in(pattern):
    """The names that a pattern binds."""
    pattern = re.sub(r"\b\w+\s*::\s*|\b\w+\s*:(?!:)|\b(?:mut|ref|true|false)\b", " ", pattern)
    return re.findall(r"(?<![\w'])[a-z]\w*\b(?!\s*[({])", pattern)


def bindings(body):
    """The variables that a body binds, in its order: by let, by the patterns of match and by for; each '?' binds two that have no name."""
    body = re.sub(r"b?\"(?:[^\"\\]|\\.)*\"|b?'(?:[^'\\]|\\.[^']*)'", '""', body)
    path = r"(?:\w+(?:\s*::\s*\w+)+|[A-Z]\w*)"
    inside = r"(?:\((?:[^(){}]|\([^()]*\))*\)|\{[^{}]*\})"
    pattern = re.compile(
        rf"\blet\s+(?:mut\s+)?(?P<let>[a-z_]\w*)\b(?!\s*::)|\blet\s+(?P<parts>\([^()]*\))|(?P<question>\?)"
        rf"|\bfor\s+(?P<each>[^{{]*?)\s+in\b(?P<over>[^{{]*)\{{|{path}\s*(?P<variant>{inside})(?=\s*(?:=>|=[^=]|\|)|[ ]if\b)|(?P<arm>\b[a-z]\w*)\s*=>"
    )
    found = []
    for m in pattern.finditer(body):
        if m["let"]:
            found += [m["let"]] if re.match("[a-z]", m["let"]) else []
        elif m["question"]:
            found += [HIDDEN, HIDDEN]
        elif m["each"]:
            found += of_a_loop(m["each"], m["over"])
        elif m["arm"]:
            found += [] if m["arm"] in ("true", "false") else [m["arm"]]
        else:
            found += names_in(m["variant"] or m["parts"])
    return found


def of_a_loop(pattern, over):
    """The variables of a for: its index, and the element."""
    names = names_in(pattern)
    if ".." in re.sub(r"\[[^\]]*\]", "", over):
        return names
    if ".enumerate()" in over:
        return [LIST, *(names if len(names) == 2 else [HIDDEN, *names])]
    return [LIST, f"{names[0]}_index" if names else HIDDEN, *names]


def of_the_language(text, names):
    item = Item([f"// {text}"])
    item.names = names
    return item


LIBRARY = {
    "std::option::Option": of_the_language("A value, or none.", [("None", []), ("Some", [])]),
    "std::result::Result": of_the_language("What was asked for, or why it is refused.", [("Ok", []), ("Err", [])]),
    "(,)": of_the_language("Two values.", ["part0", "part1"]),
}


def read_file(path, prefix, items):
    lines = path.read_text().split("\n")
    within = None
    for i, line in enumerate(lines):
        if m := re.match(r"(?:impl(?:<[^>]*>)? (?:(?P<of>\w+)(?:<(?P<given>\w+)>)? for )?|(?:pub )?trait )(?P<type>\w+)(?:<[^>]*>)? \{", line):
            within = m["type"] if m["of"] is None else m["type"][0].upper() + m["type"][1:] + m["of"] + (m["given"] or "")
        elif line == "}":
            within = None
        if m := re.match(r"( *)(?:pub(?:\(\w+\))? )?(?:extern \"C\" )?fn (\w+)(?:<[^>]*>)?\(", line):
            indent, name = m.group(1), m.group(2)
            if indent not in ("", "    "):
                continue
            item = Item(comment_above(lines, i))
            text, j = line[m.end() :], i
            while text.count("(") + 1 > text.count(")"):
                j += 1
                text += lines[j]
            depth, end = 1, 0
            while depth:
                depth += {"(": 1, ")": -1}.get(text[end], 0)
                end += 1
            if text[end:].rstrip().endswith(";"):
                continue  # of a trait, without a body
            for p in pieces(text[: end - 1]):
                item.parameters.append(re.sub(r"^(&mut |&|mut )", "", p.split(":")[0].strip()))
            begin = j + 1 if lines[j].endswith("{") else lines.index(indent + "{", j) + 1
            body = lines[begin : lines.index(indent + "}", begin)]
            body = "\n".join(re.sub(r"//.*", "", b) for b in body)
            item.bindings = bindings(body)
            first = re.search(r"\blet\s+(?:mut\s+)?\w+[^=]*=\s*([^;]*);", body)
            item.first_is_constant = bool(first) and (first.group(1)[0] in "[*" or first.group(1) in item.parameters)
            items["::".join([prefix] + ([within] if within else []) + [name])] = item
        elif m := re.match(r"(?:pub(?:\(\w+\))? )?(struct|enum) (\w+)(?:<[^>]*>)? \{", line):
            item = Item(comment_above(lines, i))
            body = "\n".join(re.sub(r"//.*", "", b) for b in lines[i + 1 : lines.index("}", i)])
            for p in pieces(body):
                if m.group(1) == "struct":
                    item.names.append(re.sub(r"^pub(\(\w+\))?\s+", "", p).split(":")[0].strip())
                else:
                    variant = re.match(r"\w+", p).group(0)
                    fields = re.search(r"\{(.*)\}", p, re.S)
                    item.names.append((variant, [f.split(":")[0].strip() for f in pieces(fields.group(1))] if fields else []))
            items[prefix + "::" + m.group(2)] = item
        elif m := re.match(r"(?:pub(?:\(\w+\))? )?struct (\w+)\((.*)\);", line):
            item = Item(comment_above(lines, i))
            item.names = [f"part{k}" for k, _ in enumerate(pieces(m.group(2)))]
            items[prefix + "::" + m.group(1)] = item


def sources(root):
    """Items by name, and each crate's first comment, in the order of crates.txt."""
    items, heads = {}, {}
    for line in (pathlib.Path(root) / "crates.txt").read_text().split("\n"):
        crate = line.split(":")[0].strip()
        if not crate or crate.startswith("#"):
            continue
        folder = pathlib.Path(root) / "crates" / crate / "src"
        for path in sorted(folder.glob("*.rt")):
            read_file(path, crate if path.stem in ("lib", "main") else f"{crate}::{path.stem}", items)
        first = next(iter(sorted(folder.glob("lib.rt")) or sorted(folder.glob("*.rt"))), None)
        lines = first.read_text().split("\n") if first else []
        end = next((i for i, l in enumerate(lines) if not l.startswith("//")), len(lines))
        heads[crate] = lines[:end]
    return items, heads
