#!/usr/bin/env python3
"""Sums of what a crate is made from, so that nothing stale is taken: tools/stamps.py NAME

Prints the sum of the toolchain's line, of the crate's line in crates.txt and its files in src, specs and proofs, and of those of the crates
below it. tools/lib.sh keeps it beside what it has had proved and built. Where `rt ci` has just proved all in a checkout in which nothing was
kept before (tools/test), the libraries that it left are taken as they are, as long as the sum of all crates and of these libraries stays what it was:
  tools/stamps.py --ci-passed   keeps that sum
  tools/stamps.py --ci          the status is 0 where it is the same today
  tools/stamps.py --kept        the status is 0 where some crate has work of an earlier run
  tools/stamps.py --deps NAME   prints the crates below NAME, one to a line, those that its line names first
"""
import hashlib
import subprocess
import sys
from pathlib import Path

ROOT = Path(__file__).resolve().parent.parent
CI = Path("target/stamp/ci")


def lines(root):
    """Each crate's line: what stands before the colon, and the crates behind it."""
    found = {}
    for line in (root / "crates.txt").read_text().split("\n"):
        left, colon, right = line.split("#")[0].partition(":")
        if colon and left.split():
            found[left.split()[0]] = (left.split(), right.split())
    return found


def below(root, name):
    """The crates below one, those that its line names first. A name that crates.txt has not is a library of the toolchain."""
    known = lines(root)
    if name not in known:
        sys.exit(f"tools/stamps.py: crates.txt has no crate {name}")
    found, left = [], list(known[name][1])
    while left:
        one = left.pop(0)
        if one in known and one not in found:
            found.append(one)
            left += known[one][1]
    return found


def sum_of(root, names):
    known, total = lines(root), hashlib.sha256()
    total.update(subprocess.run(["rt", "version"], capture_output=True, check=False).stdout)
    for name in sorted(names):
        total.update(repr((name, known[name])).encode())
        for part in ("src", "specs", "proofs"):
            for path in sorted((root / "crates" / name / part).rglob("*")):
                if path.suffix in (".rt", ".antt") and path.is_file():
                    total.update(repr((path.relative_to(root).as_posix(), path.read_bytes())).encode())
    return total.hexdigest()


def rlibs(root):
    """The sum of what the libraries that stand in out/ are linked from."""
    total = hashlib.sha256()
    for name in sorted(lines(root)):
        path = root / "crates" / name / "out" / "rlib" / f"{name}.rlib" / "toolchain" / "mir.json"
        total.update(repr((name, hashlib.sha256(path.read_bytes()).hexdigest() if path.is_file() else None)).encode())
    return total.hexdigest()


def all_of(root):
    return sum_of(root, lines(root)) + " " + rlibs(root)


def ci_stands(root):
    path = root / CI
    return path.is_file() and path.read_text() == all_of(root)


def main():
    match sys.argv[1:]:
        case ["--ci-passed"]:
            (ROOT / CI).parent.mkdir(parents=True, exist_ok=True)
            (ROOT / CI).write_text(all_of(ROOT))
        case ["--ci"]:
            sys.exit(0 if ci_stands(ROOT) else 1)
        case ["--kept"]:
            sys.exit(0 if any((ROOT / "crates").glob("*/out/*")) else 1)
        case ["--deps", name]:
            print("\n".join(below(ROOT, name)))
        case [name] if not name.startswith("-"):
            print(sum_of(ROOT, [name, *below(ROOT, name)]))
        case _:
            sys.exit("usage: tools/stamps.py NAME | --deps NAME | --ci-passed | --ci | --kept")


if __name__ == "__main__":
    main()
