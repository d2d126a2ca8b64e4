#!/usr/bin/env python3
"""Holds the lines of crates.txt against what the crates' files name.

A line has to list just those libraries of the repository and of the kit, beside std, which the crate's files under
src/, specs/ and proofs/ name outside of comments and texts: at the head of a path, as in `con_terms::Con`, or behind
`Rattle.`. What a file imports from elsewhere (`use std::io`) and the crate's own modules (`mod bytes`) are no
libraries of these names.

Why: rt sums up the sources of all libraries below a crate once for each path through crates.txt that leads to one.
A line that lists what its crate doesn't use multiplies these paths: that once took half an hour of a gate. What stands
below a library is found without being listed.

    libraries.py      prints a line for what differs, and ends with `N lines of crates.txt as used, M not`
"""
import os
import re
import shutil
import sys

ROOT = os.path.dirname(os.path.dirname(os.path.abspath(__file__)))
ROW = re.compile(r"(\w+)[^:#\n]*:([^#\n]*)")
# Texts and characters, which may hold what begins a comment, and comments.
SKIPPED = {
    ".rt": re.compile(r'"(?:[^"\\]|\\.)*"|\'(?:\\[^\']+|[^\'\\\n])\'|//[^\n]*'),
    ".antt": re.compile(r"--[^\n]*"),
}
IMPORT = re.compile(r"\buse\s+(\w+)([^;]*);")
HEAD = re.compile(r"(?<![\w:.])(\w+)::")
BEHIND = re.compile(r"\bRattle\.(\w+)")
MODULE = re.compile(r"\bmod\s+(\w+)")


def files_of(crate):
    """The kind and the text of each file that a check of the crate reads, without comments."""
    for part in ("src", "specs", "proofs"):
        for at, _, names in os.walk(f"{ROOT}/crates/{crate}/{part}"):
            for name in names:
                kind = os.path.splitext(name)[1]
                if kind in SKIPPED:
                    with open(f"{at}/{name}", encoding="utf-8") as it:
                        yield kind, SKIPPED[kind].sub(" ", it.read())


def named_by(crate):
    """The names that stand where a library may be named."""
    found, own = set(), set()
    for kind, text in files_of(crate):
        found.update(BEHIND.findall(text))
        if kind == ".rt":
            imports = IMPORT.findall(text)
            elsewhere = {word for _, rest in imports for word in re.findall(r"\w+", rest)}
            found.update(head for head, _ in imports)
            found.update(set(HEAD.findall(text)) - elsewhere)
            own.update(MODULE.findall(text))
    return found - own


def libraries_of_kit():
    kit = os.path.dirname(os.path.dirname(os.path.realpath(shutil.which("rt"))))
    return {it.removesuffix(".rlib") for it in os.listdir(f"{kit}/rlibs") if it.endswith(".rlib")} - {"std"}


def main():
    with open(f"{ROOT}/crates.txt", encoding="utf-8") as it:
        rows = {found[1]: found[2].split() for found in map(ROW.match, it) if found}
    known, failed = set(rows) | libraries_of_kit(), 0
    for crate, listed in rows.items():
        named = named_by(crate) & known - {crate}
        said = [f"lists {it}, which its files don't name" for it in sorted(set(listed) - named)]
        said += [f"doesn't list {it}, which its files name" for it in sorted(named - set(listed))]
        said += [f"lists {it} twice" for it in sorted(set(listed)) if listed.count(it) > 1]
        failed += bool(said)
        for it in said:
            print(f"crates.txt: the line of {crate} {it}")
    print(f"{len(rows) - failed} lines of crates.txt as used, {failed} not")
    return 1 if failed else 0


if __name__ == "__main__":
    sys.exit(main())
