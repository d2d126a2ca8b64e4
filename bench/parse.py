"""Parsing of ordinary source and of long chains: see parse.sh.

The program itself tells how long parsing took behind lexing; the best of several runs counts. Memory is the peak of the
whole run, the text and its tokens included, and beside it what the run has above one that only lexes.
"""
import os
import re
import subprocess
import sys
import tempfile

sys.path.insert(0, os.path.dirname(os.path.abspath(__file__)))
from lex import source
from measure import peak_of

PROGRAM = sys.argv[1]
MIB = 1 << 20


def chain(front, piece, end, size):
    """The front, as many of the piece as the size has room for, and the end."""
    return front + piece * ((size - len(front) - len(end)) // len(piece)) + end


TEXTS = [
    ("ordinary, 1 MiB", source(MIB)),
    ("ordinary, 2 MiB", source(2 * MIB)),
    ("ordinary, 4 MiB", source(4 * MIB)),
    ("one sum", chain("val x = 1", " + 1", "\n", 4 * MIB)),
    ("one application", chain("val x = f", " y", "\n", 4 * MIB)),
    ("declarations", chain("", "val x = 1\n", "", 4 * MIB)),
    ("sibling elements", chain("val x = <xml>", "<p>text</p>\n", "</xml>\n", 4 * MIB)),
]


def parse(path):
    """The tokens, the marks and the nanoseconds of one run."""
    told = subprocess.run([PROGRAM, path], capture_output=True, text=True, check=True).stdout
    found = re.fullmatch(r"(\d+) tokens, (\d+) marks, (\d+) nanoseconds\n", told)
    if not found:
        sys.exit(f"{PROGRAM} told: {told}")
    return tuple(int(it) for it in found.groups())


def main(times=7):
    print(f"{'source':20} {'tokens':>9} {'marks':>9} {'ms':>8} {'MB/s':>7} {'ns/token':>9} {'peak bytes/token':>17} {'of these the tree':>18}")
    for name, text in TEXTS:
        with tempfile.NamedTemporaryFile("w") as it:
            it.write(text)
            it.flush()
            tokens, marks, nanoseconds = min((parse(it.name) for _ in range(times)), key=lambda told: told[2])
            whole, lexed = peak_of([PROGRAM, it.name], os.devnull), peak_of([PROGRAM, it.name, "lex"], os.devnull)
            memory = f"{whole * 1024 / tokens:17.1f} {(whole - lexed) * 1024 / tokens:18.1f}" if whole else ""
            print(f"{name:20} {tokens:9} {marks:9} {nanoseconds / 1e6:8.1f} {len(text) * 1e3 / nanoseconds:7.1f} {nanoseconds / tokens:9.1f} {memory}")


if __name__ == "__main__":
    main()
