#!/usr/bin/env python3
"""Reads again what `explicit` prints of the programs of tests/programs, as a source.

What is printed of an accepted program is text of the language, with a blank between two tokens. In a literal of markup
a blank would be a text of the page, so it is taken out there. Read as a source, that text has to be accepted, to print as
itself (but for brackets at once, and wholly when it is read once more: a literal of one node stands in brackets the first
time), and to have the page of the program that it was printed of, where that is run for its page. Excused are programs
that have what no source can write: a folder, at whose place the text has to be refused, and those that are named
below, alone or by their file, and have to be refused by the line that stands there.

usage: again.py PROGRAM FOLDER      the last line is `N programs read again, M not`
"""
import glob
import os
import re
import subprocess
import sys
import tempfile

from programs import shown, whole

TOKEN = re.compile(r'"(?:[^"\\]|\\.)*"|\n|[^\s"]+')
HEAD = "module Main\n"
FOLDER = re.compile(r"\bfolder \[ (?:\w+ )?$")
# Programs that no source can write, but for those with a folder, and the line that refuses what is printed of them.
UNWRITTEN = {
    # inference wrote names of the basis that the module hides
    "sugar means the basis, whatever a module declares": "Mismatch wanted t :: Type -> ( ) found int -> int -> int",
    "names of one's own don't change what a literal means":
        "Mismatch wanted t :: Type -> ( ) found string -> xml [ Body ] [ ] [ ]",
    "an instance by its place is one of the basis still": "Mismatch wanted show int found int",
    # a type is written whose name an inner parameter hides
    "a type that an inner parameter of its name hides is kept apart": "Mismatch wanted t found t",
    # a chain is printed as calls in one another
    "a sum of 1,000 numbers": "TooDeep",
    "1,000 texts that are put together": "TooDeep",
}
# Files of programs that no source may be able to write, and the line that refuses what is printed of them.
UNWRITTEN_FILES = {
    # a text may be printed deeper or longer than a source may be
    "deep.whole": re.compile(r"main\.ur(:\d+: TooDeep|: FileTooLong)\n"),
    # inference writes names of the basis that the programs hide
    "hidden_basis.shown": re.compile(r"main\.ur:\d+: Mismatch wanted (t :: Type -> \( \)|show int) found .*\n"),
}


def as_source(text):
    """The tokens as a source: in a literal of markup with no blanks between them."""
    inside, out, joins = ["term"], "", True
    for found in TOKEN.finditer(text):
        token = found[0]
        if token == "\n":
            out, joins = out + token, True
            continue
        out += token if joins else f" {token}"
        if token == "{" or inside[-1] == "term" and token == "}":
            inside = [*inside, "term"] if token == "{" else inside[:-1]
        elif inside[-1] == "term" and token == "<xml>":
            inside.append("nodes")
        elif inside[-1] == "nodes" and token.startswith("</") or inside[-1] == "tag" and token == "/>":
            inside.pop()
        elif inside[-1] == "nodes" and token.startswith("<"):
            inside.append("tag")
        elif inside[-1] == "tag" and token == ">":
            inside[-1] = "nodes"
        joins = inside[-1] == "nodes"
    return out


def explicit(program, text):
    """What `explicit` prints of a module, or None where it refuses it, and the line that it writes then."""
    with tempfile.TemporaryDirectory() as room:
        with open(f"{room}/site.urp", "w", encoding="utf-8") as it:
            it.write("\nmain\n")
        with open(f"{room}/main.ur", "w", encoding="utf-8", newline="") as it:
            it.write(text)
        ran = subprocess.run([program, "explicit", room], capture_output=True, timeout=60)
    wrote = ran.stdout.decode("utf-8", "replace")
    return (wrote.removeprefix(HEAD), "") if ran.returncode == 0 else (None, wrote)


def page(program, text):
    ran = subprocess.run([program, "page"], input=text.encode(), capture_output=True, timeout=60)
    return ran.returncode, ran.stdout


def is_unwritten(where, source, line):
    """Whether a source can't say what is printed: the program that it is refused by this line is known, or it is refused at
    a folder."""
    path, _, name = where.rpartition(": ") if ": " in where else where.partition(":")
    file = os.path.basename(path)
    if file in UNWRITTEN_FILES and UNWRITTEN_FILES[file].fullmatch(line):
        return True
    found = re.fullmatch(r"main\.ur:(\d+): (.*)\n", line)
    if not found:
        return False
    before = source.encode()[:int(found[1])].decode("utf-8", "replace")
    return UNWRITTEN.get(name) == found[2] or found[2] == "Syntax" and bool(FOLDER.search(before))


def without_brackets(text):
    return [it for it in TOKEN.findall(text) if it not in "()"]


def prints_as(program, first, second):
    """Whether what is printed of a text that was printed is that text: at the latest when it is read once more, and but for
    brackets at once."""
    if second == first:
        return True
    return without_brackets(second) == without_brackets(first) and explicit(program, as_source(second))[0] == second


def fault(program, it):
    """What differs when a program is printed and read again; None where nothing does, "" where no source can write it."""
    first, _ = explicit(program, it.text)
    if first is None:
        return "isn't accepted"
    source = as_source(first)
    second, line = explicit(program, source)
    if second is None:
        return "" if is_unwritten(it.where, source, line) else f"{line!r} refuses {source[:300]!r}"
    if not prints_as(program, first, second):
        return f"prints as {second[:300]!r} in place of {first[:300]!r}"
    if it.command == "page" and page(program, source) != page(program, it.text):
        return f"another page of {source[:300]!r}"
    return None


def main(program, folder):
    program, done, failed, left = os.path.abspath(program), 0, 0, 0
    for path in sorted(glob.glob(f"{folder}/*")):
        read = shown if path.endswith(".shown") else whole if path.endswith(".whole") else None
        for it in read(path) if read else ():
            if it.status or it.may_lack_memory:
                continue
            found = fault(program, it)
            done, failed, left = done + (found is None), failed + bool(found), left + (found == "")
            if found:
                print(f"program {it.where}: {found}")
    print(f"{left} programs can't be written as a source, as is known of them")
    print(f"{done} programs read again, {failed or int(not done)} not")
    return 1 if failed or not done else 0


if __name__ == "__main__":
    sys.exit(main(*sys.argv[1:]))
