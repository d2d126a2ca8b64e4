#!/usr/bin/env python3
"""Runs the examples through the built program.

A module `NAME.ur` has to have the page of `tests/examples/NAME.html`, byte for byte. A folder `NAME` is a project:
`check` has to accept it, and `explicit` has to write as many lines as `tests/examples/NAME.txt` has, each of which
begins as the line there does. As a project of its own that text has to be accepted, and to print as itself, but for
brackets the first time. What stands in `tests/examples` is written from the rules of the language, never from the
program. The last line is `N examples as written, M not`.

usage: examples.py PROGRAM EXAMPLES WANTED
"""
import glob
import os
import re
import shutil
import subprocess
import sys
import tempfile

from again import as_source, without_brackets


class Fault(Exception):
    """What differs."""


def ran(program, words, given=b""):
    """What the program writes where it ends well."""
    done = subprocess.run([program, *words], input=given, capture_output=True, timeout=60)
    if done.returncode or done.stderr:
        raise Fault(f"{words[0]} ended with status {done.returncode}: {(done.stdout + done.stderr)[:300]!r}")
    return done.stdout.decode()


def text_of(path):
    with open(path, encoding="utf-8", newline="") as it:
        return it.read()


def run_page(program, path, kept):
    page, wanted = ran(program, ["page"], text_of(path).encode()), text_of(f"{kept}.html")
    if page != wanted:
        at = len(os.path.commonprefix([page, wanted]))
        raise Fault(f"from letter {at} it is {page[at:at + 100]!r} in place of {wanted[at:at + 100]!r}")


def printed_again(program, folder, text):
    """What `explicit` prints of the project with the modules of this text, and the other files of the folder."""
    with tempfile.TemporaryDirectory() as room:
        for path in glob.glob(f"{folder}/*.ur[ps]"):
            shutil.copy(path, room)
        for name, module in re.findall(r"^module (\w+)\n((?:(?!module ).*\n)*)", text, re.MULTILINE):
            with open(f"{room}/{name[0].lower()}{name[1:]}.ur", "w", encoding="utf-8") as it:
                it.write(as_source(module))
        return ran(program, ["explicit", room])


def run_project(program, folder, kept):
    if ran(program, ["check", folder]) != "accepted\n":
        raise Fault("check accepts it in other words")
    first, wanted = ran(program, ["explicit", folder]), text_of(f"{kept}.txt")
    lines, heads = first.splitlines(), wanted.splitlines()
    if len(lines) != len(heads):
        raise Fault(f"it has {len(lines)} lines in place of {len(heads)}")
    for line, head in zip(lines, heads):
        if not line.startswith(head):
            raise Fault(f"it has {line[:len(head) + 20]!r} in place of {head!r}")
    second = printed_again(program, folder, first)
    if without_brackets(second) != without_brackets(first) or printed_again(program, folder, second) != second:
        raise Fault("what is printed of it prints in another way")


def main(program, examples, wanted):
    program, done, failed = os.path.abspath(program), 0, 0
    for name in sorted(os.listdir(examples)):
        done += 1
        path, kept = f"{examples}/{name}", f"{wanted}/{name.removesuffix('.ur')}"
        try:
            (run_project if os.path.isdir(path) else run_page)(program, path, kept)
        except (Fault, OSError, subprocess.SubprocessError) as why:
            failed += 1
            print(f"example {path}: {why}")
    if not done:
        failed = 1
        print(f"no example stands in {examples}")
    print(f"{done - min(failed, done)} examples as written, {failed} not")
    return 1 if failed else 0


if __name__ == "__main__":
    sys.exit(main(*sys.argv[1:]))
