#!/usr/bin/env python3
"""Runs each module of a document through the built program: a block fenced as ```ur must be accepted by `check`.

A block with a table, a sequence, a cookie or a form of SQL must be read, page or not: it has a page, or is refused for
another reason than those of the lexer and the parser."""
import os
import re
import subprocess
import sys
import tempfile

UNBUILT = re.compile(r"^(table|sequence|cookie) |\((SELECT|INSERT|UPDATE|DELETE|WHERE) ", re.MULTILINE)
UNREAD = re.compile(rb"Main\.ur(:\d+)?: (FileTooLong|NotUtf8|BadChar|OpenText|OpenComment|IntTooLarge|Syntax|TooDeep)\n")


def modules_of(path):
    with open(path, encoding="utf-8") as it:
        return re.findall(r"^```ur\n(.*?)^```$", it.read(), re.MULTILINE | re.DOTALL)


def is_accepted(program, text):
    """Whether `check` accepts the project of this one module, and what the program wrote."""
    with tempfile.TemporaryDirectory() as folder:
        for name, holds in (("site.urp", "\nmain\n"), ("main.ur", text)):
            with open(f"{folder}/{name}", "w", encoding="utf-8") as it:
                it.write(holds)
        ran = subprocess.run([program, "check", folder], capture_output=True, timeout=60)
    return ran.returncode == 0 and ran.stdout == b"accepted\n", ran.stdout + ran.stderr


def is_read(program, text):
    """Whether the module is read, page or not, and what the program wrote."""
    ran = subprocess.run([program, "page"], input=text.encode("utf-8"), capture_output=True, timeout=60)
    return ran.returncode in (0, 1) and not UNREAD.fullmatch(ran.stdout), ran.stdout


def main(program, path):
    program, modules, failed = os.path.abspath(program), modules_of(path), 0
    for number, text in enumerate(modules, 1):
        holds, wrote = (is_read if UNBUILT.search(text) else is_accepted)(program, text)
        if not holds:
            failed += 1
            print(f"block {number} of {path}: {wrote!r}")
    if not modules:
        failed = 1
        print(f"no module stands in {path}")
    print(f"{len(modules) - min(failed, len(modules))} blocks read, {failed} not")
    return 1 if failed else 0


if __name__ == "__main__":
    sys.exit(main(*sys.argv[1:]))
