#!/usr/bin/env python3
"""Runs programs that are written down with what they must give, through the built program.

A file `*.shown` has a line for each program, `TERM ==> ANSWER`: the module's page shows the term. A line that begins
with `+` has the declarations before that page in the programs behind it. In a file `*.whole` a program is a module
between a line `=== NAME` and a line `--- ANSWER`. An answer is
    = TEXT      the page whose body holds this markup
    ~ TEXT      this output, status 0
    ! LINE      this line, status 1
    @ LINE      as `!`, where a place in the line counts from the first byte of the term of a `.shown` line
    5           nothing, status 5: there is not enough memory, and that is told within 20 seconds
With a `?` behind the mark, as in `=? TEXT`, memory may run out in its place: nothing is written, and the status is 5.
A word in brackets behind the name tells the command: `[check]` and `[explicit]` run over a folder with the module as
`main.ur`, and `\\n` in the answer is then a line feed. `[page, 5 s]` also tells within how many seconds it has to end,
where a cost that doubles with each level would take for ever; others have 60. In a file `*.whole` `20 TEXT` in
backquotes stands for TEXT 20 times, on one line or on many, and a `?` in TEXT for the number of each, from 0. The
answers are written from the rules of the language, never from the program.
"""
import glob
import os
import re
import subprocess
import sys
import tempfile

BEFORE = "fun main () : transaction page = return <xml><body>{["
BEHIND = "]}</body></xml>"


class Program:
    """A program and what it must give."""

    def __init__(self, where, text, answer, command="page", offset=0, seconds=0):
        self.where, self.text, self.command = where, text, command
        mark, _, rest = answer.partition(" ")
        rest = rest.replace("\\n", "\n")
        self.may_lack_memory, mark = mark[1:] == "?", mark.removesuffix("?")
        if mark not in ("=", "~", "!", "@", "5"):
            raise ValueError(f"{where}: no answer: {answer}")
        self.status = 5 if mark == "5" else 0 if mark in "=~" else 1
        self.seconds = seconds or (20 if mark == "5" else 60)
        if mark == "5":
            self.wanted = ""
        elif mark == "=":
            self.wanted = f"<!DOCTYPE html><html><body>{rest}</body></html>"
        elif mark == "~":
            self.wanted = rest
        elif mark == "!":
            self.wanted = f"{rest}\n"
        else:
            self.wanted = re.sub(r":(\d+):", lambda it: f":{int(it[1]) + offset}:", rest, count=1) + "\n"

    def fault(self, program):
        """What differs, or None."""
        with tempfile.TemporaryDirectory() as room:
            words, given = [program, self.command], self.text.encode()
            if self.command != "page":
                folder = f"{room}/site"
                os.mkdir(folder)
                with open(f"{folder}/site.urp", "w", encoding="utf-8") as it:
                    it.write("\nmain\n")
                with open(f"{folder}/main.ur", "wb") as it:
                    it.write(given)
                words, given = [*words, folder], b""
            ran = subprocess.run(words, input=given, capture_output=True, timeout=self.seconds)
        wrote = ran.stdout.decode("utf-8", "replace")
        wrote = re.sub(r"^main\.ur:", "Main.ur:", wrote) if self.command != "page" else wrote
        lacks_memory = self.may_lack_memory and ran.returncode == 5 and not wrote
        if not lacks_memory and (ran.returncode != self.status or wrote != self.wanted):
            return f"status {ran.returncode}, wrote {wrote[:400]!r} in place of {self.wanted[:400]!r}"
        if bool(ran.stderr) != bool(ran.returncode):
            return f"told {ran.stderr[:200]!r}"
        return None


def shown(path):
    """The programs of a file of terms."""
    front = BEFORE
    with open(path, encoding="utf-8") as it:
        for number, line in enumerate(it, 1):
            line = line.rstrip("\n")
            if line.startswith("+"):
                front = f"{line[1:].strip()}\n{BEFORE}"
            elif line and not line.startswith("#"):
                term, _, answer = line.rpartition(" ==> ")
                yield Program(f"{path}:{number}", front + term + BEHIND, answer, offset=len(front))


def spread(text):
    """The text with each `N TEXT` in it written out."""
    return re.sub(r"`(\d+) ([^`]*)`", lambda it: "".join(it[2].replace("?", str(i)) for i in range(int(it[1]))), text)


def whole(path):
    """The programs of a file of modules."""
    name, command, seconds, lines = None, "page", 0, []
    with open(path, encoding="utf-8") as it:
        for line in it:
            if line.startswith("=== "):
                found = re.match(r"=== (.*?)(?: \[(\w+)(?:, (\d+) s)?\])?$", line.rstrip("\n"))
                name, command, seconds, lines = found[1], found[2] or "page", int(found[3] or 0), []
            elif line.startswith("--- ") and name:
                text = spread("".join(lines).removesuffix("\n"))
                yield Program(f"{path}: {name}", text, spread(line[4:].rstrip("\n")), command, seconds=seconds)
                name = None
            elif name:
                lines.append(line)


def main(program, folder):
    """Runs each program, and tells which fail."""
    program = os.path.abspath(program)
    done, failed = 0, 0
    for path in sorted(glob.glob(f"{folder}/*")):
        read = shown if path.endswith(".shown") else whole if path.endswith(".whole") else None
        for it in read(path) if read else ():
            done += 1
            try:
                fault = it.fault(program)
            except (OSError, subprocess.SubprocessError) as why:
                fault = str(why)
            if fault:
                failed += 1
                print(f"program {it.where}: {fault}")
    if not done:
        failed = 1
        print(f"no program stands in {folder}")
    print(f"{done - min(failed, done)} programs as written, {failed} not")
    return 1 if failed else 0


if __name__ == "__main__":
    sys.exit(main(*sys.argv[1:]))
