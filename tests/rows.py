#!/usr/bin/env python3
"""Runs each row of a folder through the built program, and compares what it writes and how it ends.

A row is a folder. `words` has the program's words, one a line, with `\\x..` for a byte. `input` and `output` are what it reads
and what it must write, byte for byte, and `errors` is what it must tell on standard error. In place of the first two may stand
`input.parts` or `output.parts`, for long texts: each line is a number and a JSON string, and the text is each string so many
times, one after the other. No file: nothing; but with no `errors` a status above 0 must tell something, and 0 nothing.
`status` is the exit status; no file: 0. With a file `input_fails` standard input is a folder, so that reading fails; with a
file `output_fails` standard output is a device that is full, so that writing fails. With a folder `data` the program runs in
a copy of it, in which a file `NAME.parts` is the file `NAME` that its parts stand for.
"""
import contextlib
import json
import os
import shutil
import subprocess
import sys
import tempfile


def parts_of(path):
    """The bytes that a file of parts stands for."""
    made = []
    with open(path, encoding="utf-8") as it:
        for line in it.read().splitlines():
            times, text = line.split(" ", 1)
            made.append(json.loads(text).encode("utf-8") * int(times))
    return b"".join(made)


def text_of(folder, name):
    """The bytes that the row's file, or its parts, stand for."""
    if os.path.isfile(f"{folder}/{name}"):
        with open(f"{folder}/{name}", "rb") as it:
            return it.read()
    if os.path.isfile(f"{folder}/{name}.parts"):
        return parts_of(f"{folder}/{name}.parts")
    return b""


def data_of(folder, opened):
    """The folder in which the program runs: a copy of the row's `data`, or None where it has none."""
    if not os.path.isdir(f"{folder}/data"):
        return None
    made = opened.enter_context(tempfile.TemporaryDirectory())
    shutil.copytree(f"{folder}/data", made, dirs_exist_ok=True)
    for at, _, names in os.walk(made):
        for name in names:
            if name.endswith(".parts"):
                with open(f"{at}/{name[:-len('.parts')]}", "wb") as it:
                    it.write(parts_of(f"{at}/{name}"))
                os.remove(f"{at}/{name}")
    return made


def words_of(folder):
    """The program's words, as bytes."""
    with open(f"{folder}/words", encoding="utf-8") as it:
        return [line.encode("utf-8").decode("unicode_escape").encode("latin-1") for line in it.read().splitlines()]


def errors_of(folder):
    """What standard error must tell, or None where the row doesn't say."""
    if not os.path.isfile(f"{folder}/errors"):
        return None
    with open(f"{folder}/errors", "rb") as it:
        return it.read()


def status_of(folder):
    """The exit status that is wanted."""
    if not os.path.isfile(f"{folder}/status"):
        return 0
    with open(f"{folder}/status", encoding="utf-8") as it:
        return int(it.read())


def fault_of(program, folder):
    """What differs, or None."""
    want = text_of(folder, "output")
    with contextlib.ExitStack() as opened:
        given = {"input": text_of(folder, "input")}
        if os.path.isfile(f"{folder}/input_fails"):
            given = {"stdin": os.open(folder, os.O_RDONLY)}
            opened.callback(os.close, given["stdin"])
        out = subprocess.PIPE
        if os.path.isfile(f"{folder}/output_fails"):
            out = opened.enter_context(open("/dev/full", "wb"))
        words = [os.path.abspath(program).encode(), *words_of(folder)]
        within = data_of(folder, opened)
        ran = subprocess.run(words, stdout=out, stderr=subprocess.PIPE, timeout=60, cwd=within, **given)
    wrote = ran.stdout or b""
    if ran.returncode != status_of(folder):
        return f"ended with status {ran.returncode} in place of {status_of(folder)}, and wrote {wrote[:300]!r}"
    if wrote != want:
        return f"wrote {wrote[:300]!r} ({len(wrote)} bytes) in place of {want[:300]!r} ({len(want)} bytes)"
    told = errors_of(folder)
    if (ran.stderr != told) if told is not None else (bool(ran.stderr) != bool(ran.returncode)):
        return f"told {ran.stderr[:300]!r} in place of {told!r}"
    return None


def main(program, folder):
    """Runs each row, and tells which fail."""
    names = sorted(it for it in os.listdir(folder) if os.path.isfile(f"{folder}/{it}/words"))
    failed = 0
    for name in names:
        try:
            fault = fault_of(program, f"{folder}/{name}")
        except (OSError, ValueError, subprocess.SubprocessError) as why:
            fault = str(why)
        if fault:
            failed += 1
            print(f"row {name}: {fault}")
    if not names:
        failed = 1
        print(f"no row stands in {folder}")
    print(f"{len(names) - min(failed, len(names))} rows passed, {failed} failed")
    return 1 if failed else 0


if __name__ == "__main__":
    sys.exit(main(*sys.argv[1:]))
