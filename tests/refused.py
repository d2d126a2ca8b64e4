#!/usr/bin/env python3
"""Shows that each text of a folder doesn't compile, and for the reason that it names.

A text is a file NAME.txt. Its first lines are `crate: NAME` (the crate that it is added to, in a copy) and `error: TEXT`
(what the check must say); the rest, after an empty line, is Rattle, which becomes a module of that crate.
The crate as it stands must pass, which the gate shows; so the text alone is what is refused.
"""
import os
import shutil
import subprocess
import sys
import tempfile


def parts_of(file):
    with open(file, encoding="utf-8") as it:
        head, text = it.read().split("\n\n", 1)
    fields = dict(line.split(": ", 1) for line in head.splitlines())
    return fields["crate"], fields["error"], text


def fault_of(root, file):
    """Why the text isn't refused as it should be, or None."""
    crate, error, text = parts_of(file)
    with tempfile.TemporaryDirectory() as copy:
        shutil.copytree(f"{root}/crates", f"{copy}/crates", symlinks=True, ignore=shutil.ignore_patterns("out"))
        for name in ("crates.txt", "HANDLES"):
            shutil.copy(f"{root}/{name}", copy)
        subprocess.run(["git", "init", "-q"], cwd=copy, check=True)
        home = f"{copy}/crates/{crate}"
        with open(f"{home}/src/refused_text.rt", "w", encoding="utf-8") as it:
            it.write(text)
        with open(f"{home}/src/lib.rt", "a", encoding="utf-8") as it:
            it.write("\npub mod refused_text;\n")
        ran = subprocess.run(["rt", "check", "--only", "refused_text"], cwd=home, capture_output=True, text=True, timeout=1200)
        said = ran.stdout + ran.stderr
    if ran.returncode == 0:
        return "it compiles"
    if error not in said:
        return f"it is refused, but not with `{error}`: {said[-600:]}"
    return None


def main(folder):
    root = os.path.dirname(os.path.dirname(os.path.abspath(__file__)))
    names = sorted(it for it in os.listdir(folder) if it.endswith(".txt")) if os.path.isdir(folder) else []
    failed = 0
    for name in names:
        fault = fault_of(root, f"{folder}/{name}")
        if fault:
            failed += 1
            print(f"text {name}: {fault}")
    print(f"{len(names) - failed} texts refused, {failed} not")
    return 1 if failed else 0


if __name__ == "__main__":
    sys.exit(main(*sys.argv[1:]))
