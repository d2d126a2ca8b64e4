"""Builds a program that is measured: a crate of bench/crates, proved over what the checkout has proved.

Such a crate is no part of the gate, which would take several minutes to prove and compile them all. Its files end in .txt,
since the gate wants every text in Rattle to be a crate's. `line.txt` beside them is its line of crates.txt: the libraries that it uses.

usage: build.py NAME     prints where the program stands
"""
import os
import shutil
import subprocess
import sys

TOP = os.path.dirname(os.path.dirname(os.path.abspath(__file__)))


def files_of(folder):
    """The files of a crate as they stand in bench/crates: their paths below its folder, without the .txt behind."""
    for at, _, names in os.walk(folder):
        for name in names:
            path = os.path.relpath(f"{at}/{name}", folder)
            if path != "line.txt":
                yield path.removesuffix(".txt")


def is_current(program, name):
    """Whether the program is younger than its texts and all that the crates are made of."""
    if not os.path.exists(program):
        return False
    made = os.path.getmtime(program)
    folders = [f"{TOP}/bench/crates/{name}"]
    for it in os.listdir(f"{TOP}/crates"):
        folders += [f"{TOP}/crates/{it}/{part}" for part in ("src", "specs", "proofs")]
    files = [f"{at}/{it}" for folder in folders for at, _, names in os.walk(folder) for it in names]
    return all(os.path.getmtime(it) <= made for it in files)


def built(name):
    """The program of this name, built where it isn't current: in a copy of the checkout by hard links, beside it."""
    room = f"{TOP}.bench"
    folder = f"{room}/crates/{name}"
    program = f"{folder}/out/{name}"
    if is_current(program, name):
        return program
    kept = f"{TOP}/bench/crates/{name}"
    shutil.rmtree(room, ignore_errors=True)
    subprocess.run(["cp", "-al", TOP, room], check=True)
    for path in files_of(kept):
        os.makedirs(os.path.dirname(f"{folder}/{path}"), exist_ok=True)
        shutil.copyfile(f"{kept}/{path}.txt", f"{folder}/{path}")
    with open(f"{TOP}/crates.txt", encoding="utf-8") as every, open(f"{kept}/line.txt", encoding="utf-8") as own:
        lines = every.read() + own.read()
    # (a new file, since the old one is the checkout's too)
    os.remove(f"{room}/crates.txt")
    with open(f"{room}/crates.txt", "w", encoding="utf-8") as it:
        it.write(lines)
    subprocess.run(["rt", "run"], cwd=folder, stdout=subprocess.DEVNULL, stdin=subprocess.DEVNULL, check=True)
    return program


if __name__ == "__main__":
    print(built(sys.argv[1]))
