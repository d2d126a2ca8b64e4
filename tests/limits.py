#!/usr/bin/env python3
"""Holds the limits of a project and its files from both sides, through the built program.

A case has the files of a folder `p`, which is made for it, and what `check p` has to write: a project of so many tables
or modules, or with a file of so many bytes, and the same with one more. `page` and `explicit` are tried where they have
such a limit too. The last line is `N limits kept, M not`.
"""
import os
import subprocess
import sys
import tempfile

LONGEST, MOST = 4_194_304, 1_000
ACCEPTED = "accepted\n"
ONE_MODULE = {"p.urp": "\nmain\n", "main.ur": "val x = 1\n"}


def tables(first, count):
    return "".join(f"table t{i} : {{A : int}}\n" for i in range(first, first + count))


def filled(front, length, back, sign="a"):
    """A text of so many bytes with this front and back, and one sign again and again between them."""
    times, rest = divmod(length - len((front + back).encode()), len(sign.encode()))
    return front + "a" * rest + sign * times + back


def listing(count, front=""):
    return front + "\n" + "".join(f"m{i}\n" for i in range(count))


def modules(count):
    """A module for each name of the listing; each but the first counts on from the one before it."""
    return {f"m{i}.ur": f"val x : int = M{i - 1}.x + 1\n" if i else "val x : int = 0\n" for i in range(count)}


def project_of(**changed):
    """The project of one module with these texts for its project file, its module or its interface."""
    names = {"listing": "p.urp", "module": "main.ur", "interface": "main.urs"}
    return {**ONE_MODULE, **{names[key]: text for key, text in changed.items()}}


def lines_of_tables():
    """Each case: its name, the project file, how many tables each module declares, and the line that is told."""
    many, three, alone = MOST + 1, "\na\nb\nmain\n", {"main": MOST + 1}
    directives = {"debug": 600, "sql": many, "main": 0}
    alike = {"mai": 0, "mainn": 0, "main": many, "ma": 0}
    return (
        ("the second of three modules", three, {"a": 0, "b": many, "main": 0}, 3),
        ("the first of three", three, {"a": many, "b": many, "main": 1}, 2),
        ("the second goes beyond", three, {"a": 600, "b": 401, "main": many}, 3),
        ("one table more", three, {"a": MOST, "b": 1, "main": 1}, 3),
        ("a module without tables between", three, {"a": MOST, "b": 0, "main": 1}, 4),
        ("comments", "# one\n#main\n\n# two\n#main\nmain\n# three\n", alone, 6),
        ("empty lines", "\n\n\nmain\n\n\n", alone, 4),
        ("directives", "database main\nallow url main\ndebug\n\nmain\n", alone, 5),
        ("modules that are called as directives", "debug\nsql\n\ndebug\nsql\nmain\n", directives, 5),
        ("carriage returns", "# one\r\nsql main\r\n\r\n\r\na\r\nmain\r\n", {"a": 1, "main": MOST}, 6),
        ("carriage returns at some lines", "sql\n\r\na\nmain\r\n", {"a": 1, "main": MOST}, 4),
        ("no end of the last line", "\na\nmain", {"a": 1, "main": MOST}, 3),
        ("names that begin alike", "\nmai\nmainn\nmain\nma\n", alike, 4),
    )


def of_tables():
    """Tables aren't built yet: where they are few enough, the first one is told."""
    for count, line in ((MOST, "main.ur:0: NotBuilt\n"), (MOST + 1, "p.urp:2: BadProject\n")):
        yield f"{count} tables", project_of(module=tables(0, count)), line
        module = {"a.ur": tables(0, 600), "main.ur": tables(600, count - 600)}
        line = line.replace("main.ur:0", "a.ur:0").replace(":2:", ":4:")
        yield f"{count} tables in two modules", {"p.urp": "# tables\n\na\nmain\n", **module}, line
    for named, project, counts, line in lines_of_tables():
        files = {f"{name}.ur": tables(MOST * at, count) for at, (name, count) in enumerate(counts.items())}
        yield f"the line of too many tables: {named}", {"p.urp": project, **files}, f"p.urp:{line}: BadProject\n"
    yield f"{MOST} tables in the second of three modules", \
        {"p.urp": "\na\nb\nmain\n", "a.ur": "", "b.ur": tables(0, MOST), "main.ur": ""}, "b.ur:0: NotBuilt\n"
    yield "sequences aren't counted", project_of(module="".join(f"sequence s{i}\n" for i in range(MOST + 1))), \
        "main.ur:0: NotBuilt\n"


def of_modules():
    yield f"{MOST} modules", {"p.urp": listing(MOST), **modules(MOST)}, ACCEPTED
    yield f"{MOST + 1} modules", {"p.urp": listing(MOST + 1), **modules(MOST + 1)}, f"p.urp:{MOST + 2}: BadProject\n"
    # modules are counted before their files are looked for
    yield f"{MOST} modules without files", {"p.urp": listing(MOST)}, "m0.ur: MissingFile\n"
    yield f"{MOST + 1} modules without files", {"p.urp": listing(MOST + 1, "# one\n# two\n")}, \
        f"p.urp:{MOST + 4}: BadProject\n"


def of_bytes():
    """Each kind of file with as many bytes as it may have, and with one more."""
    kinds = (
        ("listing", "p.urp", "#", "\n\nmain\n", "a"),
        ("module", "main.ur", "val x = 1 (*", "*)\n", "a"),
        ("module", "main.ur", "val x = 1 (*", "*)", "é"),
        ("module", "main.ur", 'val x = "', '"', "a"),
        ("module", "main.ur", "", "val x = 1\n", "\n"),
        ("interface", "main.urs", "(*", "*) val x : int\n", "a"),
    )
    for kind, name, front, back, sign in kinds:
        for length, line in ((LONGEST, ACCEPTED), (LONGEST + 1, f"{name}: FileTooLong\n")):
            yield f"a {kind} of {length} bytes, {sign!r} before {back!r}", \
                project_of(**{kind: filled(front, length, back, sign)}), line
    # a file is measured before it is read
    yield "a listing that is too long and wrong", project_of(listing="a" * (LONGEST + 1)), "p.urp: FileTooLong\n"
    yield "a listing of one long line", project_of(listing="a" * LONGEST), "p.urp:1: BadProject\n"


def runs():
    """Each case: its name, the program's words, its input, the files of `p`, and what it has to write."""
    for named, files, line in (*of_tables(), *of_modules(), *of_bytes()):
        yield named, ["check", "p"], "", files, line
    files = {"p.urp": "\na\nmain\n", "a.ur": tables(0, MOST), "main.ur": tables(0, 1)}
    yield "the program of too many tables", ["explicit", "p"], "", files, "p.urp:3: BadProject\n"
    for count, line in ((MOST, "Main.ur:0: NotBuilt\n"), (MOST + 1, "Main.ur:0: BadProject\n")):
        yield f"{count} tables in a module alone", ["page"], tables(0, count), {}, line
    program = "".join(f"module M{i}\nval x : int = " + (f"@@ plus [ int ] num_int M{i - 1} . x 1\n" if i else "0\n")
                      for i in range(MOST))
    yield f"the program of {MOST} modules", ["explicit", "p"], "", {"p.urp": listing(MOST), **modules(MOST)}, program


def fault_of(program, words, given, files, wanted):
    """What differs, or None."""
    with tempfile.TemporaryDirectory() as room:
        os.mkdir(f"{room}/p")
        for name, text in files.items():
            with open(f"{room}/p/{name}", "wb") as it:
                it.write(text.encode())
        ran = subprocess.run([program, *words], input=given.encode(), capture_output=True, timeout=60, cwd=room)
    status = 0 if wanted == ACCEPTED or wanted.startswith("module ") else 1
    if ran.returncode != status or ran.stdout != wanted.encode():
        return f"status {ran.returncode}, wrote {ran.stdout[:200]!r} in place of {wanted[:200]!r}"
    return None if bool(ran.stderr) == bool(status) else f"told {ran.stderr[:200]!r}"


def main(program):
    program, done, failed = os.path.abspath(program), 0, 0
    for named, words, given, files, wanted in runs():
        done += 1
        try:
            fault = fault_of(program, words, given, files, wanted)
        except (OSError, subprocess.SubprocessError) as why:
            fault = str(why)
        if fault:
            failed += 1
            print(f"limit {named}: {fault}")
    print(f"{done - failed} limits kept, {failed} not")
    return 1 if failed else 0


if __name__ == "__main__":
    sys.exit(main(*sys.argv[1:]))
