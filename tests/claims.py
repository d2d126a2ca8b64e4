#!/usr/bin/env python3
"""Holds docs/PROVED.md against the contracts, and README.md against the program.

A row of a table of docs/PROVED.md has a sentence, the clauses that say it (`crate.function.clause`, or `crate.function`
for a lone clause), and the premises: what the functions require, and what the clauses' own statements ask. Each clause
has to stand in the sources, and the premises have to be just those. README.md's commands are run in a folder of their own,
with `examples` and the modules that README.md shows: the lines of its blocks that begin with `$` have to write what
stands below them, and end with status 1 where that is a refusal's line and with 0 elsewhere; every other `./urweb ..`,
in a block or in a sentence, has to end with status 0.

    claims.py PROGRAM         checks, and ends with `N claims hold, M not`
    claims.py --premises CLAUSE ..      prints the premises of clauses, for a new row
"""
import os
import re
import shlex
import subprocess
import sys
import tempfile

from contracts import definitions_of, functions_of, key_of, premises_of

ROOT = os.path.dirname(os.path.dirname(os.path.abspath(__file__)))
NONE = "none"


class Contracts:
    """The contracts of the repository, each crate read once."""

    def __init__(self):
        self.read = {}

    def of(self, crate):
        if crate not in self.read:
            if not os.path.isdir(f"{ROOT}/crates/{crate}"):
                raise ValueError(f"there is no crate {crate}")
            self.read[crate] = (functions_of(ROOT, crate), definitions_of(ROOT, crate))
        return self.read[crate]

    def clause(self, path):
        """The premises of a clause, in order: of the function's `requires`, then of the statement."""
        crate, *names = path.split(".")
        functions, definitions = self.of(crate)
        for cut in (len(names), len(names) - 1):
            function = functions.get(".".join(names[:cut]))
            clause = "".join(names[cut:])
            if function and clause in function.of("ensures"):
                required = [name or key_of(term) for name, term in function.of("requires").items()]
                return required + premises_of(function.of("ensures")[clause], definitions, function.is_law)
        raise ValueError(f"no contract has the clause {path}")


def premises_of_all(contracts, paths):
    return list(dict.fromkeys(it for path in paths for it in contracts.clause(path)))


def rows_of(path):
    with open(path, encoding="utf-8") as it:
        for number, line in enumerate(it, 1):
            cells = [cell.strip() for cell in re.split(r"(?<!\\)\|", line.strip())[1:-1]]
            if len(cells) == 3 and cells[0] not in ("Sentence", "") and not set(cells[0]) <= {"-"}:
                yield number, cells


def faults_of_table(path):
    """How many rows there are, and what is wrong in which."""
    contracts, rows, faults = Contracts(), 0, []
    for number, (_, clauses, told) in rows_of(path):
        rows += 1
        try:
            found = premises_of_all(contracts, re.findall(r"`([^`]+)`", clauses))
        except ValueError as why:
            faults.append(f"line {number}: {why}")
            continue
        named = re.findall(r"`([^`]+)`", told) if told != NONE else []
        if not re.findall(r"`([^`]+)`", clauses):
            faults.append(f"line {number}: no clause is named")
        elif sorted(named) != sorted(found):
            faults.append(f"line {number}: the premises are {written(found)}, but the row has {told}")
    return rows, faults


def written(premises):
    return ", ".join(f"`{it}`" for it in premises) or NONE


# A refusal's line: the file and the byte where they are told, and the reason's name with what it keeps.
REFUSAL = re.compile(r"(\S+: )?[A-Z]\w*( .*)?\n")


def modules_of(text):
    """The modules that a document shows, each with its file's name."""
    for name, block in re.findall(r"into `(\w+\.ur)`:\n\n((?:    .*\n)+)", text):
        yield name, "".join(line[4:] + "\n" for line in block.splitlines())


def commands_of(text):
    """Each command of a document with what it has to write, both streams together, or None where that isn't shown."""
    for block, inline in re.findall(r"((?:^    .*\n)+)|`(\./urweb [^`]*)`", text, re.MULTILINE):
        if inline:
            yield " ".join(inline.split()), None
        lines = [line[4:] for line in block.splitlines()]
        starts = [i for i, line in enumerate(lines) if line.startswith("$ ")]
        for start, end in zip(starts, starts[1:] + [len(lines)]):
            yield lines[start][2:], "".join(line + "\n" for line in lines[start + 1:end])
        if not starts:
            yield from ((line, None) for line in lines if line.startswith("./urweb "))


def faults_of_commands(path, program):
    with open(path, encoding="utf-8") as it:
        text = it.read()
    commands, faults = 0, []
    with tempfile.TemporaryDirectory() as folder:
        os.symlink(f"{ROOT}/examples", f"{folder}/examples")
        for name, module in modules_of(text):
            with open(f"{folder}/{name}", "w", encoding="utf-8") as it:
                it.write(module)
        for command, want in commands_of(text):
            commands += 1
            ran = subprocess.run(["bash", "-c", command.replace("./urweb", shlex.quote(program))], cwd=folder, timeout=60,
                                 stdin=subprocess.DEVNULL, stdout=subprocess.PIPE, stderr=subprocess.STDOUT, text=True)
            status = 1 if want and REFUSAL.match(want) else 0
            if ran.returncode != status:
                faults.append(f"{command}: ended with status {ran.returncode} in place of {status}: {ran.stdout[:600]!r}")
            elif want is not None and ran.stdout != want:
                faults.append(f"{command}: wrote {ran.stdout!r} in place of {want!r}")
    return commands, faults


def main(program):
    table, README = f"{ROOT}/docs/PROVED.md", f"{ROOT}/README.md"
    rows, faults = faults_of_table(table)
    commands, others = faults_of_commands(README, os.path.abspath(program))
    for fault in faults:
        print(f"docs/PROVED.md, {fault}")
    for fault in others:
        print(f"README.md, {fault}")
    failed = len(faults) + len(others) + (0 if rows and commands else 1)
    print(f"{max(rows + commands - failed, 0)} claims hold, {failed} not")
    return 1 if failed else 0


if __name__ == "__main__":
    if sys.argv[1] == "--premises":
        print(written(premises_of_all(Contracts(), sys.argv[2:])))
    else:
        sys.exit(main(sys.argv[1]))
