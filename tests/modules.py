#!/usr/bin/env python3
"""Which functions of a crate the prover spends its time on.

usage: tests/modules.py NAME [COUNT]     behind `rt check --jobs 1` in crates/NAME, which then proves one module after another

A check leaves a file in crates/NAME/out for each module that it proved, and the time of a file less that of the one before is
what its module took, in seconds. A function has several modules: `Lts` and `Tie` are what the borrow checker needs of it, which
grows with its branches and with what it owns at them; `Proof` is what is proved of its contract. What an earlier check left
counts with the time between the two checks, so begin with an empty out/.
"""
import collections
import os
import sys

TOP = os.path.dirname(os.path.dirname(os.path.abspath(__file__)))


def modules_of(folder):
    """The modules that a check left, with the times at which they were proved, in their order."""
    found = []
    for at, _, names in os.walk(folder):
        found += [(os.stat(f"{at}/{it}").st_mtime, it.removesuffix(".oantt")) for it in names if it.endswith(".oantt")]
    return sorted(found)


def seconds_of(modules):
    """The seconds of each function or definition, and of each kind of module."""
    each, kinds = collections.Counter(), collections.Counter()
    for (before, _), (at, name) in zip(modules, modules[1:]):
        name = name.removesuffix(".decls")
        path, _, kind = name.rpartition(".")
        kind = kind.split("-")[0]
        each[path if kind in ("Lts", "Tie", "Proof", "Layout", "Code", "Mir", "Reads", "Kinds", "Answers") else name] += at - before
        kinds[kind] += at - before
    return each, kinds


def main(name, count="30"):
    each, kinds = seconds_of(modules_of(f"{TOP}/crates/{name}/out/incremental"))
    for title, found in [("function or definition", each.most_common(int(count))), ("kind of module", kinds.most_common(8))]:
        print(f"{'seconds':>9}  {title}")
        for it, seconds in found:
            print(f"{seconds:9.1f}  {it}")


if __name__ == "__main__":
    main(*sys.argv[1:])
