#!/usr/bin/env python3
"""Runs each example of docs/MESSAGES.md through the built program, and sees that each of its sentences has one.

A block ```ur is a module on the standard input of `page`; a block ```urp is the project file of a folder `shop`, in
which `main.ur` shows an empty page, and `check shop` is run. The block ```text behind either is what standard error
must tell, and the status must be 1. A module with no such block must be accepted by `check`. In a block ```console
each line that begins with `$ ` is run by bash, all of a block in one folder of their own, in which `urweb` and
`examples` stand. Behind each stands what it must tell. Its status must be 1 where it tells something and 0 where it
doesn't, or the number behind `$ echo $?`, where that follows it. All is compared to the byte, also the blanks at a
line's end.

The sentences are the literals of crates/told_places/src and crates/urweb/src/advice.rt that have a word and a blank,
and that nothing is compared with. Those within `said(.., &[..])` make one sentence, with a hole for each part that is
no literal, and a whole shown sentence has to fit it. Any other literal has to be a whole shown sentence or to fill
such a hole.

usage: messages.py PROGRAM DOCUMENT     the last line is `N messages told, M not`
"""
import glob
import os
import re
import subprocess
import sys
import tempfile

ROOT = os.path.dirname(os.path.dirname(os.path.abspath(__file__)))
EMPTY_PAGE = "fun main () : transaction page = return <xml><body/></xml>\n"
BLOCK = re.compile(r"^```(\w*)\n(.*?)^```$", re.MULTILINE | re.DOTALL)
SOURCES = ["crates/told_places/src/*.rt", "crates/urweb/src/advice.rt"]
# This file has what stands around every sentence: the file, the place, the line and the mark.
FRAME = "crates/told_places/src/telling.rt"
# The sentences that no example can show, each with the reason.
UNSHOWN = {
    "this is refused": "each refusal has a sentence of its own, and this stands for one that has none yet",
    "a project file may not have this line, or lacks one here: directives, an empty line, modules":
        "the file is read once more to tell its line, and this is told where it is gone by then",
}


class Example:
    """Commands over some files, each with what it must tell and its status. They read `given`."""

    def __init__(self, line, steps, files=(), given=""):
        self.line, self.steps, self.files, self.given = line, steps, files, given

    def answers(self, program):
        """What each command tells, and its status."""
        with tempfile.TemporaryDirectory() as folder:
            os.symlink(program, f"{folder}/urweb")
            os.symlink(f"{ROOT}/examples", f"{folder}/examples")
            for name, text in self.files:
                os.makedirs(os.path.dirname(f"{folder}/{name}"), exist_ok=True)
                with open(f"{folder}/{name}", "w", encoding="utf-8") as it:
                    it.write(text)
            for command, _, _ in self.steps:
                ran = subprocess.run(["bash", "-c", command], cwd=folder, input=self.given.encode(), timeout=60,
                                     stdout=subprocess.DEVNULL, stderr=subprocess.PIPE)
                yield ran.stderr.decode("utf-8", "replace"), ran.returncode

    def fault(self, program):
        """What differs, or None."""
        for (command, told, status), (found, ended) in zip(self.steps, self.answers(program)):
            if (found, ended) != (told, status):
                return f"{command}: ended with status {ended} and told {found!r}, in place of {status} and {told!r}"
        return None


def of_module(line, module, told):
    """The example of a module: what `page` tells of it, or that `check` accepts it."""
    if told is not None:
        return Example(line, [("./urweb page", told, 1)], given=module)
    return Example(line, [("./urweb check shop", "", 0)], [("shop/shop.urp", "\nmain\n"), ("shop/main.ur", module)])


def of_project(line, file, told):
    """The example of a project file."""
    if told is None:
        raise ValueError(f"line {line}: nothing shows what is told of this project")
    return Example(line, [("./urweb check shop", told, 1)], [("shop/shop.urp", file), ("shop/main.ur", EMPTY_PAGE)])


def of_console(line, block):
    """The example of commands."""
    before, *parts = re.split(r"^\$ (.*)\n", block, flags=re.MULTILINE)
    if before or not parts:
        raise ValueError(f"line {line}: a block of commands begins with one")
    steps = []
    for command, told in zip(parts[::2], parts[1::2]):
        if command == "echo $?" and steps:
            steps[-1] = (*steps[-1][:2], int(told))
        else:
            steps.append((command, told, 1 if told else 0))
    return Example(line, steps)


def examples_of(text):
    """The examples of a document, in order."""
    blocks = [(text.count("\n", 0, it.start()) + 1, it[1], it[2]) for it in BLOCK.finditer(text)]
    before = None
    for (line, kind, block), (_, behind, told) in zip(blocks, [*blocks[1:], (0, "", "")]):
        told = told if behind == "text" else None
        if kind == "ur":
            yield of_module(line, block, told)
        elif kind == "urp":
            yield of_project(line, block, told)
        elif kind == "console":
            yield of_console(line, block)
        elif kind != "text" or before not in ("ur", "urp"):
            raise ValueError(f"line {line}: this block is no example")
        before = kind


def sentences_of(examples):
    """The sentences that are shown: the lines that aren't indented, as they are and without the place before them."""
    lines = [line for it in examples for _, told, _ in it.steps for line in told.splitlines() if line[:2] != "  "]
    return {*lines, *(re.sub(r"^[^ :]+(:\d+:\d+)?: ", "", line) for line in lines)}


TOKEN = re.compile(r'//[^\n]*|\s+|b?"(?:[^"\\]|\\.)*"|\'(?:[^\'\\\n]|\\[^\n]{1,8}?)\'|\w+|=>|==|!=|.', re.DOTALL)
COMPARING = re.compile(r"(starts_with|ends_with|strip_prefix|strip_suffix|contains|r?split(_once)?|trim_\w+)\(")
ESCAPES = {"n": "\n", "r": "\r", "t": "\t", "0": "\0"}


def literal(token):
    """The text of a literal, or None where a token is none."""
    joined = re.sub(r"\\\n\s*", "", token)
    return re.sub(r"\\(.)", lambda it: ESCAPES.get(it[1], it[1]), joined[1:-1]) if token[0] == '"' else None


def is_said(tokens, at):
    """Whether a token is a literal with words, which is no pattern and isn't compared with anything."""
    text = literal(tokens[at])
    if not text or " " not in text or not re.search(r"[a-z]", text):
        return False
    before, behind = tokens[at - 1], tokens[at + 1]
    return behind not in ("=>", "|", "if", "==", "!=") and before not in ("==", "!=") \
        and not COMPARING.match(tokens[at - 2] + before)


def parts_from(tokens, at):
    """The parts of the list whose bracket opens at a place, None for a hole; and the place where it closes."""
    parts, part, depth = [], [], 0
    for place in range(at, len(tokens)):
        depth += (tokens[place] in "([{") - (tokens[place] in ")]}")
        if depth == 0 or depth == 1 and tokens[place] == ",":
            parts += [literal(part[0]) if len(part) == 1 else None] if part else []
            part = []
        elif place > at:
            part.append(tokens[place])
        if depth == 0:
            return parts, place
    raise ValueError("a bracket isn't closed")


def is_among(parts, sentences):
    """Whether a sentence of these parts is among others."""
    fitting = re.compile("".join(".*" if it is None else re.escape(it) for it in parts))
    return any(map(fitting.fullmatch, sentences))


class Sentences:
    """The sentences of sources: those of parts, the literals alone, and those alone that are added to some part."""

    def __init__(self, paths):
        self.whole, self.alone, self.added = [], [], []
        for path in paths:
            with open(path, encoding="utf-8") as it:
                self.read([it[0] for it in TOKEN.finditer(it.read()) if it[0].strip() and it[0][:2] != "//"])

    def read(self, tokens):
        listed = 0
        for at, token in enumerate(tokens):
            if token == "said" and tokens[at + 1] == "(" and tokens[at - 1] != "fn":
                parts, listed = parts_from(tokens, tokens.index("[", at))
                self.whole.append(parts)
            elif at > listed and is_said(tokens, at):
                (self.added if tokens[at - 2] == "push_str" else self.alone).append(literal(token).removesuffix("\n"))

    def fills_a_hole(self, text, shown):
        """Whether a shown sentence is one of parts, with this text in a hole."""
        having = [it for it in shown if text in it]
        return bool(having) and any(is_among([*parts[:at], text, *parts[at + 1:]], having)
                                    for parts in self.whole for at, it in enumerate(parts) if it is None)

    def unshown(self, shown):
        """What no shown sentence has."""
        yield from ("".join(it or ".." for it in parts) for parts in self.whole if not is_among(parts, shown))
        yield from (it for it in self.added if not any(it in line for line in shown))
        yield from (it for it in self.alone if it not in shown and not self.fills_a_hole(it, shown))


def faults_of(program, examples):
    for example in examples:
        try:
            fault = example.fault(program)
        except (OSError, subprocess.SubprocessError) as why:
            fault = str(why)
        if fault:
            yield f"line {example.line}: {fault}"


def main(program, path):
    with open(path, encoding="utf-8") as it:
        text = it.read()
    try:
        examples = list(examples_of(text))
    except ValueError as why:
        print(f"{path}, {why}")
        print("0 messages told, 1 not")
        return 1
    sources = sorted(it for pattern in SOURCES for it in glob.glob(f"{ROOT}/{pattern}"))
    unshown = list(Sentences(it for it in sources if not it.endswith(FRAME)).unshown(sentences_of(examples)))
    wrong = list(faults_of(os.path.abspath(program), examples))
    lacking = [f"no example shows: {it}" for it in unshown if it not in UNSHOWN]
    lacking += [f"this is shown, or isn't said any more: {it}" for it in UNSHOWN if it not in unshown]
    for fault in wrong + lacking:
        print(f"{path}, {fault}")
    print(f"{len(examples) - len(wrong)} messages told, {len(wrong + lacking)} not")
    return 1 if wrong + lacking else 0


if __name__ == "__main__":
    sys.exit(main(*sys.argv[1:]))
