#!/usr/bin/env python3
"""Makes a copy of some crates over stand-ins for all below them, so that they can be checked in minutes.

usage: tests/standins.py FOLDER NAME..

FOLDER then holds the named crates as they are, and a stand-in for each crate below them: its types, its specs/ whole, and those
of its public functions that the named crates' sources name, with their contracts word for word. The body of each is
`match stub::given() {}`, where that call gives what isn't, by a foreign function that promises `⊥`. So a check of a named crate there proves its own
functions over the contracts below, and nothing else; it isn't the gate, and no library of it may be used elsewhere.

    tests/standins.py /tmp/over site_build page_server
    cd /tmp/over/crates/page_server && RT_ALLOW_C=1 rt check

builds the stand-ins first, which takes 10 to 40 seconds each. Proofs of the named crates that cite lemmas of the crates
below (`Rattle.NAME.proofs`) aren't found there: stand-ins have no proofs/.
"""
import os
import re
import shutil
import subprocess
import sys

TOP = os.path.dirname(os.path.dirname(os.path.abspath(__file__)))
STUB = '''//! What gives what isn't, by a foreign function that promises it.
#![tactic(auto)]

unsafe extern "C" {
    safe fn never()
        ensures { ⊥ };
}

/// Nothing is of this type.
#[derive(Clone, Copy)]
pub enum Nothing {}

/// What isn't.
pub fn given() -> Nothing
    ensures { ⊥ }
{
    never();
    let none: Option<Nothing> = None;
    none.unwrap()
}
'''
FUNCTION = re.compile(r"(?:pub(?:\([a-z]+\))?\s+)?(?:const\s+)?(?:unsafe\s+)?fn\s+(\w+)")
FUNCTIONS = re.compile(r"^([ \t]*)((?:(?:///[^\n]*|#\[[^\n]*\])[ \t]*\n[ \t]*)*)(?=" + FUNCTION.pattern.replace("(\\w+)", "\\w") + ")", re.M)
CLAUSE = re.compile(r"\s*(?:requires|ensures|ghost)\b\*?\s*(?:\w+\s*)?(?::\s*)?\{")
GONE = ("#[cycle", "#[inline", "#[tactic")
ALWAYS_MODULES = {"fmt", "mem"}


def behind(text, at, opens, closes):
    """The place behind the bracket that closes the one at a place. Strings, characters and comments don't count."""
    depth = 0
    while True:
        skipped = re.compile(r'"(?:[^"\\]|\\.)*"|//[^\n]*|\'(?:\\[^\']*|[^\'\\])\'', re.S).match(text, at)
        if skipped:
            at = skipped.end()
            continue
        depth += (text[at] == opens) - (text[at] == closes)
        at += 1
        if depth == 0:
            return at


def body_of(text, at):
    """Where the body of the function at a place begins, and where it ends; a `;` stands for a body that isn't there."""
    at = FUNCTION.match(text, at).end()
    while text[at] != "(":
        at += 1
    at = behind(text, at, "(", ")")
    while True:
        clause = CLAUSE.match(text, at) or re.compile(r"\s*by\s*\{").match(text, at)
        comment = re.compile(r"\s*//[^\n]*").match(text, at)
        if clause:
            at = behind(text, clause.end() - 1, "{", "}")
        elif comment:
            at = comment.end()
        elif text[at] in "([":
            at = behind(text, at, text[at], ")" if text[at] == "(" else "]")
        elif text[at] == "{":
            return at, behind(text, at, "{", "}")
        elif text[at] == ";":
            return at, at + 1
        else:
            at += 1


def is_of_trait(text, at):
    """Whether what stands at a place is in a trait, or in the impl of one."""
    for block in re.finditer(r"^(?:pub(?:\([a-z]+\))?\s+)?(?:unsafe\s+)?(impl|trait)\b([^{;]*)\{", text[:at], re.M):
        if behind(text, block.end() - 1, "{", "}") > at:
            return block[1] == "trait" or re.search(r"\bfor\b", block[2]) is not None
    return False


def without_bodies(text, words):
    """The text with the functions that are named, and those of traits, and no body of its own in them."""
    made, at = [], 0
    for found in iter(lambda: FUNCTIONS.search(text, at), None):
        made.append(text[at:found.start()])
        begins = found.end()
        body, at = body_of(text, begins)
        name = FUNCTION.match(text, begins)[1]
        if text[body] == ";" or re.match(r"(pub(\([a-z]+\))?\s+)?const\s", text[begins:]):
            made.append(text[found.start():at])
        elif is_of_trait(text, found.start()) or (text.startswith("pub ", begins) and name in words):
            kept = [it for it in re.findall(r"#\[[^\n]*\][ \t]*\n[ \t]*", found[2]) if not it.startswith(GONE)]
            made.append(found[1] + "".join(kept) + text[begins:body] + "{ match stub::given() {} }")
    text = "".join(made) + text[at:]
    return re.sub(r"(?m)^impl(<[^{;]*>)?\s+[A-Z]\w*(<[^{;]*>)?\s*\{\s*\}\n", "", text)


def with_derived_drops(text):
    """The text with each `Drop` that it writes by hand derived."""
    for found in iter(lambda: re.search(r"(?m)^impl(?:<[^{;]*>)?\s+Drop\s+for\s+(\w+)[^{]*\{", text), None):
        text = text[:found.start()] + text[behind(text, found.end() - 1, "{", "}"):]
        text = re.sub(r"(?m)^((?:pub(?:\([a-z]+\))?\s+)?(?:enum|struct)\s+" + found[1] + r"\b)", r"#[derive(Drop)]\n\1", text, count=1)
    return text


def items_of(group):
    """The items of a group in braces."""
    found, depth = [""], 0
    for letter in group:
        depth += (letter == "{") - (letter == "}")
        if letter == "," and depth == 0:
            found.append("")
        else:
            found[-1] += letter
    return [it.strip() for it in found if it.strip()]


def with_fewer_uses(text, crate, crates, words):
    """The text without the imports of functions that no stand-in has."""
    def stays(path, is_public):
        *inside, name = [it.strip() for it in path.split(" as ")[0].split("::")]
        if name in ("self", "*") or name[:1].isupper() or name.startswith("{") or re.search(rf"\b{name}!", text):
            return True
        owner = crate if inside and inside[0] in ("crate", "self", "super") else (inside or [name])[0]
        if owner in crates:
            module = "/".join([f"{TOP}/crates/{owner}/src", *inside[1:], name])
            return not inside or os.path.exists(module) or os.path.exists(module + ".rt") or (is_public and name in words)
        return name in ALWAYS_MODULES or not inside or (is_public and name in words)

    def shorter(found):
        is_public, path = "pub" in found[1], found[2]
        group = re.match(r"(?s)(.*?)(?:::)?\{(.*)\}$", path)
        if not group:
            return found[0] if "::" not in path or stays(path, is_public) else ""
        front = group[1] + "::" if group[1] else ""
        kept = [it for it in items_of(group[2]) if stays(front + it, is_public)]
        return f"{found[1]}{front}{{{', '.join(kept)}}};" if kept else ""

    return re.sub(r"(?ms)^((?:pub(?:\([a-z]+\))?\s+)?use\s+)([^;]*);", shorter, text)


def crates_of(lines):
    """The lines of crates.txt: name, options, libraries."""
    found = (re.match(r"\s*(\w+)([^:#]*):([^#\n]*)", it) for it in lines)
    return {it[1]: (it[2].strip(), it[3].split()) for it in found if it}


def main(folder, *names):
    with open(f"{TOP}/crates.txt", encoding="utf-8") as lines:
        crates = crates_of(lines)
    needed, more = set(), set(names)
    while more:
        needed |= more
        more = {it for name in needed for it in crates[name][1] if it in crates} - needed
    sources = ""
    for name in names:
        for at, _, files in os.walk(f"{TOP}/crates/{name}/src"):
            sources += "".join(open(f"{at}/{it}", encoding="utf-8").read() for it in files)
    words = set(re.findall(r"[a-z_][a-z0-9_]*", sources))
    for name in needed:
        to = f"{folder}/crates/{name}"
        for part in ("src", "specs", *["proofs"] * (name in names)):
            shutil.rmtree(f"{to}/{part}", ignore_errors=True)
            if os.path.isdir(f"{TOP}/crates/{name}/{part}"):
                shutil.copytree(f"{TOP}/crates/{name}/{part}", f"{to}/{part}")
        for at, _, files in os.walk(f"{to}/src") if name not in names else ():
            for file in files:
                with open(f"{at}/{file}", encoding="utf-8") as source:
                    text = source.read()
                text = with_fewer_uses(without_bodies(with_derived_drops(text), words), name, crates, words)
                with open(f"{at}/{file}", "w", encoding="utf-8") as made:
                    made.write(text)
    for part, file, text in (("src", "lib.rt", STUB), ("c", "stub.c", "void never(void) {}\n")):
        os.makedirs(f"{folder}/crates/stub/{part}", exist_ok=True)
        with open(f"{folder}/crates/stub/{part}/{file}", "w", encoding="utf-8") as made:
            made.write(text)
    with open(f"{folder}/crates.txt", "w", encoding="utf-8") as made:
        made.write("stub:\n")
        for name, (options, libraries) in crates.items():
            if name in needed:
                print(f"{name} {options}".strip() + ":", *libraries, *["stub"] * (name not in names), file=made)
    shutil.copyfile(f"{TOP}/HANDLES", f"{folder}/HANDLES")
    subprocess.run(["git", "init", "-q", folder], check=True)
    print(f"{len(names)} crates over {len(needed) - len(names)} stand-ins in {folder}")


if __name__ == "__main__":
    if len(sys.argv) < 3:
        sys.exit(__doc__)
    main(*sys.argv[1:])
