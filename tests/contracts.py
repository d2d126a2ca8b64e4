"""Reads the contracts of a repository's crates: each function's clauses, and what each asks before it promises anything."""
import glob
import os
import re

OPENING, CLOSING = "({[⟦", ")}]⟧"
RELATIONS = ("≡", "≢", "≤", "<", "≤ℤ", "<ℤ", "↔", "⊎", "¬", "→")


TOKEN = {
    "//": re.compile(r"(?P<text>\"(?:[^\"\\]|\\.)*\"|'(?:[^'\\\n]|\\[^\n]{1,8}?)')|//[^\n]*", re.S),
    "--": re.compile(r"(?P<text>\"[^\"]*\")|--[^\n]*"),
}


def without_comments(text, mark):
    """The text with its comments blanked, and the brackets that stand in its literals, so that places stay."""
    def blanked(found):
        return re.sub(r"[(){}\[\]⟦⟧]", " ", found.group()) if found.group("text") else " " * len(found.group())
    return TOKEN[mark].sub(blanked, text)


def closing(text, at):
    """The place behind the bracket that closes the one at `at`."""
    depth = 0
    for i in range(at, len(text)):
        if text[i] in OPENING:
            depth += 1
        elif text[i] in CLOSING:
            depth -= 1
            if depth == 0:
                return i + 1
    raise ValueError(f"no bracket closes {text[at:at + 40]!r}")


def top_split(text, sign):
    """The parts of a term between the signs that stand in no bracket."""
    parts, depth, start, at = [], 0, 0, 0
    while at < len(text):
        if text[at] in OPENING:
            depth += 1
        elif text[at] in CLOSING:
            depth -= 1
        elif depth == 0 and text.startswith(sign, at) and not text.startswith(sign + "ℤ", at):
            parts.append(text[start:at])
            at += len(sign)
            start = at
            continue
        at += 1
    return [" ".join(it.split()) for it in parts + [text[start:]]]


class Function:
    """A function of a crate: its clauses as (kind, name, term); a lone clause has the name ''. A law has no parameter."""

    def __init__(self, name, is_law, clauses):
        self.name, self.is_law, self.clauses = name, is_law, clauses

    def of(self, kind):
        return {name: term for it, name, term in self.clauses if it == kind}


CLAUSE = re.compile(r"\s*(ghost|requires\*?|ensures\*?)\s*([A-Za-z_][A-Za-z_0-9]*)?\s*(:?)\s*\{")
HEADS = re.compile(
    r"^[ \t]*(?:pub(?:\([a-z]+\))?\s+)?"
    r"(?:impl\b|trait\s+(?P<trait>\w+)|(?:unsafe\s+|const\s+|final\s+)*fn\s+(?P<name>\w+))", re.M)


def owner_of(text):
    """The type's name in `impl<..> Type<..>` and in `impl<..> Trait for Type<..>`."""
    bare = re.sub(r"<[^<>]*>", "", re.sub(r"<[^<>]*>", "", text.split(" where ")[0]))
    if " for " in bare:
        return bare.split(" for ")[1].split()[0].strip("{ ")
    return bare.split()[0].strip("{ ") if bare.split() else ""


def functions_of_file(path):
    """Each function of a file, a method with its type's or trait's name before its own."""
    with open(path, encoding="utf-8") as it:
        text = without_comments(it.read(), "//")
    owners = []
    for found in HEADS.finditer(text):
        if found.group("name"):
            owner = next((name for name, start, end in reversed(owners) if start < found.start() < end), "")
            yield function_at(text, found.end(), f"{owner}.{found.group('name')}".lstrip("."))
            continue
        start = text.find("{", found.end())
        if start < 0:
            continue
        name = found.group("trait") or owner_of(text[found.end():start])
        owners.append((name, start, closing(text, start)))


def function_at(text, at, name):
    """The function whose parameters begin at the next parenthesis."""
    while text[at] != "(":
        at = closing_angle(text, at) if text[at] == "<" else at + 1
    opened, at = at, closing(text, at)
    is_law = not text[opened + 1:at - 1].strip()
    end = re.compile(r"\b(?:ghost|requires|ensures)\b|[{;]").search(text, at)
    at, clauses = end.start(), []
    while True:
        found = CLAUSE.match(text, at)
        if not found:
            break
        start = found.end() - 1
        at = closing(text, start)
        clauses.append((found.group(1).rstrip("*"), found.group(2) or "", " ".join(text[start + 1:at - 1].split())))
    return Function(name, is_law, clauses)


def closing_angle(text, at):
    """The place behind the `>` that closes the `<` at `at`."""
    depth = 0
    while True:
        if text[at] == "<":
            depth += 1
        elif text[at] == ">" and text[at - 1] != "-":
            depth -= 1
            if depth == 0:
                return at + 1
        at += 1


def functions_of(root, crate):
    """Each function of a crate by its name, as `top` or `Cell.take`. Of several with one name the first with a promise."""
    found = {}
    for path in sorted(glob.glob(f"{root}/crates/{crate}/src/**/*.rt", recursive=True)):
        for function in functions_of_file(path):
            if function.name not in found or not found[function.name].of("ensures"):
                found[function.name] = function
    return found


def definitions_of(root, crate):
    """The definitions of a crate's specs that have a name in capitals and one case: each with its term."""
    found = {}
    for path in sorted(glob.glob(f"{root}/crates/{crate}/specs/**/*.antt", recursive=True)):
        with open(path, encoding="utf-8") as it:
            text = without_comments(it.read(), "--")
        for it in re.finditer(r"^( *)([A-Z][\w'-]*)(?: [^\n=]*)? =(.*(?:\n\1 +.*|\n *\n(?=\1 ))*)", text, re.M):
            found.setdefault(it.group(2), " ".join(it.group(3).split()))
    return found


def premises_of(term, definitions, is_law=False):
    """What a statement asks: the facts before its arrows, but those on the result. A law's name stands for what it defines."""
    parts = top_split(term, "→")
    if len(parts) == 1 and is_law:
        inner = re.search(r"\(λ [\w' ]+\. (.*→.*)\)$", term)
        if inner:
            return premises_of(inner.group(1), definitions, True)
        asked, rest = [], dict(definitions)
        for name in re.findall(r"[A-Z][\w'-]*", term):
            if name in rest:
                body = rest.pop(name)
                asked += premises_of(body, rest, True)
        return asked
    asked = []
    for part in parts[:-1]:
        for fact in top_split(without_binders(part), "×"):
            if fact and not re.search(r"\bresult\b", fact) and not is_binder(fact):
                asked.append(key_of(fact))
    return asked + (premises_of(parts[-1], definitions, True) if is_law and len(parts) > 1 and "→" in parts[-1] else [])


def is_binder(text):
    """Whether this is `(x y : T)` or `{x : T}`, which asks nothing."""
    return text[:1] in "({" and closing(text, 0) == len(text) and re.match(r".[^():{}]* : ", text) is not None


def without_binders(text):
    """A part of a statement behind the binders that it begins with."""
    text = text.strip()
    while text[:1] in ("(", "{") and closing(text, 0) < len(text) and is_binder(text[:closing(text, 0)]):
        text = text[closing(text, 0):].strip()
    return text


def key_of(fact):
    """The name of a fact that is one word with arguments, else the fact."""
    fact = fact.strip()
    while fact.startswith("(") and closing(fact, 0) == len(fact):
        fact = fact[1:-1].strip()
    plain = [sign for sign in RELATIONS if len(top_split(fact, f" {sign} ")) > 1]
    head = fact.split(" ")[0]
    return head if not plain and re.fullmatch(r"[A-Z][\w'-]*", head) else fact
