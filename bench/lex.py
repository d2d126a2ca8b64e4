"""Lexing of ordinary source, beside cat and Python's html.escape over the same text in one run: see lex.sh."""
import os
import sys
import tempfile

sys.path.insert(0, os.path.dirname(os.path.abspath(__file__)))
from measure import CAT, EMPTY, ESCAPE, table

PROGRAM = sys.argv[1]
DECLARATIONS = '''(* The page of entry {n} of the guest book, with its links to the entries beside it. *)
table entries{n} : {{Id : int, Author : string, Words : string}} PRIMARY KEY Id

fun showEntry{n} (id : int) : transaction page =
    entry <- oneRow (SELECT entries{n}.Author, entries{n}.Words FROM entries{n} WHERE entries{n}.Id = {{[id]}});
    return <xml>
      <head><title>Entry {n} by {{[entry.Entries.Author]}}</title></head>
      <body>
        <h1 title="entry {n}">What {{[entry.Entries.Author]}} wrote</h1>
        <p>It was said on the first of May, &quot;and nobody&quot; answered &#8212; or so it seemed.</p>
        <p>{{[entry.Entries.Words]}}</p>
        <ul>
          <li><a link={{showEntry{n} (id - 1)}}>The one before</a></li>
          <li><a link={{showEntry{n} (id + 1)}}>The one after</a></li>
        </ul>
      </body>
    </xml>

val count{n} : int =
    if 3 * {n} <= 4711 && not ({n} = 12) then fold [fn t => int] (fn [nm :: Name] [t :: Type] [r] acc => 1 + acc) 0 else 42

'''


def source(size):
    """Ordinary source of exactly so many bytes: declarations, and spaces behind the last."""
    declarations, room, n = [], size, 0
    while True:
        text = DECLARATIONS.format(n=n)
        if len(text) > room:
            return "".join(declarations) + " " * room
        declarations.append(text)
        room -= len(text)
        n += 1


def main():
    for size in (1 << 20, 1 << 21, 1 << 22):
        with tempfile.NamedTemporaryFile("w") as it:
            it.write(source(size))
            it.flush()
            print(f"a module of {os.path.getsize(it.name)} bytes")
            table([("lex_bench", [PROGRAM, it.name]), ("cat", CAT), ("python, html.escape", ESCAPE), ("python, nothing", EMPTY)], it.name)
            print()


if __name__ == "__main__":
    main()
