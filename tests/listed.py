"""What docs/PROVED.md lists, and what it has to list: a rule from the code to the page, for tests/proved.

A crate's lib.rt hands functions, types and traits on to other crates (`pub use`). The section of the crate names each function
that it hands on, and each public function of such a type or trait, by its type (`Held::new`) or, if it is the only one of its name
that the crate hands on, without it (`law`). Behind the name, in one list or several, are all clauses of its contract that have a
name.

The section about the promise has no crate of its own. What it names is in one of the crates that carry the promise (CARRYING),
and it names each clause of LAW, and each function that the crate DOORS hands on.
"""

import collections
import re

from sources import public_functions, source_of

CITED = re.compile(r"`([\w:]+)` \(((?:`\w+`(?:, )?)+)\)")
NAME = re.compile(r"`([A-Za-z_][\w:]*)`")
USE = re.compile(r"^pub use [\w:]+::(?:\{(.*?)\}|(\w+));", re.MULTILINE | re.DOTALL)
PROMISE = "The promise, part by part"
CARRYING = ("tree_core", "shared_tree", "event_sinks", "watchtree_script", "watchtree_c")
LAW = "Held::law"
DOORS = "watchtree_c"


def names_in(text):
    """Returns the names that a text has in backquotes, each with the clauses that are behind it in parentheses."""
    found = {name: set() for name in NAME.findall(CITED.sub("", text))}
    for name, clauses in CITED.findall(text):
        found.setdefault(name, set()).update(re.findall(r"`(\w+)`", clauses))
    return found


def last(function):
    """Returns the name of a function without its type."""
    return function.split("::")[-1]


def handed_on(root, crate):
    """Yields each function with a contract that a crate hands on, with the names that stand for it on the page, and its clauses."""
    folder = root / "crates" / crate / "src"
    used = USE.findall((folder / "lib.rt").read_text(encoding="utf-8"))
    names = {name for several, one in used for name in re.findall(r"\w+", several or one)}
    functions, _ = source_of(root, crate)
    handed = [function for source in sorted(folder.rglob("*.rt")) for function, has_contract in public_functions(source)
              if has_contract and function.split("::")[0] in names]
    count = collections.Counter(map(last, handed))
    for function in handed:
        stand = {function, last(function)} if count[last(function)] == 1 else {function}
        yield function, stand, set().union(*functions[function])


def lacks(stand, clauses, names):
    """Yields what a page with these names, each with its clauses, lacks of a function with these clauses, for which some stand."""
    found = [names[it] for it in stand if it in names]
    if not found:
        yield "docs/PROVED.md does not name this function"
        return
    for clause in sorted(clauses - {""} - set().union(*found)):
        yield f"docs/PROVED.md does not name its clause {clause}"


def promise_of(root):
    """Returns the section about the promise, on one line."""
    page = (root / "docs/PROVED.md").read_text(encoding="utf-8")
    return " ".join(page.partition(f"\n## {PROMISE}\n")[2].partition("\n## ")[0].split())


def unknown(name, clauses, carrying):
    """Yields what is wrong with a name of the section about the promise, given the crates that carry it."""
    contracts = [it for functions, _ in carrying for it in functions.get(name, [])]
    is_there = any(re.search(rf"\b{last(name)}\b", text) for _, text in carrying)
    if not (contracts if "::" in name and last(name).islower() else is_there):
        yield "no crate that carries the promise has it"
    elif clauses and not any(clauses <= it for it in contracts):
        yield f"no contract of it has the clauses {', '.join(sorted(clauses))}"


def promised(root):
    """Yields each name that the section about the promise has, with what is wrong with it; and LAW and each function of DOORS,
    with what the section lacks of them."""
    names = names_in(promise_of(root))
    carrying = [source_of(root, crate) for crate in CARRYING]
    for name, clauses in names.items():
        yield name, [] if name.isupper() else list(unknown(name, clauses, carrying))
    yield LAW, list(lacks({LAW}, set().union(*(it for functions, _ in carrying for it in functions.get(LAW, []))), names))
    yield from ((function, list(lacks(stand, set(), names))) for function, stand, _ in handed_on(root, DOORS))
