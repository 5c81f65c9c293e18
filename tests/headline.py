"""What the promise cites: the definitions that a reader of it has to believe. For tests/proved, and as a command.

    python3 tests/headline.py ROOT            each, with its lines and the number of definitions and of contracts that cite it
    python3 tests/headline.py ROOT --once     the short ones that one definition cites, with its text, those first that no
                                              contract cites: they can be merged into it
    python3 tests/headline.py ROOT --page     the lists of docs/DEFINITIONS.md, as they have to be

The contracts of PROMISE state the promise. It cites what their clauses cite, and what that cites, and so on; cited.py says what
cites what. The lists have the definitions in two halves: those of instances, watches, queues and records, and those of files.
Of tree_core, what cites an item of tree_ops itself is in the second half. Types, constants and ghost members of src/ are a list
of their own.
"""

import argparse
import collections
import pathlib
import sys
import textwrap

sys.dont_write_bytecode = True
sys.path.insert(0, str(pathlib.Path(__file__).resolve().parent))
from cited import Repository  # noqa: E402

# The contracts that state the promise, each with the clause that does, or with none if all do.
PROMISE = [("shared_tree", "Held::law", None), ("tree_core", "State::law", None),
           *(("event_sinks", f"Listening::{function}", "sound") for function in ("new", "step", "run", "finish"))]
PAGE = "docs/DEFINITIONS.md"
INOTIFY, POSIX, SOURCES = HEADINGS = "The inotify half", "The POSIX half", "Types, constants and members"
CRATES = ["tree_core", "shared_tree", "event_sinks", "event_rules", "event_queue", "watch_table", "instance_table", "record_codec",
          "tree_ops", "inode_table", "tree_paths"]
FILES = ("tree_ops", "inode_table", "tree_paths")
# The columns of the lists: of a crate, of a module, and of the names.
COLUMNS = (4, 20, 34)
WIDTH = 120
# The most lines of a short definition.
SHORT = 2


def clauses_of(repository):
    """Returns what the clauses of the promise cite."""
    found = set()
    for crate, function, clause in PROMISE:
        those = [items for (*of, name), items in repository.contracts.items()
                 if of == [crate, function] and clause in (None, name)]
        if not those:
            repository.faults.append(f"{crate}: {function} has no clause of the promise")
        found.update(*those)
    return found


def closure(repository):
    """Returns what the promise cites, in the order of crates, modules and files."""
    found, left = set(), clauses_of(repository)
    while left:
        found |= left
        left = set().union(*map(repository.cited_by, left)) - found
    places = {item: place for place, item in enumerate(repository.definitions)}
    crates = [*CRATES, *sorted({it.crate for it in found} - {*CRATES})]
    return sorted(found, key=lambda it: (crates.index(it.crate), it.kind != "definition", it.module, places.get(it, 0), it.name))


def heading_of(repository, item):
    """Returns the heading of the list that an item belongs to."""
    if item.kind != "definition":
        return SOURCES
    cites_calls = any(it.crate == "tree_ops" for it in repository.cited[item])
    return POSIX if item.crate in FILES or item.crate == "tree_core" and cites_calls else INOTIFY


def lists_of(repository, found):
    """Returns the lists as they have to be: the modules with their names, by heading and crate."""
    lists = {}
    for heading in HEADINGS:
        for item in (it for it in found if heading_of(repository, it) == heading):
            lists.setdefault((heading, item.crate), {}).setdefault(item.module, []).append(item.name)
    return lists


def page_of(lists):
    """Returns the lists as the page has them."""
    lines = []
    for heading, crate in lists:
        lines += [] if f"### {heading}" in lines else ["", f"### {heading}"]
        first = crate
        for module, names in lists[(heading, crate)].items():
            begin = f"{' ' * COLUMNS[0]}{first}".ljust(COLUMNS[1]) + module
            lines += textwrap.wrap(" ".join(names), WIDTH, initial_indent=f"{begin} ".ljust(COLUMNS[2]),
                                   subsequent_indent=" " * COLUMNS[2], break_long_words=False, break_on_hyphens=False)
            first = ""
    return "\n".join(lines[1:])


def listed_in(text):
    """Returns the names that a page lists, each with its module, by heading and crate."""
    lists, heading, crate, module = collections.defaultdict(set), "", "", ""
    for line in text.splitlines():
        if line.startswith("#"):
            heading = line.lstrip("# ")
        elif heading in HEADINGS and line.startswith(" " * COLUMNS[0]):
            crate = line[COLUMNS[0]:COLUMNS[1]].strip() or crate
            module = line[COLUMNS[1]:COLUMNS[2]].strip() or module
            lists[(heading, crate)].update((module, name) for name in line[COLUMNS[2]:].split())
    return lists


def differences(wanted, listed):
    """Yields what is wrong with a list of names, each with its module."""
    yield from (f"{PAGE} does not list {module}.{name}, which the promise cites" for module, name in sorted(wanted - listed))
    yield from (f"{PAGE} lists {module}.{name}, which the promise does not cite" for module, name in sorted(listed - wanted))


def lists_in(root):
    """Yields the crate of each list that the page has or has to have, the heading, and what is wrong with it; and whether each
    name that a definition or a contract cites stands for something."""
    repository = Repository(root)
    lists = lists_of(repository, closure(repository))
    listed = listed_in((root / PAGE).read_text(encoding="utf-8"))
    for heading, crate in dict.fromkeys([*lists, *listed]):
        wanted = {(module, name) for module, names in lists.get((heading, crate), {}).items() for name in names}
        yield crate, heading, list(differences(wanted, listed[(heading, crate)]))
    yield "crates", "the names that definitions and contracts cite", repository.faults


def users_of(repository):
    """Returns the definitions that cite each item, and the contracts, which are functions and types with ghost members."""
    definitions, contracts = collections.defaultdict(set), collections.defaultdict(set)
    for item in repository.definitions:
        for cited in repository.cited[item]:
            definitions[cited].add(item)
    for (crate, owner, _), items in repository.contracts.items():
        for cited in items:
            contracts[cited].add(f"{crate} {owner}")
    return definitions, contracts


def show_all(repository, found):
    """Prints what the promise cites."""
    definitions, contracts = users_of(repository)
    print(f"{'crate':14} {'module':12} {'name':23}    lines definitions contracts")
    for item in found:
        lines = len(repository.definitions[item].lines) if item.kind == "definition" else item.kind
        print(f"{item.crate:14} {item.module:12} {item.name:23} {lines:>8} {len(definitions[item]):>11} {len(contracts[item]):>9}")
    counts = collections.Counter(it.kind for it in found)
    lines = sum(len(repository.definitions[it].lines) for it in found if it.kind == "definition")
    print(f"{counts['definition']} of {len(repository.definitions)} definitions, {lines} lines; {counts['type']} types, "
          f"{counts['constant']} constants, {counts['member']} members")


def once(repository, found):
    """Returns the short definitions that one definition cites, with that one and the contracts that cite them."""
    definitions, contracts = users_of(repository)
    short = [it for it in found if it.kind == "definition" and len(repository.definitions[it].lines) <= SHORT]
    those = [(it, *definitions[it], sorted(contracts[it])) for it in short if len(definitions[it]) == 1]
    return sorted(those, key=lambda it: len(it[2]))


def show_once(repository, found):
    """Prints these."""
    those = once(repository, found)
    for item, user, contracts in those:
        print(f"crates/{item.crate}/specs/{item.module}.antt: {item.name}, which {user.name} of crates/{user.crate}/specs/"
              f"{user.module}.antt cites{', and the contracts of ' * bool(contracts)}{', '.join(contracts)}")
        for it in (item, user):
            print(textwrap.indent("\n".join(repository.definitions[it].lines), "    "), end="\n\n")
    print(f"{len(those)} definitions, {sum(not contracts for *_, contracts in those)} of which no contract cites")


def main():
    parser = argparse.ArgumentParser(usage=__doc__, add_help=False, allow_abbrev=False)
    parser.add_argument("root", type=pathlib.Path)
    kind = parser.add_mutually_exclusive_group()
    kind.add_argument("--once", action="store_true")
    kind.add_argument("--page", action="store_true")
    options = parser.parse_args()
    repository = Repository(options.root)
    found = closure(repository)
    if options.page:
        print(page_of(lists_of(repository, found)))
    else:
        (show_once if options.once else show_all)(repository, found)
    print(*repository.faults, sep="\n", end="\n" * bool(repository.faults), file=sys.stderr)
    return 1 if repository.faults else 0


if __name__ == "__main__":
    sys.exit(main())
