"""What each definition, type and contract of the repository cites, for tests/headline.py.

A definition is one of crates/*/specs, and antt.py says what it cites. A type is a struct, an enum or a trait of crates/*/src.
It cites what contracts see of it: the `Value` of its model or else the types of its fields, and its ghost fields, which hold of
every value. A constant cites those in its value, and a ghost member of a trait what is in its type. What is of the standard
library, of the kit's crates or of Rust itself is not counted. A name that stands for nothing is a fault.
"""

import collections
import functools
import re

import antt
from clauses import Source, parameters

USE = re.compile(r"use ([\w.]+?)(?:\.\{([^}]*)\}| as (\w+))?", re.DOTALL)
# What antt has without an import, and what Rust has.
BUILT_IN = set("¬ ⊥ Unit tt absurd Prim".split())
RUST = set("u8 u16 u32 u64 u128 usize i8 i16 i32 i64 i128 isize Self Ok Err Some None Option Result Vec Box String Fn FnMut "
           "FnOnce Drop Send Sync Copy Clone".split())
DECLARED = ("struct", "enum", "trait", "const")
NAME = re.compile(r"(?<![\w:])(?:\w+::)*[A-Z]\w*")
# What is before the fields of a type or the value of a constant, and what is no type there: attributes, variants, ghost fields.
BEFORE = re.compile(r"[^({=]*[({=]")
NO_TYPE = re.compile(r"#\[.*?\]$|^    [A-Z]\w*|ghost \w+: \{.*?\},$", re.MULTILINE | re.DOTALL)
# A trait at a type, and the end of the name of what a box of a trait has.
INSTANCE = re.compile(r"⟦<.*? as (\w+)>⟧|-box\b")

Item = collections.namedtuple("Item", "kind crate module name")


class Scope(dict):
    """What the names of a file stand for: the paths of its `use` lines. Modules, behind which a name stands, are apart."""

    def __init__(self, lines):
        super().__init__()
        self.modules = {}
        for line in lines:
            path, names, alias = USE.fullmatch(line).groups()
            path = tuple(path.split("."))
            if names is None:
                self.modules[alias or path[-1]] = path
            for name in filter(None, map(str.strip, (names or "").split(","))):
                first, _, last = name.partition(" as ")
                self.add(last or first, (*path, first))

    def add(self, name, path):
        """Brings a name in. Each part of an operator stands for it."""
        self[name] = path
        if "◌" in name:
            self.update((part, path) for part in name.split("◌") if part)

    def path_of(self, word):
        """Returns the path that a word stands for, or none. There may be fields behind it."""
        first, *rest = word.split(".")
        return (*self.modules[first], *rest) if rest and first in self.modules else self.get(first)


scope_of = functools.cache(Scope)


class Repository:
    """The definitions, the contracts, what each item cites, and the faults."""

    def __init__(self, root):
        folders = [it for it in sorted((root / "crates").iterdir()) if (it / "src").is_dir()]
        self.crates = {it.name for it in folders}
        self.definitions, self.names, self.faults = {}, {}, []
        self.cited, self.contracts, self.models = collections.defaultdict(set), collections.defaultdict(set), set()
        specs = {(folder.name, file.stem): file.read_text(encoding="utf-8")
                 for folder in folders for file in sorted((folder / "specs").glob("*.antt"))}
        sources = [Source(folder.name, file.relative_to(folder / "src"), file.read_text(encoding="utf-8"))
                   for folder in folders for file in sorted((folder / "src").rglob("*.rt"))]
        self.parts = {(source.crate, source.module, part.name): (source, part)
                      for source in sources for part in source.parts if part.kind in DECLARED}
        for (crate, module), text in specs.items():
            for found in self.tried((crate, module), antt.definitions_of, text):
                item = Item("definition", crate, module, found.name)
                self.definitions[item] = found
                self.names.update({(crate, module, name): item for name in found.names()})
        for (crate, module), text in specs.items():
            self.read_definitions(crate, module, text)
        for source in sources:
            self.read_ghosts(source)

    def tried(self, place, read, *those):
        """Returns what reading yields. A text that cannot be read is a fault."""
        try:
            return list(read(*those))
        except (LookupError, ValueError) as fault:
            self.faults.append(f"{' '.join(place)}: {fault}")
            return []

    def declared(self, crate, module, name):
        """Returns the type or constant of a source."""
        if (crate, module, name) not in self.parts:
            raise LookupError(f"{module} of {crate} declares no {name}")
        return Item("constant" if self.parts[(crate, module, name)][1].kind == "const" else "type", crate, module, name)

    def item_at(self, path):
        """Returns the item at a path, or none if it is of another repository."""
        crate, *rest = path[1:]
        if crate not in self.crates:
            return None
        if rest[0] == "specs" and rest[1] in ("declared", "contracts"):
            at = next(at for at, it in enumerate(rest) if it[0].isupper())
            return self.declared(crate, ".".join(rest[2:at]) or "lib", rest[at + (rest[at] == "TheConstants")])
        item = self.names.get((crate, *rest[1:3])) if rest[0] == "specs" else None
        if not item:
            raise LookupError("there is no such definition")
        return item

    def known_in(self, source, name):
        """Returns the type or constant that a source knows under a name, or none if it is of another repository."""
        if (source.crate, source.module, name) in self.parts:
            return self.declared(source.crate, source.module, name)
        crate = source.brought.get(name)
        if crate not in self.crates:
            if not crate and name not in RUST and "*" not in source.brought:
                raise LookupError("nothing has this name")
            return None
        found = [it for it in self.parts if it[0] == crate and it[2] == name]
        if len(found) != 1:
            raise LookupError(f"{len(found)} types or constants of {crate} have this name")
        return self.declared(*found[0])

    def item_of(self, word, scope, source, bounds):
        """Returns the item that a word stands for, or none if it is of another repository. In a clause, which has a source, it may
        be a member of a type parameter, by its bound, or a type or constant that the source knows."""
        first, *rest = word.split(".")
        path = scope.path_of(word)
        if path:
            return self.item_at(path)
        if not source:
            raise LookupError("nothing has this name")
        if first not in bounds:
            return self.known_in(source, first)
        trait = self.known_in(source, bounds[first]) if rest and bounds[first] else None
        return trait and Item("member", trait.crate, trait.module, f"{trait.name}.{rest[0]}")

    def items(self, words, place, scope, source=None, bounds=()):
        """Returns the items that words stand for."""
        found = set()
        for word in sorted(it for it in words if it.split(".")[0] not in BUILT_IN):
            try:
                found.add(self.item_of(word, scope, source, bounds))
            except LookupError as fault:
                self.faults.append(f"{' '.join(place)}: {word}: {fault}")
        return found - {None}

    def reader(self, scope):
        """Returns a reader of what is in a scope. A name of another repository, which is not counted, binds nothing in a pattern."""
        def is_constructor(word):
            path = scope.path_of(word)
            item = self.item_at(path) if path else None
            return bool(path) and (not item or item.kind == "type" or self.definitions[item].kind == "data")
        return antt.Reader(is_constructor)

    def read_definitions(self, crate, module, text):
        """Reads what the definitions of a module cite."""
        own = {name: item for (*place, name), item in self.names.items() if place == [crate, module]}
        scope = Scope(it for it in antt.without_comments(text) if it.startswith("use "))
        for name in own:
            scope.add(name, ("Rattle", crate, "specs", module, name))
        reader = self.reader(scope)
        for item in dict.fromkeys(own.values()):
            place = (crate, module, item.name)
            words = set(self.tried(place, reader.definition, self.definitions[item]))
            self.cited[item] = self.items(words, place, scope) - {item}

    def read_ghosts(self, source):
        """Reads what the ghost texts of a source cite."""
        for part, ghost in self.tried((source.crate, source.module), source.ghosts):
            scope = scope_of(ghost.uses)
            place = (source.crate, ghost.owner, ghost.name)
            text = INSTANCE.sub(lambda it: it[1] or "", ghost.text)
            words = set(self.tried(place, self.reader(scope).parts, antt.trees(text), ghost.bound))
            found = self.items(words, place, scope, source, ghost.parameters)
            self.contracts[place] |= found
            item = Item("type", source.crate, source.module, part.name)
            if part.kind == "trait" and not ghost.is_clause:
                self.cited[item._replace(kind="member", name=f"{part.name}.{ghost.name}")] = found
            elif part.kind == "struct" or ghost.name == "Value":
                self.cited[item] |= found
                self.models |= {item} if ghost.name == "Value" else set()

    def cited_by(self, item):
        """Returns the items that an item cites."""
        source, part = self.parts.get(item[1:], (None, None))
        if not part or part.kind == "trait" or item in self.models:
            return self.cited[item]
        text = NO_TYPE.sub("", BEFORE.sub("", part.text, count=1))
        words = {it.split("::")[0] for it in NAME.findall(text)} - parameters(part.text).keys() - RUST
        return self.cited[item] | self.items(words, item[1:], scope_of(()), source) - {item}
