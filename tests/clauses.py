"""The ghost texts of a source, for tests/headline.py: the clauses of contracts and the ghost members, with what each can name.

A source is cut where a line begins with a letter. So a part is a function, a type, a constant, an `impl` or a trait, with all
that is in it. Comments are skipped, and texts in quotes are empty.
"""

import dataclasses
import re

from sources import owner_of

QUOTED = re.compile(r"(\"(?:[^\"\\]|\\.)*\"|'(?:[^'\\\n]|\\.)')|//.*$", re.MULTILINE)
PART = re.compile(r"^(?=[a-z])", re.MULTILINE)
HEAD = re.compile(r"(?:pub(?:\(\w+\))? )?(?:unsafe )?(?:extern \"\" )?(?:const (?=fn))?"
                  r"(impl|trait|struct|enum|const|type|fn|use|ghost use|mod|\w+!)\s*(\w*)")
FUNCTION = re.compile(r"\b(?=fn \w)")
GHOST = re.compile(r"\b(?:(requires|ensures)\*?(?: (\w+))?|ghost (\w+)(?: =|:)) (?=\{)")
GHOST_USE = re.compile(r"\bghost (use [^;]*);")
USE = re.compile(r"(?:pub(?:\(\w+\))? )?use (?:(\w+)[\w:]*::)?(?:\{(.*?)\}|(\w+|\*));", re.DOTALL)
PARAMETERS = re.compile(r"\b(?:impl|(?:fn|trait|struct|enum) \w+)(?=<)")
NAMED = re.compile(r"\b(\w+):(?!:)|[(\[]([\w, ]+)[)\]]:(?!:)")
LET = re.compile(r"\blet (?:mut )?\(?([\w, ]+)\)? = ")
MEMBER = re.compile(r"ghost (\w+):")


@dataclasses.dataclass
class Ghost:
    """A ghost text: whose it is, as `Type::function`, `function` or `Type`; its name; what is bound around it; the type
    parameters, each with its first bound; and the `ghost use` lines that it is under."""

    owner: str
    name: str
    is_clause: bool
    text: str
    bound: set
    parameters: dict
    uses: tuple


@dataclasses.dataclass
class Part:
    """A part of a source: what it is, its name or that of the type of an `impl`, and its text."""

    kind: str
    name: str
    text: str


def between(text, at, opening, closing):
    """Returns what is between the sign at this offset and the one that closes it. An arrow closes nothing."""
    depth = 0
    for end in range(at, len(text)):
        depth += (text[end] == opening) - (text[end] == closing and text[end - 1] != "-")
        if depth == 0:
            return text[at + 1:end]
    raise ValueError(f"a {opening} that is not closed: {text[at:at + 40]}")


def parameters(text):
    """Returns the type parameters of the first item of a text, each with its first bound."""
    found = PARAMETERS.search(text)
    inside = between(text, found.end(), "<", ">") if found else ""
    return dict(re.findall(r"(?:^|,)\s*(?:const )?(\w+)(?:: (\w+))?", inside))


def names_in(text):
    """Returns the names of parameters or of fields, also those in patterns."""
    return {name for it in NAMED.findall(text) for name in re.findall(r"\w+", " ".join(it))}


def parts_of(text):
    """Yields the parts of a source. Raises ValueError at a part of another kind."""
    for part in PART.split(QUOTED.sub(lambda it: '""' if it[1] else "", text)):
        head = HEAD.match(part)
        if head:
            yield Part(head[1], owner_of(part.splitlines()[0]) if head[1] == "impl" else head[2], part)
        elif part[:1].islower():
            raise ValueError(f"a part of no kind: {part[:60]}")


def ghosts_of(part, uses):
    """Yields the ghost texts of a part of a file that has these `ghost use` lines."""
    uses = (*uses, *GHOST_USE.findall(part.text))
    members, *functions = FUNCTION.split(part.text)
    around = parameters(members.partition("{")[0])
    bound = {"self", "Self", "result", *(names_in(part.text) if part.kind == "struct" else []),
             *(MEMBER.findall(part.text) if part.kind == "trait" else [])}
    for text in [members, *functions]:
        signature = GHOST.split(text)[0] if text is not members else ""
        own = {**around, **parameters(signature)}
        named = {*bound, *names_in(signature)} - own.keys()
        name = re.match(r"fn (\w+)|", text)[1]
        owner = "::".join(filter(None, [part.kind != "fn" and part.name, name]))
        for it in GHOST.finditer(text):
            named |= {it[3]} if it[3] and name else set()
            known = named.union(*(re.findall(r"\w+", names) for names in LET.findall(text[:it.start()])))
            yield Ghost(owner, it[2] or it[3] or "", bool(it[1]), between(text, it.end(), "{", "}"), known, own, uses)


class Source:
    """A source: its crate, its module, its parts, and the crates of the names that it brings in."""

    def __init__(self, crate, path, text):
        self.crate, self.module = crate, ".".join(path.with_suffix("").parts)
        self.parts = list(parts_of(text))
        self.uses = [it for part in self.parts if part.kind == "ghost use" for it in GHOST_USE.findall(part.text)]
        self.brought = {}
        for first, names, name in (it for part in self.parts if part.kind == "use" for it in USE.findall(part.text)):
            of = crate if first in ("crate", "super", "self") else first or name
            self.brought.update((it, of) for it in re.findall(r"\*|\w+", names or name))

    def ghosts(self):
        """Yields each ghost text, with its part."""
        for part in self.parts:
            if part.kind != "ghost use":
                yield from ((part, ghost) for ghost in ghosts_of(part, self.uses))
