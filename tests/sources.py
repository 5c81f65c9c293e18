"""The functions of a crate's sources, with their contracts, for tests/proved."""

import re

OWNER = re.compile(r"(?:pub )?(?:impl|trait)\b")
FUNCTION = re.compile(r"^\s*(?:pub(?:\(\w+\))? )?(?:const )?(?:extern \"C\" )?fn (\w+)")
CLAUSE = re.compile(r"^\s*ensures (?:(\w+) )?\{")
COMMENT = re.compile(r"^\s*(?://|--).*$", re.MULTILINE)
PUBLIC = re.compile(r"^\s*pub (?:const )?(?:extern \"C\" )?fn ")


def owner_of(line):
    """Returns the type or the trait of an `impl` or a `trait`."""
    head = re.sub(r"^(pub )?(impl|trait)\b", "", line)
    while re.search(r"<[^<>]*>", head):
        head = re.sub(r"<[^<>]*>", "", head)
    return re.match(r"\w*", head.split(" for ")[-1].strip())[0]


def contracts(sources):
    """Returns the clauses of each function, by `function` and by `Type::function`: a set for each that has the name. A clause
    without a name is the empty one."""
    found = {}
    for source in sources:
        clauses, owner = None, ""
        for line in source.read_text(encoding="utf-8").splitlines():
            function, clause = FUNCTION.match(line), CLAUSE.match(line)
            if OWNER.match(line):
                owner = owner_of(line)
            elif line.startswith("}"):
                owner = ""
            if function:
                clauses = set()
                for name in (function[1], f"{owner}::{function[1]}"):
                    found.setdefault(name, []).append(clauses)
            elif clause and clauses is not None:
                clauses.add(clause[1] or "")
    return found


def source_of(root, crate):
    """Returns the functions of a crate, and all that its sources and definitions say, comments aside."""
    sources = sorted((root / "crates" / crate / "src").rglob("*.rt"))
    specs = sorted((root / "crates" / crate / "specs").rglob("*.antt"))
    text = "\n".join(it.read_text(encoding="utf-8") for it in sources + specs)
    return contracts(sources), COMMENT.sub("", text)


def public_functions(source):
    """Yields each public function of a source, by its type or trait, and whether it has a contract."""
    name, is_public, has_contract, owner, is_trait = "", False, False, "", False
    for line in [*source.read_text(encoding="utf-8").splitlines(), "fn end"]:
        function = FUNCTION.match(line)
        if function or OWNER.match(line):
            if is_public:
                yield name, has_contract
            is_public = False
        if OWNER.match(line):
            owner, is_trait = owner_of(line) + "::", line.startswith("pub trait")
        elif line.startswith("}"):
            owner, is_trait = "", False
        if function:
            name, has_contract = owner + function[1], False
            is_public = bool(PUBLIC.match(line)) or is_trait
        has_contract = has_contract or bool(CLAUSE.match(line))
