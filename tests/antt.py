"""What a text in antt cites, for tests/headline.py: the names in it that it does not bind.

A name is bound by a pattern, by `λ`, by `let`, by `←` in a `do` and by a binder `(x : A)`, each up to the end of the component
or of the parentheses around it; by a field of a record, for the fields after it; and by a block `module _ {N : Type 0} where`.
A pattern does not bind the name of a constructor. The label of a field and the name of an argument are not cited.

A definition begins with `abbrev pub`, `unfoldable pub`, `pub record`, `pub data` or `pub`. Its other lines are further in, or
are its clauses. A text of another form raises ValueError.
"""

import dataclasses
import re

COMMENT = re.compile(r'("(?:[^"\\\n]|\\.)*")|(?:^|(?<=\s))--.*$', re.MULTILINE)
TOKEN = re.compile(r'"(?:[^"\\\n]|\\.)*"|[(){},;]|\.?[^\s(){}.,;"]+(?:\.[^\s(){}.,;"]+)*|\.')
HEAD = re.compile(r"( *)(?:(?:abbrev|unfoldable) pub|pub (?P<kind>record|data)|(?<!\s)pub(?= \S+ :)) (?P<name>\S+)")
SECTION = re.compile(r"module _ (.*) where")
OTHER = re.compile(r"use .*|pub mod \w+|infix[lr]? .*")
NO_NAME = re.compile(r'[\d".].*|_|[→×=:|]|Type')
CLOSING = ("}", ")")


@dataclasses.dataclass(frozen=True)
class Group:
    """What stands in parentheses or braces."""

    opening: str
    items: tuple


@dataclasses.dataclass
class Definition:
    """A definition: its kind, its name, its lines, how far in it stands, and what the block around it binds."""

    kind: str
    name: str
    lines: list
    column: int
    section: str

    def rows(self, column):
        """Returns the lines, each with those after it that are further in. A `;` is before each step of a `do`."""
        rows, step = [], None
        for line in self.lines:
            indent = len(line) - len(line.lstrip())
            if indent <= column and line.strip() not in CLOSING:
                rows.append(line)
                step = -1 if line.endswith(" do") else None
            else:
                step = indent if step == -1 else step
                rows[-1] += f" {'; ' * (indent == step)}{line.strip()}"
        return rows

    def cases(self):
        """Returns the constructors of a `data`, each with its type."""
        return self.rows(self.column + 2)[1:] if self.kind == "data" else []

    def names(self):
        """Returns the names that the definition defines."""
        return [self.name, *(it.split()[0] for it in self.cases())]

    def has(self, line):
        """Returns whether a line that begins no definition belongs to this one."""
        if len(line) - len(line.lstrip()) > self.column or line.strip() in CLOSING:
            return True
        operator = self.name.strip("◌")
        return line.split()[0] == self.name or (operator != self.name and f" {operator} " in line.partition(" = ")[0])


def without_comments(text):
    """Returns the lines of a text that are not blank, without comments."""
    return [line.rstrip() for line in COMMENT.sub(lambda it: it[1] or "", text).splitlines() if line.strip()]


def definitions_of(text):
    """Returns the definitions of a file."""
    found, section = [], ""
    for line in without_comments(text):
        head, block = HEAD.match(line), SECTION.match(line)
        if head:
            section = section if head[1] else ""
            found.append(Definition(head["kind"] or "abbrev", head["name"], [line], len(head[1]), section))
        elif block:
            section = block[1]
        elif found and found[-1].has(line):
            found[-1].lines.append(line)
        elif not OTHER.fullmatch(line):
            raise ValueError(f"a line of no definition: {line}")
    return found


def trees(text):
    """Returns the tokens of a text, with a group for what stands in parentheses or braces."""
    stack = [("", [])]
    for token in TOKEN.findall(text):
        if token in "({":
            stack.append((token, []))
        elif token in ")}" and len(stack) > 1:
            opening, items = stack.pop()
            stack[-1][1].append(Group(opening, tuple(items)))
        else:
            stack[-1][1].append(token)
    if len(stack) != 1:
        raise ValueError(f"parentheses that are not closed: {text[:60]}")
    return stack[0][1]


def split(items, *separators):
    """Returns the parts of a row between separators."""
    parts = [[]]
    for item in items:
        if item in separators:
            parts.append([])
        else:
            parts[-1].append(item)
    return parts


def parted(items, separator):
    """Returns what is before the first separator of a row, and what is after it."""
    if separator not in items:
        raise ValueError(f"there is no {separator} in: {' '.join(words_in(items))[:60]}")
    at = items.index(separator)
    return items[:at], items[at + 1:]


def words_in(items):
    """Yields the words of a row, groups included."""
    for item in items:
        if isinstance(item, Group):
            yield from words_in(item.items)
        elif item not in (",", ";") and not NO_NAME.fullmatch(item):
            yield item


class Reader:
    """Reads what texts cite. It is given whether a word in a pattern is a constructor, which the pattern does not bind.

    Each method yields the names that are cited and not bound, and adds what is bound from there on.
    """

    def __init__(self, is_constructor):
        self.is_constructor = is_constructor

    def pattern(self, items, bound):
        for word in words_in(items):
            if self.is_constructor(word):
                yield word
            else:
                bound.add(word)

    def parts(self, items, bound):
        """Components, which bind nothing for each other."""
        for part in split(items, ",", ";"):
            yield from self.row(part, set(bound))

    def row(self, items, bound):
        while items:
            head, items = items[0], items[1:]
            if head == "λ":
                binders, items = parted(items, ".")
                yield from self.binders(binders, bound)
            elif head == "let":
                binding, items = parted(items, "in")
                yield from self.step(binding, "=", bound)
            elif head == "record":
                old, items = self.record(items)
                yield from self.row(old[:-1], bound)
                yield from self.fields(old[-1].items, set(bound))
            elif isinstance(head, Group):
                yield from self.group(head, bound)
            elif not NO_NAME.fullmatch(head) and head.split(".")[0] not in bound:
                yield head

    @staticmethod
    def record(items):
        """The value that is changed and the fields in braces, and what is behind."""
        braces = [at for at, it in enumerate(items) if isinstance(it, Group) and it.opening == "{"]
        if not braces:
            raise ValueError("a record without fields")
        return items[:braces[0] + 1], items[braces[0] + 1:]

    def group(self, group, bound):
        """A binder, an argument by its name, or a term."""
        if ":" in group.items:
            names, types = parted(group.items, ":")
            yield from self.parts(types, bound)
            bound.update(words_in(names))
        elif group.opening == "{" and "=" in group.items:
            yield from self.parts(parted(group.items, "=")[1], bound)
        else:
            yield from self.parts(group.items, bound)

    def binders(self, items, bound):
        for item in items:
            if isinstance(item, Group) and ":" in item.items:
                yield from self.group(item, bound)
            else:
                yield from self.pattern([item], bound)

    def step(self, items, sign, bound):
        """What a `let` or a step of a `do` binds: a pattern, maybe with its type, the sign, and the value."""
        names, value = parted(items, sign)
        names, *types = split(names, ":")
        for term in [value, *types]:
            yield from self.parts(term, bound)
        yield from self.pattern(names, bound)

    def fields(self, items, bound):
        """The fields of a value, or of a type."""
        for field in filter(None, split(items, ";")):
            sign = "=" if "=" in field[:2] else ":"
            names, value = parted(field, sign)
            yield from self.parts(value, bound)
            bound.update(names if sign == ":" else [])

    def steps(self, items, bound):
        """The steps of a `do`, each after a `;`."""
        for step in filter(None, split(items, ";")):
            if "←" in step:
                yield "◌>>=◌"
                yield from self.step(step, "←", bound)
            else:
                yield from self.parts(step, bound)

    def clause(self, items, name, bound):
        left, right = parted(items, "=")
        yield from self.pattern(left, bound)
        bound -= {name, name.strip("◌")}
        yield from self.steps(right[1:], bound) if right[:1] == ["do"] else self.parts(right, bound)

    def definition(self, definition):
        """The names that a definition cites, maybe its own."""
        bound = set()
        yield from self.row(trees(definition.section), bound)
        if definition.kind == "abbrev":
            head, *clauses = map(trees, definition.rows(definition.column))
            yield from self.parts(parted(head, ":")[1], bound)
            for clause in clauses:
                yield from self.clause(clause, definition.name, set(bound))
            return
        head, body = parted(trees(" ".join(definition.lines)), "where")
        yield from self.row(head[head.index(definition.name) + 1:], bound)
        for row in split(body, "pub")[1:] if definition.kind == "record" else map(trees, definition.cases()):
            names, types = parted(row, ":")
            yield from self.parts(types, bound)
            bound.update(names if definition.kind == "record" else [])
