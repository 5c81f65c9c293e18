"""Which public functions of a crate reach an item of it by calls, as a plain reading of its sources shows.

An item is a function or a constant. Seen as a call of a function, and as a use of a constant, are, comments, strings and
contracts aside:

- `name(..)`, also with type arguments, and `name` as an argument, of a function without `self` that the file has or imports;
- `Type::name`, `Self::name` and `module::name`;
- `self.name(..)`, and `value.name(..)` where the crate says the type of the value: a field of a struct, a parameter, a `let`
  whose value begins with the name of the type, or an arm for a variant of an enum that holds one value;
- `value.name(..)` of a value of another kind, where methods of one type alone have this name in the crate, and std has it for
  no type that is common (COMMON);
- `NAME` of a constant that the file has or imports.

Not seen are calls by an operator, a derived method, a closure's parameter, a generic type, a boxed trait or a loop's variable,
of elements of a list, and of a method that several types have, unless the type is known. So what is seen is there, and there may
be more.
"""

import collections
import dataclasses
import pathlib
import re

COMMENT = re.compile(r"(?:^|(?<=\s))//.*$|\"(?:[^\"\\]|\\.)*\"", re.MULTILINE)
OWNER = re.compile(r"(?:pub )?(?:impl|trait)\b")
FUNCTION = re.compile(r"^( *)(pub(?:\(\w+\))? )?(?:const )?(?:extern \"C\" )?fn (\w+)")
CONSTANT = re.compile(r"^( *)(pub(?:\(\w+\))? )?(?:const|static) (\w+)\b")
STRUCT = re.compile(r"^(?:pub(?:\(\w+\))? )?struct (\w+)(?:<[^{;]*>)? \{(.*?)^\}", re.MULTILINE | re.DOTALL)
ENUM = re.compile(r"^(?:pub(?:\(\w+\))? )?enum (\w+)(?:<[^{;]*>)? \{(.*?)^\}", re.MULTILINE | re.DOTALL)
VARIANT = re.compile(r"^\s+(\w+)\((.*?)\),?$", re.MULTILINE)
FIELD = re.compile(r"^\s+(?:pub(?:\(\w+\))? )?(\w+): (.*?),?$", re.MULTILINE)
IMPORT = re.compile(r"^use (?:crate::)?(super|[\w:]*?)(?:::\{(.*?)\}|::(\w+));", re.MULTILINE | re.DOTALL)
EXPORT = re.compile(r"^pub use \w+::(?:\{(.*?)\}|(\w+));", re.MULTILINE | re.DOTALL)
ARGUMENTS = r"(?:::<[^>]*>)?"
QUALIFIED = re.compile(rf"\b(\w+){ARGUMENTS}::(\w+)")
ALONE = re.compile(rf"(?<![\w.:])(\w+){ARGUMENTS}\(|(?<![\w.:])([A-Z][A-Z0-9_]+)\b|[(,] ?(\w+)(?=[,)])")
METHOD = re.compile(rf"((?:\b\w+\.)*)(?<=\.)(\w+){ARGUMENTS}\(")
BINDING = re.compile(rf"let (?:mut )?(\w+) = (\w+){ARGUMENTS}(?:::\w+\(| \{{)")
ARM = re.compile(r"\b(\w+)::(\w+)\((\w+)\) =>")
PARAMETER = re.compile(r"\b(\w+): ([^,)]*)")
# Methods of std that a value of any type may have.
COMMON = set("clone close cmp copy drop eq find fmt from get get_mut insert is_empty iter len map new next pop push read remove "
             "take write".split())


@dataclasses.dataclass(eq=False)
class Item:
    """A function or a constant: its file, its type or trait if it stands in an `impl`, and where its text begins and ends."""

    file: pathlib.Path
    owner: str
    name: str
    is_function: bool
    is_marked: bool     # with `pub`
    is_of_trait: bool   # in an `impl` of a trait
    begin: int
    end: int
    text: str

    def shown(self):
        return f"{self.owner}::{self.name}" if self.owner else self.name


def owner_of(line):
    """Returns the type or the trait of an `impl` or a `trait`."""
    head = re.sub(r"^(pub )?(impl|trait)\b", "", line)
    while re.search(r"<[^<>]*>", head):
        head = re.sub(r"<[^<>]*>", "", head)
    return head.split(" for ")[-1].split(" where ")[0].strip(" {:\n").split(":")[0]


def type_of(text):
    """Returns the name of a type without what is around it."""
    found = re.match(r"(?:&(?:'\w+ )?(?:mut )?)?(?:Box<)?(?:\w+::)*(\w+)", text.strip())
    return found[1] if found else ""


def items_of(file):
    """Yields the items of a source."""
    text = file.read_text(encoding="utf-8")
    head, offset = "", 0
    for line in text.splitlines(keepends=True):
        head = line if OWNER.match(line) else "" if line.startswith("}") else head
        function = FUNCTION.match(line)
        found = function or CONSTANT.match(line)
        if found:
            last = re.compile(rf"^{found[1]}\}}$" if function else r";$", re.MULTILINE).search(text, offset)
            end = last.end() if last else len(text)
            boxed = re.search(r" for (Box<dyn \w+>)", head)
            owner = boxed[1] if boxed else owner_of(head)
            yield Item(file, owner, found[3], bool(function), found[2] == "pub ", " for " in head, offset, end, text[offset:end])
        offset += len(line)


def code_of(item):
    """Returns the text of an item without comments, strings and contracts."""
    lines, is_contract = [], False
    for line in COMMENT.sub("", item.text).splitlines():
        if re.match(r"\s*(?:ensures|requires|decreases|ghost)\b", line):
            is_contract = True
        elif re.match(r"\s*\{$", line):
            is_contract = False
        if not is_contract:
            lines.append(line.strip())
    return re.sub(r" ?\n\.", ".", "\n".join(lines))


class Crate:
    """The items of a crate, and the items that each of them uses."""

    def __init__(self, folder):
        self.files = sorted((folder / "src").rglob("*.rt"))
        self.items = [item for file in self.files for item in items_of(file)]
        self.exported = self.exports(folder / "src")
        self.imports, self.fields, self.variants = {}, {}, {}
        self.free, self.methods = collections.defaultdict(list), collections.defaultdict(list)
        for file in self.files:
            text = file.read_text(encoding="utf-8")
            above = file.parent.name if file.parent != folder / "src" else "lib"
            self.imports[file] = {name: above if it[1] == "super" else it[1].split("::")[-1] for it in IMPORT.finditer(text)
                                  for name in re.findall(r"\w+", it[2] or it[3])}
            self.fields.update((it[1], dict(FIELD.findall(it[2]))) for it in STRUCT.finditer(text))
            self.variants.update((it[1], dict(VARIANT.findall(it[2]))) for it in ENUM.finditer(text))
        for item in self.items:
            (self.methods if item.owner else self.free)[item.name].append(item)
        self.owners = {item.owner for item in self.items if item.owner}
        self.callers = collections.defaultdict(set)
        for item in self.items:
            for used in self.uses(item):
                self.callers[used].add(item)

    @staticmethod
    def exports(src):
        """Returns the names that the crate hands out."""
        text = (src / "lib.rt").read_text(encoding="utf-8")
        return {name for it in EXPORT.finditer(text) for name in re.findall(r"\w+", it[1] or it[2])}

    def of_owner(self, owner, name):
        """Returns the items of a type that have a name."""
        return [item for item in self.methods[name] if item.owner == owner]

    def free_in(self, file, name):
        """Returns the items without a type that a file knows under a name."""
        module = self.imports[file].get(name)
        return [it for it in self.free[name] if it.file == file or it.file.stem == module]

    def receivers(self, item, code):
        """Returns the types of the values that an item names."""
        found = {name: type_of(text) for name, text in PARAMETER.findall(code.split("{")[0])}
        arms = {name: type_of(self.variants.get(enum, {}).get(variant, "")) for enum, variant, name in ARM.findall(code)}
        return {**dict(BINDING.findall(code)), **arms, **found, "self": item.owner}

    def of_method(self, types, chain, name):
        """Returns the methods that a call of a value may mean: the value is a name and fields of it."""
        first, *rest = chain.rstrip(".").split(".")
        owner = types.get(first) if first else None
        for field in rest:
            owner = type_of(self.fields[owner].get(field, "")) if owner in self.fields else None
        if owner:
            return self.of_owner(owner, name)
        found = self.methods[name]
        return found if name not in COMMON and len({it.owner for it in found}) == 1 else []

    def uses(self, item):
        """Yields the items that an item uses."""
        code = code_of(item)
        types = self.receivers(item, code)
        for owner, name in QUALIFIED.findall(code):
            yield from self.of_owner(item.owner if owner == "Self" else owner, name)
            yield from (it for it in self.free[name] if it.file.stem == owner)
        for names in ALONE.findall(code):
            for name in filter(None, names):
                yield from self.free_in(item.file, name)
        for chain, name in METHOD.findall(code):
            yield from self.of_method(types, chain, name)

    def is_public(self, item):
        """Returns whether others can call a function."""
        last = re.sub(r"Box<dyn (\w+)>", r"\1", item.owner)
        return item.is_function and (item.is_marked or item.is_of_trait) and (last or item.name) in self.exported

    def item_at(self, file, offset):
        """Returns the item whose text has an offset, or none."""
        return next((it for it in self.items if it.file == file and it.begin <= offset < it.end), None)

    def reaching(self, item):
        """Returns the public functions that reach an item through private ones: itself, if it is public."""
        seen, left, found = {item}, [item], set()
        while left:
            now = left.pop()
            if self.is_public(now):
                found.add(now.shown())
            else:
                left += self.callers[now] - seen
                seen |= self.callers[now]
        return found
