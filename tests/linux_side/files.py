"""What stands at which path, as far as the rows of a refusal need it."""
from .lines import paths_of

MOST_NAME = 255


def names_of(text):
    """The names of a path's text."""
    return tuple(it for it in text.split(b"/") if it)


def is_odd(text):
    """Whether the profile takes a text for no path, where a kernel would resolve it."""
    names = names_of(text)
    is_above = b"." in names or b".." in names
    return bool(text) and (not text.startswith(b"/") or is_above or (text.endswith(b"/") and text != b"/"))


class Node:
    """A file or a directory; two paths of one file have one node."""

    def __init__(self, kind):
        self.kind = kind


class Files:
    """The nodes of what stands at each path, and which instances are open."""

    def __init__(self):
        self.nodes, self.made, self.closed = {(): Node("d")}, 0, set()

    def accept(self, line):
        """Takes in a call that was done."""
        paths = [names_of(it) for it in paths_of(line)]
        if line.name in ("mkdir", "create"):
            self.nodes[paths[0]] = Node("d" if line.name == "mkdir" else "f")
        elif line.name == "link":
            self.nodes[paths[1]] = self.nodes[paths[0]]
        elif line.name in ("unlink", "rmdir"):
            del self.nodes[paths[0]]
        elif line.name in ("rename", "rename2"):
            self.move(*paths, line.words[2:] == ("2",))
        elif line.name == "init":
            self.made += 1
        elif line.name == "close":
            self.closed.add(int(line.words[0]))

    def move(self, old, new, is_exchange):
        """Moves what is at a path and below it; two paths of one file stay."""
        if self.nodes[old] is self.nodes.get(new):
            return
        taken, given = self.taken_out(old), self.taken_out(new)
        self.nodes.update({new + rest: node for rest, node in taken.items()})
        if is_exchange:
            self.nodes.update({old + rest: node for rest, node in given.items()})

    def taken_out(self, top):
        """What is at a path and below it, which then is there no more."""
        below = [it for it in self.nodes if it[:len(top)] == top]
        return {it[len(top):]: self.nodes.pop(it) for it in below}

    def kind(self, names):
        """`d`, `f` or nothing."""
        return self.nodes[names].kind if names in self.nodes else None

    def find(self, names):
        """Why nothing is found at a path, if so: a kernel walks it from its first name on."""
        for end in range(len(names)):
            if self.kind(names[:end]) == "f":
                return "ENOTDIR"
            if len(names[end]) > MOST_NAME:
                return "ENAMETOOLONG"
            if names[:end + 1] not in self.nodes:
                return "ENOENT"
        return None

    def parent(self, names):
        """Why no name can stand at a path, if so."""
        above = names[:-1]
        return self.find(above) or ("ENOTDIR" if self.kind(above) == "f" else None)

    def names_in(self, names):
        """The paths of what stands in a directory."""
        return [it for it in self.nodes if it and it[:-1] == names]
