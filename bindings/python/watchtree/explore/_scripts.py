"""The script of a search: its text, or a file, such as a recording."""

import os
from typing import Tuple, Union

from .._library import default_library
from .._tree import Tree
from ._schedule import PAUSE, parse_script

AnyFile = Union[str, "os.PathLike[str]"]
AnyScript = AnyFile
"""The text of a script, or a path that is no text."""


def text_of(script: AnyScript) -> str:
    """Returns the text of a script. A path, as of pathlib, is that of a file; text is a script itself."""
    if isinstance(script, str):
        return script
    with open(script, encoding="utf-8", errors="surrogateescape", newline="\n") as file:
        return file.read()


def name_of(script: AnyScript) -> str:
    """Returns what reports call a script."""
    return "script" if isinstance(script, str) else os.fspath(script)


def read(script: AnyScript) -> Tuple[Tuple[str, ...], Tuple[str, ...]]:
    """Returns the lines before `--`, none of which is refused, and those after it."""
    setup, changes = parse_script(text_of(script))
    with Tree(default_library()) as tree:
        for line in setup:
            reply = _reply(tree, line)
            if reply.startswith("err"):
                raise ValueError(f"the line {line!r} before `--` is refused: {reply.strip()}")
        for line in changes:
            if line != PAUSE:
                _reply(tree, line)
    return setup, changes


def _reply(tree: Tree, line: str) -> str:
    try:
        return tree.line(line)
    except OSError as fault:
        raise ValueError(f"{line!r} is not a line of a script: {fault.strerror}") from None
