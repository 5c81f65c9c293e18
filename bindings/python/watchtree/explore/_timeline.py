"""The text of a run: what the consumer asked, what happened, and which events it read."""

import ctypes
import errno
import os
from typing import List, Optional, Sequence, Tuple

from .._errors import OWN
from .._events import Mask, parse

_RENAMED = {"wtt_inotify_init": "inotify", "wtt_inotify_close": "close instance", "wtt_pread": "read file"}
_INDENT = " " * 10


def mask_text(mask: int) -> str:
    """Returns the names of the bits of a mask."""
    bits = [it for it in Mask if it & mask == it and it & (it - 1) == 0]
    return "|".join(it.name or "" for it in bits)


def _words(words: Tuple[object, ...]) -> List[str]:
    """Returns the arguments of a call without lengths and buffers."""
    found: List[str] = []
    rest = list(words)
    while rest:
        word = rest.pop(0)
        if isinstance(word, bytes):
            found.append(os.fsdecode(word))
            del rest[:1]
        elif isinstance(word, ctypes.Array):
            del rest[:1]
        elif isinstance(word, int):
            found.append(str(word))
    return found


def _reply(answer: object) -> str:
    if isinstance(answer, OSError):
        number = answer.errno or 0
        return errno.errorcode.get(number) or OWN.get(number) or str(number)
    if isinstance(answer, bytes):
        return " ".join(it.decode(errors="backslashreplace") for it in answer.split(b"\0")[:-1]) or "nothing"
    return str(answer)


class _Mask(int):
    def __str__(self) -> str:
        return mask_text(self)


class Timeline:
    """Collects the text of one run."""

    def __init__(self, setup: Sequence[str]) -> None:
        self._text = [f"{_INDENT}> {it}" for it in setup]
        self.script = ""
        """The journal of the run when the consumer has ended, as a script."""

    def __str__(self) -> str:
        return "\n".join(self._text)

    def line(self, line: bytes, reply: bytes, before: Optional[int]) -> None:
        when = "at rest" if before is None else f"before request {before}"
        short = os.fsdecode(reply.split(b"\n")[0])
        refused = f": {short}" if short.startswith("err") else ""
        self._text.append(f"{_INDENT}> {os.fsdecode(line)}{refused}  [{when}]")

    def request(self, number: int, name: str, words: Tuple[object, ...], answer: object) -> None:
        call = _RENAMED.get(name, name.replace("wtt_", "").replace("inotify_", ""))
        if name == "wtt_inotify_add_watch" and isinstance(words[-1], int):
            words = (*words[:-1], _Mask(words[-1]))
        self._text.append(f"{number:8}  {' '.join([call, *_words(words)])} = {_reply(answer)}")

    def read(self, number: int, instance: int, data: bytes, limit: Optional[int]) -> None:
        most = "" if limit is None else f", at most {limit}"
        self._text.append(f"{number:8}  read {instance}{most}:")
        for event in parse(data):
            cookie = f" cookie {event.cookie}" if event.cookie else ""
            name = f" {event.name}" if event.name else ""
            self._text.append(f"{_INDENT}< wd {event.wd} {mask_text(event.mask)}{cookie}{name}")

    def end(self) -> None:
        self._text.append(f"{_INDENT}the end: no line is left, and no record waits")

    def failed(self, where: str, fault: BaseException) -> None:
        self._text.append(f"{_INDENT}{where} failed: {type(fault).__name__}: {fault}")
