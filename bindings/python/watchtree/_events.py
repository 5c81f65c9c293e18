"""Events, their masks, and the records of inotify(7) that they are read from."""

import enum
import os
import struct
from typing import TYPE_CHECKING, Iterator, List, NamedTuple

from ._arguments import data_bytes

if TYPE_CHECKING:
    from _typeshed import ReadableBuffer

_HEAD = struct.Struct("=iIII")


class Mask(enum.IntFlag):
    """The bits of <sys/inotify.h>."""

    ACCESS = 0x1
    MODIFY = 0x2
    ATTRIB = 0x4
    CLOSE_WRITE = 0x8
    CLOSE_NOWRITE = 0x10
    OPEN = 0x20
    MOVED_FROM = 0x40
    MOVED_TO = 0x80
    CREATE = 0x100
    DELETE = 0x200
    DELETE_SELF = 0x400
    MOVE_SELF = 0x800
    CLOSE = 0x18
    MOVE = 0xC0
    ALL_EVENTS = 0xFFF
    UNMOUNT = 0x2000
    Q_OVERFLOW = 0x4000
    IGNORED = 0x8000
    ONLYDIR = 0x1000000
    DONT_FOLLOW = 0x2000000
    EXCL_UNLINK = 0x4000000
    MASK_CREATE = 0x10000000
    MASK_ADD = 0x20000000
    ISDIR = 0x40000000
    ONESHOT = 0x80000000


class Event(NamedTuple):
    """A record of inotify(7). The name is '' if there is none."""

    wd: int
    mask: Mask
    cookie: int
    name: str


def records(data: bytes) -> Iterator[bytes]:
    """Splits what read(2) on an inotify descriptor returns into its records."""
    at = 0
    while at < len(data):
        end = at + _HEAD.size + _HEAD.unpack_from(data, at)[3]
        yield data[at:end]
        at = end


def parse_one(record: bytes) -> Event:
    """Returns the event of a record."""
    wd, mask, cookie, _ = _HEAD.unpack_from(record)
    return Event(wd, Mask(mask), cookie, os.fsdecode(record[_HEAD.size :].rstrip(b"\0")))


def parse(data: "ReadableBuffer") -> List[Event]:
    """Returns the events of what read(2) on an inotify descriptor returns."""
    return [parse_one(it) for it in records(data_bytes("data", data))]
