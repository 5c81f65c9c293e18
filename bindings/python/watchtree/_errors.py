"""The library's own error numbers, and the exception for a negative result."""

import os
from typing import NoReturn

from ._arguments import PathText, integer
from ._library import text_of

JOURNAL_FULL, COOKIES_SPENT, NUMBERS_SPENT = 1001, 1004, 1007
OWN = {
    1001: "JournalFull",
    1003: "Piped",
    1004: "CookiesSpent",
    1007: "NumbersSpent",
    1101: "bad byte: a line has spaces and the bytes from ! to ~",
    1102: "unknown command: watchtree(1) has all commands",
    1103: "wrong number of words: watchtree(1) has the words of each command",
    1104: "bad escape: after a % there are two hexadecimal digits",
    1105: "bad mode: it has 1 to 6 octal digits",
    1106: "bad hex: bytes are an even number of hexadecimal digits, or -",
    1107: "bad mask: it is 0x and 1 to 8 hexadecimal digits",
    1108: "bad number: it has 1 to 20 decimal digits and fits 32 bits; an offset or a length fits 64",
}


def fail(number: int, *paths: PathText) -> NoReturn:
    """Raises the OSError of an error number, with the paths of the call, as the module `os` does."""
    text = OWN.get(number) or os.strerror(number)
    if len(paths) == 2:
        raise OSError(number, text, paths[0], None, paths[1])
    raise OSError(number, text, *paths)


def error_text(number: int) -> str:
    """Returns what a negative result of the C library means, such as `ENOENT: No such file or directory`."""
    return text_of("wt_error_text", integer("number", number, -(2**63), 2**63 - 1))
