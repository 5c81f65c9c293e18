"""Checks what callers pass. An error names the parameter, and the type or the value that it was given."""

import numbers
import operator
import os
from typing import TYPE_CHECKING, Union

if TYPE_CHECKING:
    from _typeshed import ReadableBuffer

AnyPath = Union[str, bytes, "os.PathLike[str]", "os.PathLike[bytes]"]
PathText = Union[str, bytes]


def wrong_type(name: str, wanted: str, given: object) -> TypeError:
    """Returns the error for a parameter that was given another type."""
    return TypeError(f"{name} must be {wanted}, not {type(given).__name__}")


def integer(name: str, given: int, low: int, high: int) -> int:
    """Returns the number if it is within bounds; ctypes would truncate others."""
    try:
        number = operator.index(given)
    except TypeError:
        raise wrong_type(name, "an integer", given) from None
    if not low <= number <= high:
        raise OverflowError(f"{name} must be between {low} and {high}, not {number}")
    return number


def unsigned(name: str, given: int, bits: int = 32) -> int:
    """Returns the number if it fits into `bits` bits."""
    return integer(name, given, 0, 2**bits - 1)


def path_text(name: str, given: AnyPath) -> PathText:
    """Returns the text of a path as OSError.filename has it: str or bytes, as the caller passed it."""
    if not isinstance(given, (str, bytes, os.PathLike)):
        raise wrong_type(name, "str, bytes or os.PathLike", given)
    return os.fspath(given)


def data_bytes(name: str, given: "ReadableBuffer") -> bytes:
    """Returns the bytes of bytes, a bytearray, an array and the like. (bytes(5) would be five zero bytes.)"""
    try:
        view = memoryview(given)
    except TypeError:
        raise wrong_type(name, "a bytes-like object", given) from None
    return view.tobytes()


def seconds(name: str, given: float) -> float:
    """Returns a time in seconds that is not negative."""
    if not isinstance(given, numbers.Real):
        raise wrong_type(name, "None or a number", given)
    if not given >= 0:
        raise ValueError(f"{name} must be None or a non-negative number, not {given}")
    return given
