"""The shared object: where it is, and the types of its functions (watchtree_threads.h)."""

import ctypes
import functools
import os
from typing import Any, Optional

from ._arguments import AnyPath, path_text

QUEUE = 16384


class StatBuffer(ctypes.Structure):
    """struct wt_stat."""

    _fields_ = [
        ("links", ctypes.c_uint64),
        ("size", ctypes.c_uint64),
        ("number", ctypes.c_uint32),
        ("mode", ctypes.c_uint32),
        ("is_directory", ctypes.c_uint32),
    ]


_U32, _U64, _BYTES = ctypes.c_uint32, ctypes.c_uint64, (ctypes.c_char_p, ctypes.c_size_t)
_OUT, _STAT = (ctypes.c_void_p, ctypes.c_size_t), ctypes.POINTER(StatBuffer)
# The parameters of each function after the tree.
CALLS = {
    "wtt_cut": (),
    "wtt_mkdir": (*_BYTES, _U32),
    "wtt_create": (*_BYTES, _U32),
    "wtt_write": (*_BYTES, _U64, *_BYTES),
    "wtt_pread": (*_BYTES, _U64, *_OUT),
    "wtt_truncate": (*_BYTES, _U64),
    "wtt_chmod": (*_BYTES, _U32),
    "wtt_link": (*_BYTES, *_BYTES),
    "wtt_unlink": _BYTES,
    "wtt_rmdir": _BYTES,
    "wtt_rename": (*_BYTES, *_BYTES),
    "wtt_rename2": (*_BYTES, *_BYTES, _U32),
    "wtt_stat": (*_BYTES, _STAT),
    "wtt_list": (*_BYTES, *_OUT),
    "wtt_inotify_init": (_U32,),
    "wtt_inotify_add_watch": (_U32, *_BYTES, _U32),
    "wtt_inotify_rm_watch": (_U32, ctypes.c_int32),
    "wtt_read": (_U32, *_OUT, ctypes.c_int),
    "wtt_waiting": (_U32,),
    "wtt_inotify_close": (_U32,),
    "wtt_fd": (_U32,),
    "wtt_line": (_U32, *_BYTES, *_OUT),
    "wtt_text": _OUT,
    "wtt_bytes_waiting": (_U32,),
    "wtt_ready": _OUT,
    "wtt_peek_stat": (*_BYTES, _STAT),
    "wtt_peek_list": (*_BYTES, *_OUT),
    "wtt_peek_pread": (*_BYTES, _U64, *_OUT),
    "wtt_path_of": (_U64, *_OUT),
    "wtt_first_place": (),
    "wtt_last_place": (),
    "wtt_entry": (_U64, *_OUT),
    "wtt_fork": (ctypes.POINTER(ctypes.c_void_p),),
}
# The parameters of each function that takes no tree.
PLAIN = {"wt_version": _OUT, "wt_error_text": (ctypes.c_int64, *_OUT)}
# Functions that return nothing.
ENDS = ("wtt_shutdown", "wtt_close")


def find_library() -> str:
    """Returns the path of the shared object."""
    named = os.environ.get("LIBWATCHTREE")
    if named:
        return named
    here = os.path.dirname(os.path.realpath(__file__))
    beside, top = os.path.dirname(here), os.path.dirname(os.path.dirname(os.path.dirname(here)))
    for folder in (here, beside, top, os.path.join(top, "out")):
        path = os.path.join(folder, "libwatchtree.so")
        if os.path.exists(path):
            return path
    raise ImportError(f"no libwatchtree.so for {here}: run ./watchtree lib, or set LIBWATCHTREE")


def load(path: Optional[AnyPath] = None) -> ctypes.CDLL:
    """Loads the library, that of find_library() unless another is named, and declares its functions."""
    found = find_library() if path is None else os.fsdecode(path_text("path", path))
    library = ctypes.CDLL(found)
    types: Any = {name: (ctypes.c_void_p, *rest) for name, rest in CALLS.items()}
    types.update(PLAIN, wtt_open=(ctypes.POINTER(ctypes.c_void_p),), wtt_shutdown=(ctypes.c_void_p,))
    types.update(wtt_close=(ctypes.c_void_p,))
    for name, kinds in types.items():
        try:
            function = getattr(library, name)
        except AttributeError:
            raise ImportError(f"{found} has no function {name}: it is of another version") from None
        function.restype, function.argtypes = None if name in ENDS else ctypes.c_int64, kinds
    return library


@functools.lru_cache(maxsize=None)
def default_library() -> ctypes.CDLL:
    """Returns the library that a Tree uses unless it is given another."""
    return load()


def text_of(name: str, *words: int) -> str:
    """Returns a text of the library, which is shorter than 128 bytes; ValueError if there is none."""
    out = ctypes.create_string_buffer(128)
    count = getattr(default_library(), name)(*words, out, len(out))
    if count < 0:
        raise ValueError(*words)
    return out.raw[:count].decode("ascii")


def version() -> str:
    """Returns the version of the library, such as 1.0.0."""
    return text_of("wt_version")
