"""Compares watchtree.h with the functions and structs that the proved crate exports, by name, arguments and sizes.

usage: declared.py HEADER SOURCES-OF-THE-CRATE LIBRARY.so DECLARATIONS-IN-RUST

Each `pub extern "C" fn` of the crate has one declaration in C, by these rules: `alloc: Global` takes no bytes, and has
no parameter; a slice is a pointer and its length; a struct of the crate is a struct of C, field by field. The text that
these rules give is compared with the header's, the names with those that the library defines. So are the declarations
in Rust; python/declared.py looks at those in Python. Afterwards the header and the crate are changed in memory, a word
at a time, and each change must be seen.
"""
import ctypes
import re
import shutil
import subprocess
import sys
from pathlib import Path

from declarations import in_c, in_rust, plain

PLAIN = {"u32": "uint32_t", "i32": "int32_t", "u64": "uint64_t", "i64": "int64_t", "bool": "bool", "*mut u8": "void *"}
STRUCTS = {"TreeHandle": "wt_tree", "Stat": "wt_stat"}
SIZES = {"void *": ctypes.c_void_p, "bool": ctypes.c_bool, "uint64_t": ctypes.c_uint64, "uint32_t": ctypes.c_uint32}
# What the layout of C gives each struct: its size in bytes.
WANTED_SIZES = {"wt_tree": 16, "wt_stat": 32}


def parameter(name, kind):
    """Returns the parameters of C for a parameter of the crate."""
    if kind == "Global":
        return []
    if kind == "&[u8]":
        pointer = "const void *" if name == "bytes" else "const char *"
        return [f"{pointer}{name}", f"size_t {name}_len"]
    if kind in ("&mut [u8]", "&mut [u32]"):
        return [f"{'void' if 'u8' in kind else 'uint32_t'} *{name}", f"size_t {name}_len"]
    if kind.startswith("&mut "):
        return [f"struct {STRUCTS[kind[5:]]} *{name}"]
    return [f"{PLAIN[kind]} {name}"]


def exported(text):
    """Returns the declaration that each exported function of the crate is to have."""
    found = {}
    for name, words, result in re.findall(r'pub extern "C" fn (\w+)\(([^)]*)\)\s*(?:->\s*(\w+))?', text):
        pairs = [it.split(":", 1) for it in words.split(",") if it.strip()]
        taken = [it for name_, kind in pairs for it in parameter(name_.strip(), kind.strip())]
        kind = PLAIN[result] if result else "void"
        found[name] = f"{kind} {name}({', '.join(taken)})"
    return found


def fields(text, name):
    """Returns the fields of a struct of the crate as C has them; a field without bytes is skipped."""
    body = re.search(r"#\[repr\(C\)\]\s*(?:#\[[^\]]*\]\s*)*pub struct " + name + r" \{(.*?)\n\}", text, re.S)
    if not body:
        return None
    found = []
    for field, kind in re.findall(r"^\s*(?:pub )?(\w+): ([^,{]+),$", body[1], re.M):
        if kind in STRUCTS or kind == "OpenTree":
            found += fields(text, kind) or [("?", kind)]
        elif kind != "Global":
            found.append((PLAIN.get(kind, kind), field))
    return found


def declared(header):
    """Returns the declarations and the structs of the header, with one space between words."""
    structs = {}
    for name, body in re.findall(r"struct (wt_\w+) \{([^}]*)\};", plain(header)):
        pairs = re.findall(r"(void \*|\w+ )(\w+);", body)
        structs[name] = [(kind if kind == "void *" else kind.strip(), field) for kind, field in pairs]
    return in_c(header), structs


def differences(header, source):
    """Returns what differs between the header's text and the crate's."""
    calls, structs = declared(header)
    wanted = exported(source)
    found = [f"only in the crate: {it}" for it in wanted if it not in calls]
    found += [f"only in the header: {it}" for it in calls if it not in wanted]
    found += [f"{calls[it]} is to be {wanted[it]}" for it in wanted if calls.get(it, wanted[it]) != wanted[it]]
    for name, in_c in STRUCTS.items():
        if fields(source, name) != structs.get(in_c):
            found.append(f"struct {in_c} {structs.get(in_c)} is to be {fields(source, name)}")
    for name, parts in structs.items():
        pairs = [(field, SIZES.get(kind, ctypes.c_char)) for kind, field in parts]
        layout = type(name, (ctypes.Structure,), {"_fields_": pairs})
        if ctypes.sizeof(layout) != WANTED_SIZES.get(name):
            found.append(f"struct {name} has {ctypes.sizeof(layout)} bytes, and not {WANTED_SIZES.get(name)}")
    return found


def bound(header, rust, library):
    """Returns what differs between the header and the declarations in Rust, and in WT_QUEUE."""
    calls = in_c(header)
    # (declared_threads.py looks at the calls with a lock)
    there = {name: call for name, call in in_rust(rust).items() if name.startswith("wt_")}
    found = [f"in Rust: {it} differs" for it in calls | there if calls.get(it) != there.get(it)]
    queue = re.search(r"#define WT_QUEUE (\d+)\n", header)
    if not queue or f"pub const QUEUE: u32 = {queue[1]};" not in library:
        found.append("in Rust: WT_QUEUE differs")
    return found


def unseen(header, source):
    """Changes one word of a declaration at a time, in the header and in the crate; returns the changes that pass."""
    passed, count = [], 0
    text = re.sub(r"/\*.*?\*/", "", header, flags=re.S)
    at = [it.span() for it in re.finditer(r"(?:int64_t|void) wt_\w+\([^)]*\);|struct wt_\w+ \{[^}]*\};", text)]
    places = [(it.start() + low, it.end() + low) for low, high in at for it in re.finditer(r"\w+", text[low:high])]
    places = [it for it in places if text[it[0] : it[1]] not in ("struct",)]
    for low, high in places:
        count += 1
        if not differences(text[:low] + "other" + text[high:], source):
            passed.append(f"header, {text[low:high]} at {low}")
    at = [it.span(1) for it in re.finditer(r'pub extern "C" fn (\w+\([^)]*\)\s*(?:-> \w+)?)', source)]
    for low, high in at:
        for it in re.finditer(r"&mut \[u32\]|u32|i32|u64|i64|&mut \[u8\]|&\[u8\]|\bwt_\w+", source[low:high]):
            count += 1
            other = {"u32": "u64", "i32": "i64", "u64": "u32", "i64": "u32", "&mut [u8]": "&[u8]", "&[u8]": "&mut [u8]"}
            other["&mut [u32]"] = "&mut [u8]"
            changed = source[: low + it.start()] + other.get(it[0], "wt_other") + source[low + it.end() :]
            if not differences(header, changed):
                passed.append(f"crate, {it[0]} at {low + it.start()}")
    return count, passed


def main():
    header = Path(sys.argv[1]).read_text()
    source = "\n".join(it.read_text() for it in sorted(Path(sys.argv[2]).glob("*.rt")))
    found = differences(header, source)
    rust = Path(sys.argv[4])
    found += bound(header, rust.read_text(), rust.with_name("lib.rs").read_text())
    library = ctypes.CDLL(sys.argv[3])
    found += [f"the library lacks {it}" for it in exported(source) if not hasattr(library, it)]
    if shutil.which("nm"):
        ran = subprocess.run(["nm", "-D", "--defined-only", sys.argv[3]], capture_output=True, text=True, check=True)
        # (declared_threads.py looks at the layer for threads)
        defined = {it.split()[2] for it in ran.stdout.splitlines() if not it.split()[2].startswith("wtt_")}
        found += [f"the library also shows {it}" for it in defined if it not in exported(source)]
    count, passed = unseen(header, source)
    found += [f"not seen: {it}" for it in passed]
    fine = f"{len(exported(source))} declarations, {len(STRUCTS)} structs; {count} changes, each seen"
    print("\n".join(found) or fine)
    return 1 if found or count < 100 else 0


if __name__ == "__main__":
    sys.exit(main())
