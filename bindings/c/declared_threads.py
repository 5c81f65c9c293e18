"""Compares watchtree_threads.h with watchtree.h and with its declarations in Rust, and the masks of all three languages.

usage: declared_threads.py HEADER HEADER-FOR-THREADS FOLDER-OF-RUST-SOURCES LIBRARY.so

Each call wt_X of a tree has a call wtt_X with the same parameters; `wtt_read` has a time limit more, `wtt_open` and
`wtt_fork` store their tree, `wtt_fd` is new. The bits of a mask are those of <sys/inotify.h>, by name and value, in Rust
and in Python. Afterwards each declaration and each bit is changed, a word at a time, and each change must be seen.
"""
import re
import shutil
import subprocess
import sys
from pathlib import Path

import watchtree
from declarations import IN_RUST, ROW, in_c, in_rust

OWN = {
    "wtt_open": "int64_t wtt_open(struct wtt **tree)",
    "wtt_fork": "int64_t wtt_fork(struct wtt *tree, struct wtt **fork)",
    "wtt_close": "void wtt_close(struct wtt *tree)",
    "wtt_shutdown": "void wtt_shutdown(struct wtt *tree)",
    "wtt_fd": "int64_t wtt_fd(struct wtt *tree, uint32_t instance)",
}


def wanted(header):
    """Returns the declarations that the header for threads is to have."""
    found = dict(OWN)
    for name, call in in_c(header).items():
        if "struct wt_tree *tree" in call and f"wtt_{name[3:]}" not in found:
            own = call.replace(f" {name}(", f" wtt_{name[3:]}(").replace("struct wt_tree *tree", "struct wtt *tree")
            found[f"wtt_{name[3:]}"] = own.replace(")", ", int milliseconds)") if name == "wt_read" else own
    return found


def value(text, known):
    """Returns the number that an expression of bits stands for."""
    parts = [it.strip() for it in text.strip("() ").split("|")]
    return sum(known[it] if it in known else int(it.replace("_", ""), 0) for it in parts)


def bits_of(pattern, text):
    """Returns the bits that the lines of a text define, by their names."""
    found = {}
    for name, words in re.findall(pattern, text, re.M):
        found[name] = value(words, found)
    return found


def bits_of_linux(text):
    """Returns the bits of <sys/inotify.h>."""
    text = re.sub(r"\\\n", " ", re.sub(r"/\*.*?\*/", " ", text, flags=re.S))
    # (the flags of inotify_init1 are no bits of a mask)
    found = bits_of(r"^#\s*define\s+(IN_(?!CLOEXEC|NONBLOCK)\w+)\s+([^\n]+)$", text)
    return {name[3:]: number for name, number in found.items()}


def differences(header, threads, rust, mask, linux):
    """Returns what differs."""
    there, asked, bound = in_c(threads), wanted(header), in_rust(rust)
    there = {name: call for name, call in there.items() if name.startswith("wtt_")}
    found = [f"in C: {there.get(it)} is to be {asked.get(it)}" for it in asked | there if there.get(it) != asked.get(it)]
    asked = {**in_c(header), **asked}
    found += [f"in Rust: {bound.get(it)} is to be {asked.get(it)}" for it in asked | bound if bound.get(it) != asked.get(it)]
    bits = bits_of(r"^pub const (\w+): u32 = ([^;]+);", mask)
    found += [f"in Rust: bit {it} differs" for it in bits | linux if bits.get(it) != linux.get(it)]
    return found


def words_of(text, pattern):
    """Returns where the words of the declarations of a text stand."""
    at = [it.span() for it in re.finditer(pattern, text, re.S)]
    return [(low + it.start(), low + it.end()) for low, high in at for it in re.finditer(r"\w+", text[low:high])]


def unseen(header, threads, rust, mask, linux):
    """Changes one word at a time in the header for threads and in Rust; returns how many, and the changes that pass."""
    texts = [re.sub(r"/\*.*?\*/", "", threads, flags=re.S), rust, mask]
    patterns = [r"(?:int64_t|void) wtt_\w+\([^)]*\);", f"{IN_RUST}|(?m:{ROW})", r"pub const \w+: u32 = [^;]+;"]
    passed, count = [], 0
    for which, pattern in enumerate(patterns):
        for low, high in words_of(texts[which], pattern):
            word = texts[which][low:high]
            if word in ("pub", "fn", "const") and which:
                continue
            changed = list(texts)
            other = "0x3" if word[0].isdigit() else "other"
            changed[which] = texts[which][:low] + other + texts[which][high:]
            count += 1
            try:
                seen = differences(header, *changed, linux)
            except (KeyError, ValueError):
                seen = True
            if not seen:
                passed.append(f"{word} at {low} of {('the header', 'Rust', 'the masks in Rust')[which]}")
    return count, passed


def main():
    header, threads = (Path(it).read_text() for it in sys.argv[1:3])
    sources = Path(sys.argv[3])
    rust, mask = ((sources / it).read_text() for it in ("sys.rs", "mask.rs"))
    ran = subprocess.run(
        ["cc", "-E", "-dD", "-xc", "-"], input="#include <sys/inotify.h>\n", capture_output=True, text=True, check=True
    )
    linux = bits_of_linux(ran.stdout)
    found = differences(header, threads, rust, mask, linux)
    python = {it: int(number) for it, number in watchtree.Mask.__members__.items()}
    found += [f"in Python: bit {it} differs" for it in python if python[it] != linux.get(it)]
    single = {it for it, number in linux.items() if number & (number - 1) == 0}
    found += [f"in Python: there is no bit {it}" for it in single if it not in python]
    if shutil.which("nm"):
        ran = subprocess.run(["nm", "-D", "--defined-only", sys.argv[4]], capture_output=True, text=True, check=True)
        defined = {it.split()[2] for it in ran.stdout.splitlines() if it.split()[2].startswith("wtt_")}
        found += [f"the library and the header differ in {it}" for it in defined ^ set(wanted(header))]
    count, passed = unseen(header, threads, rust, mask, linux)
    found += [f"not seen: {it}" for it in passed]
    print("\n".join(found) or f"{len(wanted(header))} declarations, {len(linux)} masks; {count} changes, each seen")
    return 1 if found or count < 300 or len(linux) < 25 else 0


if __name__ == "__main__":
    sys.exit(main())
