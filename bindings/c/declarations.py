"""Reads declarations: those of watchtree.h and watchtree_threads.h in C, and those in Rust that stand for them."""
import re

RUST = {"*mut RawTree": "struct wt_tree *", "*mut *mut RawShared": "struct wtt **", "*mut RawShared": "struct wtt *"}
RUST |= {"*mut RawStat": "struct wt_stat *", "*const c_char": "const char *", "*const c_void": "const void *"}
RUST |= {"*mut c_void": "void *", "*mut u32": "uint32_t *", "c_int": "int", "usize": "size_t"}
RUST |= {"u32": "uint32_t", "i32": "int32_t", "u64": "uint64_t", "i64": "int64_t"}
# A declaration in Rust, and a row of the list of those that there are twice: for a tree without a lock, and with it.
IN_RUST = r"pub fn (wtt?_\w+)\((.*?)\)(?: -> (\w+))?;"
ROW = r"^    (wt_\w+) (wtt_\w+)\(([^()]*)\);$"


def plain(header):
    """Returns the text of a header without comments, with one space between words."""
    return re.sub(r"\s+", " ", re.sub(r"/\*.*?\*/", " ", header, flags=re.S))


def in_c(header):
    """Returns the declarations of a header by their names."""
    found = re.findall(r"(int64_t|void) (wtt?_\w+)\(([^)]*)\);", plain(header))
    return {name: f"{kind} {name}({words})" for kind, name, words in found}


def _of_rust(name, words, result):
    """Returns the declaration of C for one in Rust. A type without one stays as it is."""
    pairs = [[side.strip() for side in it.split(":")] for it in words.split(",") if it.strip()]
    kinds = [(RUST.get(kind, kind), word) for word, kind in pairs]
    taken = [f"{kind}{'' if kind.endswith('*') else ' '}{word}" for kind, word in kinds]
    return f"{RUST.get(result, result) if result else 'void'} {name}({', '.join(taken)})"


def in_rust(text):
    """Returns the declarations of C that those in Rust stand for, by their names."""
    found = {}
    for name, words, result in re.findall(IN_RUST, text, re.S):
        if not name.startswith("$"):
            found[name] = _of_rust(name, words, result)
    for one, other, words in re.findall(ROW, text, re.M):
        for name, tree in ((one, "*mut RawTree"), (other, "*mut RawShared")):
            found[name] = _of_rust(name, f"tree: {tree}, {words}", "i64")
    return found
