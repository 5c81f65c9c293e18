"""Compares a header with the synopsis of its man page: each function, its result and its parameters.

usage: manual.py HEADER PAGE

In the page a parameter `tree` stands for the struct that its description names. Afterwards each function is taken out
of the page, in memory, and given one parameter less, and each change must be seen.
"""
import re
import sys
from pathlib import Path

from declarations import in_c, plain


def in_page(text):
    """Returns the declaration of each function of the synopsis."""
    found = {}
    synopsis = text.partition(".Sh SYNOPSIS")[2].partition(".Sh DESCRIPTION")[0]
    tree = re.search(r'^\.Fa tree\nstands for\n\.Vt "([^"]*)" \.$', text, re.M)[1]
    for result, name, words in re.findall(r"^\.Ft (.*)\n\.Fn (\w+)(.*)$", synopsis, re.M):
        taken = [quoted or word for quoted, word in re.findall(r'"([^"]*)"|(\S+)', words)]
        taken = [tree if it == "tree" else it for it in taken]
        found[name] = plain(f"{result} {name}({', '.join(taken)})")
    return found


def differing(header, page):
    """Returns the names of the functions that the two declare differently, or that one of them lacks."""
    there, here = {name: plain(it) for name, it in in_c(header).items()}, in_page(page)
    return sorted(name for name in there.keys() | here.keys() if there.get(name) != here.get(name))


def unseen(header, page):
    """Returns the functions whose change in the page is not seen."""
    found = []
    for name in in_c(header):
        line = re.search(rf"^\.Fn {name} .*$", page, re.M)
        if not line:
            continue
        shorter = re.sub(r'\s("[^"]*"|\S+)$', "", line[0])
        for changed in (page.replace(line[0], ""), page.replace(line[0], shorter)):
            if name not in differing(header, changed):
                found.append(name)
    return found


def main():
    header, page = (Path(it).read_text(encoding="utf-8") for it in sys.argv[1:3])
    wrong = differing(header, page)
    for name in wrong:
        print(f"{name}: the header has {in_c(header).get(name)}, the page {in_page(page).get(name)}")
    missed = unseen(header, page)
    for name in missed:
        print(f"{name}: a change of the page is not seen")
    print(f"{len(in_page(page))} functions as in the header")
    return bool(wrong or missed)


if __name__ == "__main__":
    sys.exit(main())
