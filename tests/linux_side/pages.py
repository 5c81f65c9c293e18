"""The pages that name the classes: docs/PROFILE.md and docs/LINUX.md."""
import os
import re

SENTENCE = re.compile(r"\*Linux\*(?:\s+\(((?:`[a-z-]+`(?:,\s+)?)+)\))?")
ROW = re.compile(r"^\| `([a-z-]+)` \|", re.M)


def page(docs, name):
    """The text of a page."""
    with open(os.path.join(docs, name), encoding="utf-8") as it:
        return it.read()


def judge(docs, shown, spared):
    """What is wrong with the classes that were shown and those that the pages name, and all classes."""
    marks = SENTENCE.findall(page(docs, "PROFILE.md"))
    profile = {name for mark in marks for name in re.findall(r"`([a-z-]+)`", mark)}
    rows = ROW.findall(page(docs, "LINUX.md"))
    classes = sorted(profile | set(rows) | shown)
    wrong = [f"PROFILE.md has a *Linux* without a class, {marks.count('')} times"] * ("" in marks)
    for name in classes:
        faults = [
            ("no *Linux* sentence of PROFILE.md names it", name not in profile),
            (f"LINUX.md has {rows.count(name)} rows of it", rows.count(name) != 1),
            ("no difference shows it", name not in shown | spared),
        ]
        said = "; ".join(text for text, holds in faults if holds)
        wrong += [f"class {name}: {said}"] if said else []
    return wrong, classes
