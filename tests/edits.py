"""The text of a must-fail edit, for tests/proved.

It has lines `file: PATH`, each followed by pairs of lines `old: TEXT` and `new: TEXT`. A pair replaces its old text, which is in
the file exactly once when the pairs before it are applied.
"""

import re

LINE = re.compile(r"(file|old|new): (.*)")
ORDER = re.compile(r"(?:file (?:old new )+)+")


def lines_of(edit):
    """Yields the number, the key and the text of each line. A line of another kind has no key."""
    for number, line in enumerate(edit.read_text(encoding="utf-8").splitlines(), 1):
        found = LINE.fullmatch(line)
        yield (number, *found.groups()) if found else (number, "", line)


def misplaced(folder, lines):
    """Yields each old text that is not in its file exactly once."""
    texts = {}
    for number, key, words in lines:
        if key == "file":
            file = folder / words
            if file not in texts:
                texts[file] = file.read_text(encoding="utf-8") if file.is_file() else ""
        elif key == "old":
            old, count = words, texts[file].count(words)
            if count != 1:
                yield f"line {number}: the old text is in {file.relative_to(folder)} {count} times, not once"
        else:
            texts[file] = texts[file].replace(old, words)


def faults_in(folder, edit):
    """Yields what is wrong with an edit of the crate in a folder."""
    lines = list(lines_of(edit))
    unknown = [number for number, key, _ in lines if not key]
    if unknown:
        yield from (f"line {number} is none of file:, old: and new:" for number in unknown)
    elif not ORDER.fullmatch("".join(f"{key} " for _, key, _ in lines)):
        yield "its lines are not each file: with its pairs of old: and new:"
    else:
        yield from misplaced(folder, lines)
