"""Scripts of tests/linux's own: one that shows each class by itself, and random ones from a seed."""
import random

from .lines import lines_of

SEED, COUNT, FILLED = 20263, 160, 2
NAMES = "abc"
MASKS = ["0xfff"] * 6 + ["0x80000fff"] * 3 + [
    "0xc00", "0x404", "0x80000004", "0x80000400", "0x800", "0x100", "0x6c0", "0x1", "0x10", "0x80000020", "0x2000000a",
    "0x20000fff", "0x10000fff", "0x30000001", "0x01000fff", "0x0", "0x1000", "0x10001", "0x04000fff", "0x02000fff",
    "0x01000000", "0x80000000",
]
CALLS = [
    ("mkdir P M", 7), ("create P M", 9), ("write P N 6162", 4), ("write P N -", 1), ("cat P N 5", 4), ("truncate P N", 3),
    ("chmod P M", 4), ("link P P", 5), ("unlink P", 5), ("rmdir P", 4), ("rename P P", 12), ("rename2 P P F", 8), ("stat P", 2),
    ("list P", 3), ("watch I P B", 12), ("unwatch I W", 2), ("read I S", 8), ("close I", 1),
]
MODES = ["755"] * 6 + ["644"] * 3 + ["0", "7777", "10000", "2755", "1700"]
NUMBERS = ["0"] * 5 + ["1", "3", "9", "16777215", "16777216", "9223372036854775807", "9223372036854775808",
                       "18446744073709551615"]
SIZES = ["4096"] * 4 + ["0", "15", "16", "31", "32", "64", "100"]
FLAGS = ["0", "1", "1", "2", "2", "2", "3", "4", "5", "8"]
LONG = "/" + 256 * "n"


def path(chance):
    """A path of up to three names; now and then the root, a name that is too long, or a text that is no path here."""
    if chance.random() < 0.04:
        return chance.choice(["/", LONG, "/a" + LONG, "a", "/a/", "/./a", "/a/..", "/" + 4095 * "n", "//a", "/a//b"])
    return "".join("/" + chance.choice(NAMES) for _ in range(chance.choice((1, 1, 1, 2, 2, 3))))


def word(chance, kind):
    """A word of a kind."""
    if kind == "P":
        return path(chance)
    if kind == "I":
        return chance.choice("1111112223")
    if kind == "W":
        return chance.choice(("1", "2", "3", "4", "-1", "0", "9"))
    choices = {"M": MODES, "N": NUMBERS, "F": FLAGS, "B": MASKS, "S": SIZES}
    return chance.choice(choices[kind]) if kind in choices else kind


def random_script(seed, number):
    """A script of some sixty lines: a few files first, that the others find something."""
    chance = random.Random(seed * 1_000_003 + number)
    text = ["init", "init", "mkdir /a 755", "mkdir /b 755", "create /a/a 644", "watch 1 /a 0xfff", "watch 1 / 0xfff"]
    calls, weights = zip(*CALLS)
    for shape in chance.choices(calls, weights, k=60):
        text.append(" ".join(word(chance, it) for it in shape.split(" ")))
    return "\n".join([*text, "read 1 65536", "read 2 65536"])


def filled_script(seed, number, limit):
    """A script whose queue is filled to the limit of the kernel's queues but for a few records, and is then offered more."""
    chance = random.Random(seed * 1_000_033 + number)
    text = [f"init {limit}", "mkdir /a 755", "create /a/a 644", "create /a/b 644", "watch 1 /a 0xfff"]
    text += ["chmod /a/a 700", "chmod /a/b 700"] * (limit // 2 - 3)
    text += ["truncate /a/b 0", "truncate /a/b 0"]
    for _ in range(40):
        text.append(chance.choice(("chmod /a/a 700", "chmod /a/a 700", "chmod /a/b 700", "cat /a/a 0 1", "rename /a/a /a/a",
                                   "rename /a/b /a/c", "create /a/c 644", "unlink /a/c", "watch 1 /a 0xfff", "unwatch 1 1")))
        text += ["read 1 64"] * (chance.random() < 0.1)
    return "\n".join([*text, "read 1 4194304", "read 1 16"])


OVER = "init\nmkdir /d 755\ncreate /d/a 644\ncreate /d/b 644\nmkdir /d/c 755\nmkdir /d/e 755\n"
# For each class a script that shows it.
SHOWN = {
    "path-text": "mkdir a 755\nmkdir /b/ 755\nmkdir /b/./c 755\nmkdir /b/.. 755",
    "mode-bits": "mkdir /d 10000\ncreate /f 10755\nmkdir /e 755\nchmod /e 10700",
    "set-id-bits": "mkdir /d 6755\nstat /d\nmkdir /e 755\nchmod /e 2755\nmkdir /e/f 755\nstat /e/f",
    "directory-stat": "mkdir /d 755\nstat /d\nstat /",
    "list-order": "create /b 644\ncreate /a 644\ncreate /c 644\nlist /",
    "file-size": "create /f 644\nwrite /f 16777216 61\ntruncate /f 16777217",
    "short-write": "create /f 644\nwrite /f 16777215 6162\nwrite /f 16777215 61\nwrite /f 16777210 6162636465666768",
    "offset-sign": "create /f 644\nwrite /f 9223372036854775808 61\ncat /f 9223372036854775807 9\n"
                   "truncate /f 9223372036854775808",
    "unlink-directory": "mkdir /d 755\nunlink /d\nunlink /",
    "refusal-order": f"create /f 644\nmkdir /f{LONG} 755\nlink /f/g {LONG}\nlink / /f/g",
    "rename-refusal-order": "mkdir /d 755\ncreate /f 644\nrename /none /\nrename2 /f / 1\nrename /none /f/g\nrename2 /d /d/e/g 1",
    "watch-refusal-order": f"create /f 644\ninit\nwatch 2 /f 0x0\nwatch 2 {LONG} 0x1\nwatch 1 {LONG} 0x0\nwatch 1 /f{LONG} 0x1\n"
                           f"watch 1 /none{LONG} 0x1",
    "rename-onto-above": "mkdir /d 755\ncreate /d/f 644\nmkdir /d/e 755\ncreate /d/e/f 644\nrename /d/f /d\nrename /d/e/f /d",
    "whiteout": "create /f 644\nrename2 /f /g 4\nrename2 /f /g 5",
    "unknown-mask-bits": "init\nwatch 1 / 0x1100",
    "flags-alone": "init\nwatch 1 / 0x01000000\nwatch 1 / 0x8000",
    "directory-read": "init\nmkdir /d 755\nwatch 1 / 0xfff\nwatch 1 /d 0xfff\ncat /d 0 1",
    "oneshot-directory-read": "init\nmkdir /d 755\nwatch 1 /d 0x80000fff\ncat /d 0 1",
    "list-events": "init\nmkdir /d 755\nwatch 1 / 0xfff\nwatch 1 /d 0xfff\nlist /d",
    "oneshot-list-events": "init\nmkdir /d 755\nwatch 1 /d 0x80000fff\nlist /d",
    "move-self-first": OVER + "watch 1 /d/a 0xfff\nwatch 1 /d/b 0xfff\nrename /d/a /d/b",
    "replaced-directory-attrib": OVER + "watch 1 /d/c 0xfff\nwatch 1 /d/e 0xfff\nrename /d/c /d/e",
    "merge-without-cookie": "init\nmkdir /d 755\nwatch 1 /d 0x40\ncreate /d/f 644\nrename /d/f /f\nrename /f /d/f\n"
                            "rename /d/f /f\nread 1 4096",
    "one-limit-for-all": "init 1\nmkdir /d 755\nwatch 1 /d 0x100\ncreate /d/a 644\ncreate /d/b 644\nread 1 4096",
}
FULL = "limit-before-merge"


def full_script(limit):
    """A script whose queue is just full when the last record comes again."""
    text = [f"init {limit}", "mkdir /a 755", "create /a/a 644", "create /a/b 644", "watch 1 /a 0x4"]
    text += ["chmod /a/b 700"] * (limit % 2)
    return "\n".join([*text, *["chmod /a/a 700", "chmod /a/b 700"] * (limit // 2), "chmod /a/b 700", "read 1 4194304"])


def shown_scripts(limit):
    """A script for each class, by their names; one that fills a queue where a queue here can be as long as the kernel's."""
    found = {f"of {name}": text for name, text in SHOWN.items()}
    if limit <= 65535:
        found[f"of {FULL}"] = full_script(limit)
    return {name: lines_of(text.encode()) for name, text in found.items()}


def random_scripts(seed, limit):
    """The scripts made from a seed, by their names; those that fill a queue under the same condition."""
    found = {f"random {number}": random_script(seed, number) for number in range(COUNT)}
    if limit <= 65535:
        found.update({f"filled {number}": filled_script(seed, number, limit) for number in range(FILLED)})
    return {name: lines_of(text.encode()) for name, text in found.items()}
