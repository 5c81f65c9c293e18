"""Random calls of a program, on a tree and on a disk: random_runs.py RUNNER [FIRST LAST].

For each seed the calls of random_calls.py are answered alike on a tree and on a disk; and with random lines of a script
that fall between them (--seed) two runs leave the same trace, output, listing and copy."""
import os
import random
import subprocess
import sys
import tempfile

HERE = os.path.dirname(os.path.abspath(__file__))
CALLS = os.path.join(HERE, "random_calls.py")
COUNT = "1500"


def lines(seed):
    """A script of 300 lines on the same names."""
    rng = random.Random(seed)

    def file():
        return "/" + rng.choice(["", "", "x/", "x/y/", "z/"]) + rng.choice("abcdef")

    def directory():
        return "/" + rng.choice(["x", "x/y", "z"])

    kinds = [lambda: f"create {file()} 644", lambda: f"unlink {file()}", lambda: f"rename {file()} {file()}",
             lambda: f"mkdir {directory()} 755", lambda: f"rmdir {directory()}",
             lambda: f"write {file()} {rng.choice([0, 5, 5000])} 616263", lambda: f"chmod {file()} 600",
             lambda: f"truncate {file()} {rng.choice([0, 3, 4000])}", lambda: f"link {file()} {file()}",
             lambda: f"rename {directory()} {directory()}", lambda: f"rename2 {file()} {file()} 2",
             lambda: f"cat {file()} 0 4", lambda: f"stat {file()}", lambda: "list /"]
    return "mkdir /x 755\n--\n" + "".join(rng.choice(kinds)() + "\n" for _ in range(300))


def run(*words):
    done = subprocess.run(words, stdin=subprocess.DEVNULL, capture_output=True, timeout=600)
    return done.returncode, done.stdout, done.stderr


def as_on_a_disk(runner, seed, room):
    disk = os.path.join(room, "disk")
    os.mkdir(disk)
    there = run(sys.executable, CALLS, disk, str(seed), COUNT)
    here = run(runner, "/dev/null", "--", sys.executable, CALLS, "/wt", str(seed), COUNT)
    if here != there:
        print(f"seed {seed}: status {here[0]}", here[2].decode()[-500:])
        for mine, theirs in zip(here[1].splitlines(), there[1].splitlines()):
            if mine != theirs:
                print("tree:", mine[:200], "disk:", theirs[:200], sep="\n")
                break
    return here == there


def same_twice(runner, seed, room):
    script = os.path.join(room, "script")
    with open(script, "w", encoding="ascii") as file:
        file.write(lines(seed))
    for name in "ab":
        status, _, errors = run(runner, "--seed", str(seed), "--out", os.path.join(room, name), script, "--",
                                sys.executable, CALLS, "/wt", str(seed), COUNT, "watch")
        if status not in (0, 123):
            print(f"seed {seed}: status {status}", errors.decode()[-500:])
            return False
    same = subprocess.run(["diff", "-r", os.path.join(room, "a"), os.path.join(room, "b")], capture_output=True, check=False)
    if same.returncode:
        print(f"seed {seed}:", same.stdout.decode()[:500])
    return same.returncode == 0


def main():
    runner = sys.argv[1]
    first, last = (int(word) for word in sys.argv[2:4]) if len(sys.argv) == 4 else (1, 5)
    failed = 0
    for seed in range(first, last + 1):
        for test in (as_on_a_disk, same_twice):
            with tempfile.TemporaryDirectory() as room:
                failed += not test(runner, seed, room)
    count = 2 * (last + 1 - first)
    print(f"{count - failed} of {count} random runs passed")
    return 1 if failed else 0


if __name__ == "__main__":
    sys.exit(main())
