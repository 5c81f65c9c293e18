"""Tests of the Python module: what each call answers and raises, and that it agrees with `watchtree run`.

usage: test_watchtree.py [--seed SEED] PROGRAM [NAME..]: the program that runs scripts, and the tests to run, all unless
named. The random calls are made from the seed, which is printed; where they fail the command that runs them again is too.
"""

import argparse
import doctest
import errno
import os
import random
import shlex
import subprocess
import sys
import traceback

import watchtree
from watchtree import Event, Mask, Stat, Tree

CALLS = 20_000
SEED = 20_240_229


def raises(number, call, *words):
    """Returns whether a call raises OSError with this errno."""
    try:
        call(*words)
    except OSError as fault:
        return fault.errno == number
    return False


def test_session():
    """Each method once, and its events."""
    with Tree() as tree, tree.inotify() as instance:
        assert tree.mkdir("/d") == 2 and tree.create(b"/d/f", 0o600) == 3
        assert instance.add_watch("/d") == 1 and instance.waiting == 0 and instance.read() == []
        assert tree.write("/d/f", b"hello") == 5 and tree.read("/d/f", 9, 1) == b"ello"
        tree.truncate("/d/f", 2)
        tree.chmod("/d/f", 0o640)
        assert tree.stat("/d/f") == Stat(3, False, 0o640, 1, 2)
        tree.link("/d/f", "/d/g")
        assert tree.listdir("/d") == ["f", "g"] and tree.stat("/d/g").links == 2
        tree.unlink("/d/g")
        tree.create("/d/h")
        tree.rename2("/d/f", "/d/h", watchtree.RENAME_EXCHANGE)
        assert tree.stat("/d/h").number == 3 and raises(errno.EEXIST, tree.rename2, "/d/f", "/d/h", 1)
        tree.rename2("/d/h", "/d/f", 0)
        tree.rename("/d/f", "/d/\udcff")
        assert tree.listdir("/d") == ["\udcff"]
        place = tree.cut()
        assert tree.peek_stat("/d") == tree.stat("/d") and tree.peek_listdir("/d") == ["\udcff"]
        assert tree.peek_read("/d/\udcff", 9) == b"he"
        assert raises(errno.ENOENT, tree.peek_stat, "/none") and tree.cut() == place + 1
        waiting, size = instance.waiting, instance.bytes_waiting
        events = instance.read()
        assert size == waiting * 16 + sum(16 for it in events if it.name)
        assert len(events) == waiting and events[-1] == Event(1, Mask.MOVED_TO, events[-2].cookie, "\udcff")
        assert events[-2].mask == Mask.MOVED_FROM and events[-2].cookie > 0
        tree.unlink("/d/\udcff")
        assert [it.mask for it in instance.read(1 << 16)] == [Mask.DELETE]
        instance.rm_watch(1)
        assert instance.read() == [Event(1, Mask.IGNORED, 0, "")]
        tree.rmdir("/d")
        place = tree.cut()
        assert place == tree.cut() and tree.listdir() == [] and tree.mkdir("/d") == 5


def test_refusals():
    """What is refused is raised with its errno, by the class that Python has for it, and changes nothing."""
    tree = Tree()
    tree.mkdir("/d")
    try:
        tree.mkdir("/d")
    except FileExistsError as fault:
        assert fault.errno == errno.EEXIST
    else:
        raise AssertionError("a directory is made twice")
    assert raises(errno.ENOENT, tree.unlink, "/none") and raises(errno.EISDIR, tree.read, "/d", 1)
    assert raises(errno.EINVAL, tree.mkdir, "d") and raises(errno.EBUSY, tree.rename, "/d", "/")
    instance = tree.inotify(1)
    assert raises(errno.EINVAL, tree.inotify, 0) and raises(errno.EAGAIN, instance.read_bytes)
    assert raises(errno.EINVAL, instance.rm_watch, 1) and raises(errno.ENOENT, instance.add_watch, "/none")
    instance.add_watch("/d")
    tree.create("/d/f")
    tree.create("/d/g")
    assert raises(errno.EINVAL, instance.read_bytes, 31) and len(instance.read_bytes(32)) == 32
    assert [it.mask for it in instance.read()] == [Mask.Q_OVERFLOW]
    instance.close()
    assert raises(errno.EBADF, instance.close) and raises(errno.EBADF, lambda: instance.waiting)
    # A number that does not fit into C's type makes no call, and no count is below zero.
    calls = [(tree.mkdir, "/e", -1), (tree.mkdir, "/e", 2**32), (tree.read, "/d/f", -1), (instance.read_bytes, -1)]
    for call, *words in calls:
        try:
            call(*words)
        except OverflowError:
            continue
        raise AssertionError(words)
    assert watchtree.error_text(-errno.EEXIST) == "EEXIST: File exists"
    assert watchtree.error_text(-watchtree.JOURNAL_FULL).startswith("JournalFull: ")
    tree.close()
    tree.close()
    assert raises(errno.EBADF, tree.mkdir, "/e") and raises(errno.EBADF, tree.cut)


def test_room():
    """What does not fit into the first buffer is not lost: names, texts, records."""
    with Tree() as tree, tree.inotify() as instance:
        instance.add_watch("/")
        names = [f"{i:03}" + "n" * 200 for i in range(100)]
        for name in names:
            tree.create(f"/{name}")
        assert tree.listdir() == names
        text = tree.line("list /")
        assert text == "ok 100\n" + "".join(f"  {it}\n" for it in names)
        got = []
        while instance.waiting:
            got += [it.name for it in instance.read(300) if it.mask & Mask.CREATE]
        assert got == names
        assert raises(1102, tree.line, "nothing /d") and raises(1105, tree.line, "mkdir /d 9")
        assert tree.line("mkdir /d 755") == "ok 102\n" and tree.line("# a remark") == ""


def test_example():
    """The example in the module's text."""
    ran = doctest.testmod(watchtree)
    assert ran.failed == 0 and ran.attempted > 0


class Scribe:
    """Makes calls on a tree, and writes for each its line of a script and the reply that the program prints."""

    def __init__(self):
        self.tree = Tree()
        self.instances = {}
        self.lines, self.replies = [], []
        # A read that finds no record or no instance has an entry in the program's journal, and none in the module's.
        self.empty_reads = 0

    def note(self, line, call, text):
        self.lines.append(line)
        try:
            value = call()
            self.replies.append("ok\n" if value is None else f"ok {text(value)}\n")
        except OSError as fault:
            self.empty_reads += line.startswith("hex") and fault.errno in (errno.EAGAIN, errno.EBADF)
            name = errno.errorcode.get(fault.errno) or watchtree.OWN[fault.errno]
            self.replies.append(f"err {name} {fault.errno}\n")

    def instance(self, number):
        return self.instances.get(number) or watchtree.Instance(self.tree, number)

    def init(self, limit):
        def made():
            instance = self.tree.inotify(limit)
            self.instances[instance.number] = instance
            return instance.number

        self.note(f"init {limit}", made, str)


def stat_text(stat):
    return f"{stat.number} {'d' if stat.is_directory else 'f'} {stat.mode:04o} {stat.links} {stat.size}"


def bytes_text(data):
    return data.hex() or "-"


def list_text(names):
    return "\n  ".join([str(len(names)), *names])


def records_text(data):
    return f"{len(data)}\n  {data.hex()}"


def one_call(rng, scribe):
    """Makes one random call."""
    tree = scribe.tree
    names = ["a", "b", "cc", "d" * 40, "e"]
    path = "/" + "/".join(rng.choice(names) for _ in range(rng.randint(1, 3)))
    to = "/" + "/".join(rng.choice(names) for _ in range(rng.randint(1, 3)))
    mode, offset, count = rng.choice([0o755, 0o644, 0o7777, 0o600]), rng.randint(0, 9), rng.randint(0, 9)
    data = rng.randbytes(rng.randint(0, 6))
    number, wd = rng.randint(1, 5), rng.randint(1, 9)
    mask = rng.choice([0xFFF, 0xFFF, 0x3C0, 0x80000FFF, 0x01000FFF, 0x20000002, 0x10000FFF, 0x30000FFF, 0])
    room = rng.choice([0, 15, 16, 31, 32, 100, 4096])
    limit, flags = rng.choice([0, 1, 3, 50]), rng.choice([0, 1, 2, 2, 3])
    instance = scribe.instance(number)
    choices = [
        ("mkdir", f"{path} {mode:o}", lambda: tree.mkdir(path, mode), str, 8),
        ("create", f"{path} {mode:o}", lambda: tree.create(path, mode), str, 8),
        ("write", f"{path} {offset} {bytes_text(data)}", lambda: tree.write(path, data, offset), str, 4),
        ("cat", f"{path} {offset} {count}", lambda: tree.read(path, count, offset), bytes_text, 2),
        ("truncate", f"{path} {count}", lambda: tree.truncate(path, count), str, 2),
        ("chmod", f"{path} {mode:o}", lambda: tree.chmod(path, mode), str, 2),
        ("link", f"{path} {to}", lambda: tree.link(path, to), str, 3),
        ("unlink", path, lambda: tree.unlink(path), str, 4),
        ("rmdir", path, lambda: tree.rmdir(path), str, 2),
        ("rename", f"{path} {to}", lambda: tree.rename(path, to), str, 6),
        ("rename2", f"{path} {to} {flags}", lambda: tree.rename2(path, to, flags), str, 4),
        ("stat", path, lambda: tree.stat(path), stat_text, 2),
        ("list", path, lambda: tree.listdir(path), list_text, 2),
        ("watch", f"{number} {path} {mask:#x}", lambda: instance.add_watch(path, mask), str, 6),
        ("unwatch", f"{number} {wd}", lambda: instance.rm_watch(wd), str, 1),
        ("hex", f"{number} {room}", lambda: instance.read_bytes(room), records_text, 6),
        ("close", f"{number}", instance.close, str, 0.02),
        ("cut", "", lambda: tree.cut() + scribe.empty_reads, str, 0.1),
    ]
    command, words, call, text, _ = rng.choices(choices, [it[-1] for it in choices])[0]
    if rng.random() < 0.01:
        scribe.init(limit)
    else:
        scribe.note(f"{command} {words}".strip(), call, text)


def random_calls(seed):
    """Makes enough random calls that each kind is among them, and then closes all instances."""
    rng = random.Random(seed)
    scribe = Scribe()
    for limit in (1000, 2, 16384):
        scribe.init(limit)
    while len(scribe.lines) < CALLS - len(scribe.instances):
        one_call(rng, scribe)
    for number, instance in scribe.instances.items():
        scribe.note(f"close {number}", instance.close, str)
    return scribe


def test_program(program, seed):
    """As many random calls answer the same through the module and the program, and as lines through line(). So do those
    of a journal that is printed as a script."""
    scribe = random_calls(seed)
    script = "".join(f"{it}\n" for it in scribe.lines).encode()
    ran = subprocess.run([program, "run"], input=script, capture_output=True, check=True)
    wanted = "".join(scribe.replies)
    printed = ran.stdout.decode()
    for line, ours in zip(scribe.lines, scribe.replies):
        theirs, printed = printed[: len(ours)], printed[len(ours) :]
        assert ours == theirs, f"{line}: the module gives {ours!r}, the program {theirs!r}"
    assert printed == ""
    kinds = {it.split()[0] for it in scribe.lines}
    accepted = sum(it.startswith("ok") for it in scribe.replies)
    assert len(kinds) == 19 and accepted > CALLS / 10
    with Tree() as tree:
        assert "".join(tree.line(it) for it in scribe.lines) == wanted
    # The journal as a script, which the program takes up to 1 MiB of.
    with Tree() as tree:
        for line in scribe.lines[: CALLS // 4]:
            if line != "cut":
                tree.line(line)
        script, wanted = tree.script(), "".join(it.reply for it in tree.entries())
    ran = subprocess.run([program, "run"], input=script.encode(), capture_output=True, check=True)
    assert ran.stdout.decode() == wanted
    print(f"{len(scribe.lines)} calls of seed {seed}, {accepted} of them accepted")


def test_long_journal(program):
    """The program refuses the script of a journal that is too long for it before its first call. Its lines still run."""
    for size in (500_000, 600_000):
        with Tree() as tree, Tree() as replay:
            tree.create("/f")
            tree.write("/f", b"x" * size)
            script, wanted = tree.script(), "".join(it.reply for it in tree.entries())
            ran = subprocess.run([program, "run"], input=script.encode(), capture_output=True, check=False)
            if len(script) <= 1_048_576:
                assert (ran.returncode, ran.stdout.decode()) == (0, wanted), ran
            else:
                assert (ran.returncode, ran.stdout, ran.stderr) == (2, b"", b"watchtree: script too long\n"), ran
            assert "".join(replay.line(it) for it in script.splitlines()) == wanted and replay.script() == script
    assert len(script) > 1_048_576


TESTS = [test_session, test_refusals, test_room, test_example]


def again(program, seed):
    """The command that makes the same random calls again."""
    library = os.environ.get("LIBWATCHTREE")
    words = ["env", f"LIBWATCHTREE={library}"] if library else []
    return shlex.join([*words, "python3", os.path.abspath(__file__), "--seed", str(seed), program, "test_program"])


def main():
    parser = argparse.ArgumentParser(usage=__doc__, add_help=False, allow_abbrev=False)
    parser.add_argument("--seed", type=int, default=SEED)
    parser.add_argument("program", type=os.path.abspath)
    parser.add_argument("names", nargs="*")
    asked = parser.parse_args()
    for test in TESTS:
        if not asked.names or test.__name__ in asked.names:
            test()
    if not asked.names or "test_long_journal" in asked.names:
        test_long_journal(asked.program)
    if not asked.names or "test_program" in asked.names:
        try:
            test_program(asked.program, asked.seed)
        except Exception:
            traceback.print_exc()
            sys.exit(f"again: {again(asked.program, asked.seed)}")


if __name__ == "__main__":
    main()
