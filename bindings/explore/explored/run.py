#!/usr/bin/python3
"""Real clients of inotify under `watchtree explore`.

    run.py [--runner RUNNER] CLIENT                     replays CLIENT.SCRIPT.schedule, 20 times
    run.py [--runner RUNNER] CLIENT SCRIPT OPTION..     runs `watchtree explore OPTION..` on a script of this folder
    run.py --list                                       prints the clients

A client is built first if it has to be. The runner is out/under of the repository unless it is named.
"""

import argparse
import collections
import os
import shlex
import subprocess
import sys
import tempfile

HERE = os.path.dirname(os.path.abspath(__file__))
CLIENTS, EXPLORE = f"{HERE}/clients", os.path.dirname(HERE)
COMMAND = os.path.normpath(f"{HERE}/../../../watchtree")
sys.path.insert(0, EXPLORE)
import runs  # noqa: E402
import schedules  # noqa: E402

REPLAYS = 20
# The call that a script is about: shrinking keeps it.
CALLS = {"moved": "rename"}
GO = "GO111MODULE=off GOPATH=/usr/share/gocode GOCACHE={room}/cache CGO_ENABLED=0 go build -o {room}/client {clients}/"
CARGO = """mkdir -p {room}/notify/src {room}/notify/.cargo && cp {clients}/notify.rs {room}/notify/src/main.rs && cd {room}/notify &&
printf '[package]\\nname = "client"\\nversion = "0.1.0"\\nedition = "2021"\\n[dependencies]\\nnotify = "*"\\n' >Cargo.toml &&
printf '[source.crates-io]\\nreplace-with = "debian"\\n[source.debian]\\ndirectory = "/usr/share/cargo/registry"\\n' \
>.cargo/config.toml && PATH=/usr/bin:$PATH cargo build --offline --quiet && cp target/debug/client {room}/client"""

# kind: that of check.py. settle: milliseconds without work after which the client has no more to say. ignore: a pattern of the
# paths that it does not report.
Client = collections.namedtuple("Client", "package kind settle start build ignore", defaults=("", ""))
ALL = {
    "inotifywait": Client("inotify-tools", "inotifywait", 300,
                          "inotifywait -q -m -r -e create,delete,move --format %w%f|%e /wt/d"),
    "watchdog": Client("python3-watchdog", "signs", 2500, "/usr/bin/python3 {clients}/watchdog_observer.py /wt/d"),
    "pyinotify": Client("python3-pyinotify", "signs", 300, "/usr/bin/python3 {clients}/pyinotify_auto_add.py /wt/d"),
    "chokidar": Client("node-chokidar", "whole", 2000, "env NODE_PATH=/usr/share/nodejs node {clients}/chokidar.js /wt/d",
                       ignore=r"\..*\.(sw[px])$|~$|\.subl.*\.tmp"),
    "node": Client("nodejs", "marked", 1000, "node {clients}/fs_watch.js /wt/d"),
    "fsnotify": Client("golang-github-fsnotify-fsnotify-dev", "signs", 500, "{room}/client /wt/d", GO + "fsnotify_walk.go"),
    "notify-go": Client("golang-github-rjeczalik-notify-dev", "unordered", 500, "{room}/client /wt/d", GO + "notify.go"),
    "notify-rs": Client("librust-notify-dev", "signs", 500, "{room}/client /wt/d", CARGO),
    "watchman": Client("watchman", "whole", 1500, "/usr/bin/python3 {clients}/watchman_subscription.py /wt/d"),
    "lsyncd": Client("lsyncd", "whole", 2500, "sh {clients}/lsyncd.sh /wt/d"),
}


def version(package):
    """Returns Debian's version of a package."""
    found = subprocess.run(["dpkg-query", "-W", "-f", "${Version}", package], capture_output=True, text=True, check=False)
    return found.stdout or "not installed"


def words_of(client, room):
    """Returns the words that start a client."""
    return [it.format(clients=CLIENTS, room=room) for it in client.start.split()]


def build(client, room):
    """Builds a client into a folder."""
    if client.build:
        subprocess.run(["sh", "-c", client.build.format(clients=CLIENTS, room=room)], check=True)


def check_of(client, script=""):
    """Returns the check of a client's runs of a script."""
    ignore = f"--ignore {shlex.quote(client.ignore)}" if client.ignore else ""
    return f"python3 {HERE}/check.py {ignore} {client.kind} {CALLS.get(script, '')}"


def replay(runner, name, client, room):
    """Replays the stored schedules of a client. Returns whether each run failed."""
    stored = sorted(it for it in os.listdir(HERE) if it.startswith(name + ".") and it.endswith(".schedule"))
    if not stored:
        sys.exit(f"{name}: no schedule of it fails as far as is known")
    all_failed = True
    for file in stored:
        schedule = schedules.read(f"{HERE}/{file}")
        options = ["--quick", "--settle", str(client.settle)]
        check = check_of(client, file.split(".")[1])
        bench = runs.Bench(runner, options, "", check, words_of(client, room), room)
        failed = sum(bench.replay(schedule).fails for _ in range(REPLAYS))
        print(f"{file}: replayed {REPLAYS} times, failed {failed} times", flush=True)
        all_failed = all_failed and failed == REPLAYS
    return all_failed


def main():
    """Runs a client."""
    parser = argparse.ArgumentParser(usage=__doc__, allow_abbrev=False)
    parser.add_argument("--runner", default=f"{HERE}/../../../out/under")
    parser.add_argument("--list", action="store_true")
    parser.add_argument("client", nargs="?", choices=list(ALL))
    parser.add_argument("script", nargs="?")
    said, options = parser.parse_known_args()
    if said.list or not said.client:
        for name, it in ALL.items():
            print(f"{name:12} {it.package} {version(it.package)}")
        return 0
    client = ALL[said.client]
    with tempfile.TemporaryDirectory(prefix="watchtree-explored-") as room:
        build(client, room)
        if not said.script:
            return 0 if replay(said.runner, said.client, client, room) else 1
        command = [sys.executable, f"{EXPLORE}/main.py", "--runner", said.runner, "--command", COMMAND,
                   "--settle", str(client.settle), *options, f"{HERE}/{said.script}.script",
                   "--check", check_of(client, said.script), "--", *words_of(client, room)]
        return subprocess.run(command, check=False).returncode


if __name__ == "__main__":
    sys.exit(main())
