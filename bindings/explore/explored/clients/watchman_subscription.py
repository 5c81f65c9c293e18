"""What a watchman server says to a subscription, as `+ PATH` and `- PATH`: watchman_subscription.py DIRECTORY

Its library for Python reads the results. The command line of watchman 4.9 does not do: the first result comes together with the
answer to `subscribe`, and the command line keeps it back until another one comes.
"""

import os
import shutil
import signal
import subprocess
import sys
import tempfile

import pywatchman


def start(room):
    """Starts a server whose files are in a folder. Returns its process."""
    with open(f"{room}/config", "w", encoding="utf-8") as file:
        file.write("{}")
    command = ["watchman", "--no-save-state", f"--sockname={room}/sock", f"--logfile={room}/log", f"--pidfile={room}/pid",
               "--no-pretty", "get-pid"]
    subprocess.run(command, env={**os.environ, "WATCHMAN_CONFIG_FILE": f"{room}/config"}, stdout=subprocess.DEVNULL, check=True)
    with open(f"{room}/pid", encoding="utf-8") as file:
        return int(file.read())


def follow(client, directory):
    """Prints what the subscription says. A fresh instance replaces all that was said before."""
    client.query("watch", directory)
    client.query("subscribe", directory, "all", {"fields": ["name", "exists"]})
    while True:
        for result in client.getSubscription("all", root=directory) or []:
            if result.get("is_fresh_instance"):
                print("-", directory)
            for it in sorted(result.get("files", []), key=lambda file: file["exists"]):
                print("+" if it["exists"] else "-", f"{directory}/{it['name']}")
        sys.stdout.flush()
        client.receive()


def main():
    """Follows a directory until SIGTERM."""
    signal.signal(signal.SIGTERM, lambda *_: sys.exit(0))
    room = tempfile.mkdtemp()
    server = start(room)
    try:
        follow(pywatchman.client(sockpath=f"{room}/sock", timeout=3600), sys.argv[1])
    finally:
        signal.signal(signal.SIGTERM, signal.SIG_IGN)
        os.kill(server, signal.SIGTERM)
        shutil.rmtree(room, ignore_errors=True)


main()
