"""What the tests share: the tool and the runner as a user starts them, in a folder of its own."""

import os
import shutil
import subprocess
import sys
import tempfile
import unittest
from typing import List, Optional

HERE = os.path.dirname(os.path.abspath(__file__))
EXAMPLES = os.path.join(HERE, "../examples")
MAIN = os.path.join(HERE, "../main.py")
BINDINGS = os.path.abspath(os.path.join(HERE, "../.."))
# Seconds after which a test hangs.
PATIENCE = 300
# The one that has the modules of Debian's packages.
DEBIAN_PYTHON = "/usr/bin/python3"


def has_module(name: str) -> bool:
    """Whether a Debian package of a module for Python is installed."""
    try:
        said = subprocess.run([DEBIAN_PYTHON, "-c", f"import {name}"], capture_output=True, check=False)
    except FileNotFoundError:
        return False
    return said.returncode == 0


class ToolTest(unittest.TestCase):
    """A test with a folder."""

    def setUp(self) -> None:
        self.room = tempfile.mkdtemp(dir=os.environ["ROOM"])
        self.runner = os.environ["RUNNER"]

    def built(self, name: str) -> str:
        """Returns a program that was built."""
        return f"{os.environ['ROOM']}/{name}"

    def write(self, name: str, *lines: str) -> str:
        """Writes a file of some lines. Returns its path."""
        path = f"{self.room}/{name}"
        with open(path, "w", encoding="utf-8") as file:
            file.writelines(line + "\n" for line in lines)
        return path

    def read(self, name: str) -> str:
        """Reads a file of the folder."""
        with open(f"{self.room}/{name}", encoding="utf-8") as file:
            return file.read()

    def install(self) -> str:
        """Installs the tool below a prefix in the folder. Returns the folder of the command."""
        parts = f"{self.room}/prefix/libexec/watchtree"
        os.makedirs(f"{self.room}/prefix/bin")
        os.makedirs(parts)
        shutil.copy(f"{BINDINGS}/launch", f"{self.room}/prefix/bin/watchtree")
        os.chmod(f"{self.room}/prefix/bin/watchtree", 0o755)
        shutil.copy(f"{BINDINGS}/words", f"{parts}/words")
        shutil.copy(self.runner, f"{parts}/under")
        others = shutil.ignore_patterns("tests", "examples", "explored", "recipes")
        shutil.copytree(os.path.dirname(MAIN), f"{parts}/explore", ignore=others)
        return f"{self.room}/prefix/bin"

    def explore(self, script: str, check: str, program: List[str], *options: str) -> "subprocess.CompletedProcess[str]":
        """Runs watchtree explore."""
        return self.run_tool([sys.executable, MAIN, "--runner", self.runner, *options, script, "--check", check, "--", *program])

    def under(self, out: str, words: List[str], program: List[str], *options: str) -> "subprocess.CompletedProcess[str]":
        """Runs watchtree under."""
        return self.run_tool([self.runner, "--quick", *options, "--out", f"{self.room}/{out}", *words, "--", *program])

    def run_tool(self, command: List[str], cwd: Optional[str] = None) -> "subprocess.CompletedProcess[str]":
        """Runs a command in the folder."""
        return subprocess.run(command, stdin=subprocess.DEVNULL, capture_output=True, text=True, timeout=PATIENCE, check=False,
                              cwd=cwd or self.room)
