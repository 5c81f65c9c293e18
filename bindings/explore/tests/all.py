"""Runs the tests: all.py [--sanitized] RUNNER [CLASS..]. Two go at once.

With --sanitized the tests that need no runner, and those of the recordings, are not run again. The last line is 'explore: N passed, M failed'.
"""

import importlib
import os
import subprocess
import sys
import tempfile
import traceback
import unittest
from concurrent.futures import ThreadPoolExecutor
from typing import Iterable, List, Optional, Tuple

HERE = os.path.dirname(os.path.abspath(__file__))
sys.path[:0] = [HERE, os.path.dirname(HERE)]
WITHOUT_RUNNER = ("units", "parts", "reported", "clients")
WITH_RUNNER = ("folders", "replays", "found", "faults", "printed", "quiet", "ended", "many")
# (the sanitized runner is slow, and they test no part of it)
ONCE = ("recipes", "recordings")
EXAMPLES = ("recursive", "renames", "overflow", "follow", "reload")
AT_ONCE = 2


def build(room: str) -> Optional[str]:
    """Builds the examples and the programs of the tests. Returns what failed."""
    sources = [f"{HERE}/../examples/{name}.c" for name in EXAMPLES]
    sources += [f"{HERE}/{name}" for name in sorted(os.listdir(HERE)) if name.endswith(".c")]
    for source in sources:
        name = os.path.basename(source)[:-2]
        command = ["cc", "-O1", "-Wall", "-Wextra", "-Werror", source, "-pthread", "-o", f"{room}/{name}"]
        try:
            built = subprocess.run(command, capture_output=True, text=True, check=False)
        except FileNotFoundError:
            return "there is no cc"
        if built.returncode:
            return f"{name}: {built.stderr}"
    return None


def run(test: unittest.TestCase) -> Tuple[str, str]:
    """Runs a test: its name, and why it failed or was skipped."""
    name = test.id()
    result = unittest.TestResult()
    try:
        test.run(result)
    except Exception:  # pylint: disable=broad-except
        return name, "FAILED " + traceback.format_exc()
    if result.skipped:
        return name, "left out: " + result.skipped[0][1]
    wrong = [text for _, text in result.errors + result.failures]
    return name, "FAILED " + wrong[0] if wrong else ""


def beside_library(runner: str, room: str) -> str:
    """Links a sanitized runner beside the library, where `explore` looks for Python modules. Returns its path."""
    out = os.path.dirname(os.path.dirname(runner))
    os.mkdir(f"{room}/out")
    for name in os.listdir(out):
        os.symlink(runner if name == "under" else f"{out}/{name}", f"{room}/out/{name}")
    return f"{room}/out/under"


def chosen(modules: Iterable[str], names: List[str]) -> List[unittest.TestCase]:
    """Returns the tests of some classes, or all."""
    out: List[unittest.TestCase] = []
    for module in modules:
        for suite in unittest.defaultTestLoader.loadTestsFromModule(importlib.import_module(module)):
            out += [it for it in suite if not names or type(it).__name__ in names]
    return out


def main() -> int:
    """Runs the tests."""
    passed = failed = 0
    words = sys.argv[1:]
    is_sanitized = words[0] == "--sanitized"
    runner, *names = words[is_sanitized:]
    runner, modules = os.path.abspath(runner), WITH_RUNNER if is_sanitized else WITHOUT_RUNNER + WITH_RUNNER + ONCE
    with tempfile.TemporaryDirectory(prefix="watchtree-explore-test-") as room:
        os.environ.update(RUNNER=beside_library(runner, room) if is_sanitized else runner, ROOM=room)
        wrong = build(room)
        if wrong:
            print(f"explore: FAILED: not built: {wrong}\nexplore: 0 passed, 1 failed")
            return 1
        with ThreadPoolExecutor(AT_ONCE) as pool:
            for name, said in pool.map(run, chosen(modules, names)):
                passed += not said
                failed += said.startswith("FAILED")
                print(f"explore: {name}" + (f": {said}" if said else ""), flush=True)
    print(f"explore: {passed} passed, {failed} failed")
    return 1 if failed or not passed else 0


if __name__ == "__main__":
    sys.exit(main())
