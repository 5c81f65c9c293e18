"""The reports of --report, read by parsers that are not ours: xmllint, junitparser, and Python's json."""

import json
import os
import shutil
import subprocess
import tempfile
import unittest
from typing import Any, Dict, List

import reports
from report import Shrunk
from reports import Report, Reports, as_json, as_junit
from runs import Result
from schedules import Fault, parse
from search import Found
from tool import DEBIAN_PYTHON, has_module

SCHEDULE = parse("mkdir /d 755\n--\n#@ before 3\ncreate /d/a%3C&\"]]> 644\n")
IDENTITY: Dict[str, Any] = {"script": "0" * 64, "check": "grep '<a&b>' \x01 \udcff \u00e9", "program": ["watch", "/wt \x1b[0m\ufffe"],
                            "options": ["--quick"], "vary": "lines", "seeds": "1..3"}


def result(seed: int, fails: bool) -> Result:
    return Result(seed, 3, fails, True, SCHEDULE, [])


def report(**more: Any) -> Report:
    """Returns the report of a search of three seeds of which one fails."""
    found = Found(seconds=1.5, is_complete=True)
    for seed in (1, 2, 3):
        found.add(result(seed, seed == 2))
    base = Result(None, 0, False, True, SCHEDULE.at_rest(), [])
    shrunk = Shrunk(SCHEDULE, 7, 20, 19, "  1 program  read 1\n", "watchtree under --schedule x")
    it = Report("folder/my.script", IDENTITY, "1/2", base, found, [("seed-2.schedule", found.failures[0])], shrunk, None)
    for name, value in more.items():
        setattr(it, name, value)
    return it


class Junit(unittest.TestCase):
    """JUnit's XML."""

    def xpath(self, data: bytes, path: str) -> str:
        """Returns what xmllint finds in a report."""
        if not shutil.which("xmllint"):
            self.skipTest("there is no xmllint (apt-get install libxml2-utils)")
        said = subprocess.run(["xmllint", "--nonet", "--xpath", path, "-"], input=data, capture_output=True, check=False)
        self.assertEqual(said.returncode, 0, said.stderr)
        return said.stdout.decode().rstrip("\n")

    def test_each_run_is_a_test_case(self) -> None:
        data = as_junit(report())
        for path, wanted in (
            ("count(/testsuites/testsuite/testcase)", "4"), ("string(/testsuites/@tests)", "4"),
            ("string(/testsuites/testsuite/@failures)", "1"), ("string(/testsuites/testsuite/@errors)", "0"),
            ("string(//testcase[failure]/@name)", "seed 2"), ("string(//testcase[1]/@name)", "at rest"),
            ("string(//testcase[2]/@classname)", "watchtree.explore.my_script"),
            ("string(//testsuite/@name)", "watchtree explore folder/my.script 1/2"),
            ("string(//failure)", SCHEDULE.text().rstrip("\n")), ("string(//property[@name='complete']/@value)", "true"),
            ("string(//failure/@message)", "the check failed: status 3, 1 line moved, 0 short reads"),
            ("string(//property[@name='check']/@value)", "grep '<a&b>' \\x01 \\xff \u00e9"),
            ("string(//property[@name='program']/@value)", "watch /wt \\x1b[0m\\xfffe"),
        ):
            self.assertEqual(self.xpath(data, path), wanted, path)
        self.assertIn("again: watchtree under --schedule x", self.xpath(data, "string(//system-out)"))

    def test_a_fault_is_an_error(self) -> None:
        data = as_junit(report(fault="it <broke>", shrunk=None))
        self.assertEqual(self.xpath(data, "string(/testsuites/@errors)"), "1")
        self.assertEqual(self.xpath(data, "string(//testcase[error]/error/@message)"), "it <broke>")
        self.assertEqual(self.xpath(data, "string(/testsuites/@tests)"), "5")

    def test_a_run_at_rest_that_fails(self) -> None:
        base = Result(None, 1, True, True, SCHEDULE.at_rest(), [])
        data = as_junit(report(base=base, failing=[("failure-1.schedule", base)]))
        self.assertEqual(self.xpath(data, "string(//testcase[failure]/@name)"), "at rest")

    def test_a_search_by_moves(self) -> None:
        found = Found()
        for name, fails in (("line 1 before request 3", False), ("line 1 before request 3, read 4 of at most 1", True)):
            one = Result(None, 0, fails, True, SCHEDULE, [], name)
            found.add(one)
        data = as_junit(report(found=found, failing=[("failure-1.schedule", found.failures[0])]))
        self.assertEqual(self.xpath(data, "count(//testcase)"), "3")
        self.assertEqual(self.xpath(data, "string(//testcase[failure]/@name)"), "line 1 before request 3, read 4 of at most 1")

    def test_junitparser_reads_it(self) -> None:
        if not has_module("junitparser"):
            self.skipTest("there is no junitparser (apt-get install python3-junitparser)")
        program = "import sys, junitparser as j; s = list(j.JUnitXml.fromstring(sys.stdin.buffer.read().decode()))[0]; " \
                  "print(s.tests, s.failures, s.errors, [c.name for c in s if c.result])"
        said = subprocess.run([DEBIAN_PYTHON, "-c", program], input=as_junit(report()), capture_output=True, check=False)
        self.assertEqual(said.stdout.decode().rstrip("\n"), "4 1 0 ['seed 2']", said.stderr)


class Json(unittest.TestCase):
    """JSON."""

    def test_what_is_in_it(self) -> None:
        said = json.loads(as_json(report()))
        self.assertEqual((said["runs"], said["failed"], said["complete"], said["fault"], said["shard"]), (3, 1, True, None, "1/2"))
        self.assertEqual((said["seeds"], said["check"]), ("1..3", "grep '<a&b>' \\x01 \\xff \u00e9"))
        wanted = {"file": "seed-2.schedule", "name": "seed 2", "seed": 2, "status": 3, "moved": 1, "short_reads": 0,
                  "schedule": SCHEDULE.text()}
        self.assertEqual(said["failures"], [wanted])
        self.assertEqual((said["shrunk"]["replays"], said["shrunk"]["failed"], said["shrunk"]["lines"]), (20, 19, 2))
        self.assertEqual(said["at_rest"], {"lines": 1, "turns": 0, "requests": 0, "status": 0, "fails": False})
        for form in ("utf-8", "ascii"):
            self.assertTrue(as_json(report()).decode(form, "ignore"))

    def test_a_search_that_has_not_begun(self) -> None:
        said = json.loads(as_json(Report("script", {})))
        self.assertEqual((said["fault"], said["complete"], said["at_rest"]), (reports.UNFINISHED, False, None))


class Files(unittest.TestCase):
    """The files of --report."""

    def setUp(self) -> None:
        room = tempfile.TemporaryDirectory(dir=os.environ.get("ROOM"))
        self.addCleanup(room.cleanup)
        self.room = room.name

    def refused(self, why: str, path: str) -> None:
        with self.assertRaisesRegex(Fault, why):
            Reports([("json", path)]).write(report())

    def test_it_is_replaced_as_a_whole(self) -> None:
        path, link = f"{self.room}/report.json", f"{self.room}/link.json"
        os.symlink(path, link)
        for _ in range(2):
            Reports([("json", path), ("junit", f"{self.room}/report.xml")]).write(report())
        Reports([("json", link)]).write(report(fault="why"))
        with open(path, encoding="utf-8") as file:
            self.assertEqual(json.load(file)["fault"], "why")
        self.assertTrue(os.path.islink(link))
        self.assertEqual(sorted(os.listdir(self.room)), ["link.json", "report.json", "report.xml"])

    def test_what_cannot_be_written(self) -> None:
        self.refused("json=.*/none/report: No such file", f"{self.room}/none/report")
        # (a pipe of the test's own: a mistake would replace a device)
        os.mkfifo(f"{self.room}/pipe")
        self.refused("/pipe: it is not a file", f"{self.room}/pipe")
        self.refused("it is not a file", self.room)
        names: List[str] = os.listdir(self.room)
        self.assertEqual(names, ["pipe"])
