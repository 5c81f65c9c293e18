"""The reports of --report: JUnit's XML for a server of continuous integration, and JSON.

A report is there from the start of the search on. Until the search has stopped by itself, it says that it has not. So a search
that could not run, or was killed, never looks like a success.
"""

import json
import os
import stat
import time
from dataclasses import dataclass, field
from typing import Any, Dict, List, Optional, Tuple
from xml.etree import ElementTree

import traces
from report import Shrunk, what_failed
from runs import Result
from schedules import Fault
from search import Found
from state import Failing

FORMAT = 1
UNFINISHED = "the search did not come to its end"


@dataclass
class Report:
    """A search as a report has it: what it is of, and what it found. `fault` is why it is not over."""

    script: str
    identity: Dict[str, Any]
    shard: Optional[str] = None
    base: Optional[Result] = None
    found: Found = field(default_factory=Found)
    failing: List[Failing] = field(default_factory=list)
    """Those of the search, and that of the run at rest if it fails."""
    shrunk: Optional[Shrunk] = None
    fault: Optional[str] = UNFINISHED


def text_of(word: str) -> str:
    """Returns a text that XML and JSON can have: bytes that are no UTF-8, and control characters, as \\x and two digits."""
    clean = word.encode("utf-8", "surrogateescape").decode("utf-8", "backslashreplace")
    return "".join(it if it in "\t\n" or ord(it) >= 0x20 and ord(it) not in (0x7F, 0xFFFE, 0xFFFF) else f"\\x{ord(it):02x}"
                   for it in clean)


def _clean(value: Any) -> Any:
    if isinstance(value, str):
        return text_of(value)
    if isinstance(value, dict):
        return {name: _clean(it) for name, it in value.items()}
    return [_clean(it) for it in value] if isinstance(value, list) else value


# ---- JSON


def _json_failure(name: str, it: Result) -> Dict[str, Any]:
    return {"file": name, "name": it.title(), "seed": it.seed, "status": it.status, "moved": it.schedule.moved(),
            "short_reads": it.schedule.short_reads(), "schedule": it.schedule.text()}


def _json_shrunk(it: Shrunk) -> Dict[str, Any]:
    lines, moves, _ = it.schedule.size()
    return {"lines": lines, "moves": moves, "runs": it.runs, "replays": it.replays, "failed": it.failed,
            "schedule": it.schedule.text(), "timeline": it.timeline, "again": it.command}


def as_json(it: Report) -> bytes:
    """Returns a report in JSON. docs/EXPLORE-MANY.md says what is in it."""
    found, base = it.found, it.base
    said = {
        "format": FORMAT, "tool": "watchtree explore", "script": it.script,
        **{name: value for name, value in it.identity.items() if name != "script"},
        "script_sha256": it.identity.get("script"), "shard": it.shard, "fault": it.fault, "complete": found.is_complete,
        "runs": found.runs, "failed": len(found.failures), "seconds": round(found.seconds, 3),
        "nothing_delivered": found.undelivered, "lines_left": found.unfinished, "stalled": found.stalled,
        "at_rest": base and {"lines": len(base.schedule.lines()), "turns": len(base.schedule.turns()),
                             "requests": traces.requests(base.trace), "status": base.status, "fails": base.fails},
        "failures": [_json_failure(name, one) for name, one in it.failing],
        "shrunk": it.shrunk and _json_shrunk(it.shrunk),
    }
    return json.dumps(_clean(said), indent=1, ensure_ascii=False).encode() + b"\n"


# ---- JUnit


def as_junit(it: Report) -> bytes:
    """Returns a report in JUnit's XML: a test case for each run, named by its seed or its moves."""
    name = f"{it.script} {it.shard}" if it.shard else it.script
    suite = ElementTree.Element("testsuite", name=text_of(f"watchtree explore {name}"),
                                timestamp=time.strftime("%Y-%m-%dT%H:%M:%S"), time=f"{it.found.seconds:.3f}", skipped="0")
    properties = ElementTree.SubElement(suite, "properties")
    for key, value in (*it.identity.items(), ("complete", str(it.found.is_complete).lower())):
        text = " ".join(value) if isinstance(value, list) else str(value)
        ElementTree.SubElement(properties, "property", name=key, value=text_of(text))
    cases = [_case(suite, it.script, title, result) for title, result in _runs(it)]
    errors = 1 if it.fault else 0
    if it.fault:
        case = _case(suite, it.script, "search", None)
        ElementTree.SubElement(case, "error", type="fault", message=text_of(it.fault))
    if it.shrunk:
        said = f"{it.shrunk.schedule.text()}\n{it.shrunk.timeline}\nagain: {it.shrunk.command}\n"
        ElementTree.SubElement(suite, "system-out").text = text_of(said)
    counts = {"tests": str(len(cases) + errors), "failures": str(len(it.failing)), "errors": str(errors)}
    suite.attrib.update(counts)
    suites = ElementTree.Element("testsuites", counts)
    suites.append(suite)
    ElementTree.indent(suites)
    said_xml: bytes = ElementTree.tostring(suites, encoding="utf-8", xml_declaration=True)
    return said_xml + b"\n"


def _runs(it: Report) -> "List[Tuple[str, Optional[Result]]]":
    """Returns the name of each run, and the run if it failed."""
    failed = {one.title(): one for _, one in it.failing}
    titles = [*(["at rest"] if it.base else []), *(f"seed {seed}" for seed in sorted(it.found.seeds)), *it.found.names]
    return [(title, failed.get(title)) for title in titles]


def _case(suite: ElementTree.Element, script: str, title: str, failed: Optional[Result]) -> ElementTree.Element:
    classname = text_of("watchtree.explore." + os.path.basename(script).replace(".", "_"))
    case = ElementTree.SubElement(suite, "testcase", classname=classname, name=text_of(title))
    if failed:
        failure = ElementTree.SubElement(case, "failure", type="check", message=f"the check failed: {what_failed(failed)}")
        failure.text = text_of(failed.schedule.text())
    return case


# ---- files

WRITERS = {"junit": as_junit, "json": as_json}


class Reports:
    """The files of --report."""

    def __init__(self, wanted: List[Tuple[str, str]]) -> None:
        self._wanted = wanted

    def write(self, it: Report) -> None:
        """Writes all. A file is replaced when the new one is whole."""
        for kind, path in self._wanted:
            try:
                _replace(path, WRITERS[kind](it))
            except OSError as fault:
                raise Fault(f"--report {kind}={path}: {fault.strerror}") from fault


def _replace(path: str, data: bytes) -> None:
    try:
        if not stat.S_ISREG(os.stat(path).st_mode):
            raise Fault(f"--report: {path}: it is not a file")
    except FileNotFoundError:
        pass
    target = os.path.realpath(path)
    new = f"{target}.{os.getpid()}.new"
    try:
        with open(new, "wb") as file:
            file.write(data)
        os.rename(new, target)
    except OSError:
        if os.path.exists(new):
            os.unlink(new)
        raise
