"""Reports of a result: JUnit's XML and JSON, with the names that `watchtree explore --report` uses."""

import json
import os
import time
from typing import TYPE_CHECKING, Any, Callable, Dict, Optional
from xml.etree import ElementTree

from ._scripts import AnyFile

if TYPE_CHECKING:
    from ._run import Failure, Result

FORMAT = 1


def _text(word: str) -> str:
    """Returns a text that XML and JSON can have: other bytes and control characters are `\\x` and two digits."""
    clean = word.encode("utf-8", "surrogateescape").decode("utf-8", "backslashreplace")
    return "".join(
        it if it in "\t\n" or ord(it) >= 0x20 and ord(it) not in (0x7F, 0xFFFE, 0xFFFF) else f"\\x{ord(it):02x}"
        for it in clean
    )


def _name(number: int, failure: "Failure") -> str:
    return f"failure {number}" if failure.seed is None else f"seed {failure.seed}"


def _failure(number: int, it: "Failure") -> Dict[str, Any]:
    message = _text(f"{type(it.error).__name__}: {it.error}")
    return {
        "name": _name(number, it),
        "seed": it.seed,
        "where": it.where,
        "message": message,
        "schedule": _text(str(it.schedule)),
        "timeline": _text(it.timeline),
        "found": _text(str(it.found)),
    }


def as_json(result: "Result", name: str) -> bytes:
    said = {
        "format": FORMAT,
        "tool": "watchtree.explore",
        "script": _text(name),
        "runs": result.runs,
        "reads": result.reads,
        "failed": len(result.failures),
        "seconds": round(result.seconds, 3),
        "failures": [_failure(number, it) for number, it in enumerate(result.failures, 1)],
    }
    return json.dumps(said, indent=1, ensure_ascii=False).encode() + b"\n"


def as_junit(result: "Result", name: str) -> bytes:
    """A test case for each schedule that fails, and one for all that pass."""
    counts = {"tests": "0", "failures": str(len(result.failures)), "errors": "0"}
    seconds, now = f"{result.seconds:.3f}", time.strftime("%Y-%m-%dT%H:%M:%S")
    suite = ElementTree.Element("testsuite", name=_text(f"watchtree.explore {name}"), timestamp=now, time=seconds)
    for number, it in enumerate(result.failures, 1):
        case = ElementTree.SubElement(suite, "testcase", classname=_text(name), name=_name(number, it))
        message = _text(f"the {it.where} failed: {type(it.error).__name__}: {it.error}")
        ElementTree.SubElement(case, "failure", type=it.where, message=message).text = _text(str(it))
    passed = result.runs - len(result.failures)
    if passed:
        ElementTree.SubElement(suite, "testcase", classname=_text(name), name=f"{passed} schedules that pass")
    counts["tests"] = str(len(suite))
    suite.attrib.update(counts)
    suites = ElementTree.Element("testsuites", counts)
    suites.append(suite)
    text: bytes = ElementTree.tostring(suites, encoding="utf-8", xml_declaration=True)
    return text + b"\n"


WRITERS: Dict[str, Callable[["Result", str], bytes]] = {"junit": as_junit, "json": as_json}


def write(result: "Result", name: str, paths: Dict[str, "Optional[AnyFile]"]) -> None:
    """Writes the reports that have a path. A file is replaced when the new one is whole."""
    for kind, path in paths.items():
        if path is not None:
            new = f"{os.fspath(path)}.{os.getpid()}.new"
            with open(new, "wb") as file:
                file.write(WRITERS[kind](result, name))
            os.replace(new, path)
