"""What a search has searched, as a file in its folder: for --resume, and for --merge on another machine.

The file is JSON, with the SHA-256 of what else is in it. The failing schedules are files beside it.
"""

import argparse
import hashlib
import json
import os
from dataclasses import dataclass, replace
from typing import Any, Dict, List, Optional, Tuple

from moves import Moved
from runs import Result
from schedules import Fault, Line, Schedule, ShortRead, parse
from search import Found
from shards import Shard

STATE, FORMAT = "search.json", 1
# The numbers of a Found that are kept as they are.
COUNTS = ("undelivered", "unfinished", "stalled", "seconds")
Ranges = List[List[int]]
# The name of a failing schedule's file, and its run.
Failing = Tuple[str, Result]


@dataclass
class State:
    """A search: what it is of, its part, whether the run at rest failed, and what it found."""

    identity: Dict[str, Any]
    shard: Shard
    base_fails: bool
    found: Found
    packed: Optional[List[Dict[str, Any]]] = None
    """The moves that are left, as its file has them."""

    def unpack(self, base: Schedule) -> None:
        """Lets the search go on where it stopped, from the schedule of the run at rest."""
        if self.packed is not None:
            self.found.left = [unpack(it, base) for it in self.packed]

    def check(self, folder: str, identity: Dict[str, Any]) -> None:
        """A fault if the folder is of another search."""
        for name in sorted({*identity, *self.identity}):
            there, here = self.identity.get(name), identity.get(name)
            if there != here:
                both = "" if name == "script" else f": {there} there, {here} here"
                raise Fault(f"{folder}: it is of another search, with other {name}{both}")

    def encoded(self, failing: List[Failing], base: Schedule) -> bytes:
        """Returns the bytes of its file. `base` is the schedule of the run at rest."""
        found = self.found
        content = {
            "identity": self.identity,
            "shard": [self.shard.number, self.shard.count],
            "at rest": {"fails": self.base_fails},
            "counts": {name: getattr(found, name) for name in COUNTS},
            "complete": found.is_complete,
            "seeds": ranges(sorted(found.seeds)),
            "moves": found.names,
            "left": None if found.left is None else [pack(it, base) for it in found.left],
            "failures": [_failure(name, it) for name, it in failing],
        }
        return json.dumps({"format": FORMAT, "sha256": _digest(content), "content": content}, indent=1).encode() + b"\n"


def _digest(content: Dict[str, Any]) -> str:
    return hashlib.sha256(json.dumps(content, sort_keys=True).encode()).hexdigest()


def _failure(name: str, it: Result) -> Dict[str, Any]:
    digest = hashlib.sha256(it.schedule.encoded()).hexdigest()
    return {"file": name, "sha256": digest, "seed": it.seed, "moves": it.name, "status": it.status, "delivered": it.delivered}


def identity_of(said: argparse.Namespace, program: List[str], options: List[str]) -> Dict[str, Any]:
    """Returns what two searches have in common if they are parts of one."""
    with open(said.script, "rb") as file:
        script = hashlib.sha256(file.read()).hexdigest()
    what = {"moves": said.moves} if said.moves else {"seeds": f"{said.seeds[0]}..{said.seeds[-1]}"}
    return {"script": script, "check": said.check, "program": program, "options": options, "vary": said.vary, **what}


def ranges(numbers: List[int]) -> Ranges:
    """Returns ascending numbers as the first and the last of each row with one step: the seeds of a shard have gaps."""
    out: Ranges = []
    for it in numbers:
        if out and (len(out[-1]) == 1 or it - out[-1][1] == out[-1][2]):
            out[-1] = [out[-1][0], it, it - (out[-1][1] if len(out[-1]) > 1 else out[-1][0])]
        else:
            out.append([it])
    return out


def numbers(rows: Ranges) -> List[int]:
    """Returns the numbers of such rows."""
    return [it for row in rows for it in (range(row[0], row[1] + 1, row[2]) if len(row) > 1 else row)]


def pack(moved: Moved, base: Schedule) -> Dict[str, Any]:
    """Returns what a schedule has that the run at rest has not."""
    lines, reads = moved.schedule.steps(), [it for it in moved.schedule.items if isinstance(it, ShortRead)]
    packed = {"moves": moved.name, "count": moved.count, "key": list(moved.key), "line": moved.line}
    # (a run may have other turns than the one at rest)
    if [it.text for it in lines] != [it.text for it in base.steps()]:
        return {**packed, "schedule": moved.schedule.text()}
    return {
        **packed,
        "before": [[at, it.before] for at, it in enumerate(lines) if it.before is not None],
        "reads": [[it.request, it.records] for it in reads],
    }


def unpack(packed: Dict[str, Any], base: Schedule) -> Moved:
    """Returns the schedule that was packed."""
    first, second, third = packed["key"]
    schedule = parse(packed["schedule"]) if "schedule" in packed else _moved(packed, base)
    return Moved(schedule, packed["count"], (first, second, third), packed["line"], packed["moves"])


def _moved(packed: Dict[str, Any], base: Schedule) -> Schedule:
    before, at, items = dict(packed["before"]), -1, []
    for it in base.items:
        at += isinstance(it, Line)
        if not isinstance(it, ShortRead):
            items.append(replace(it, before=before.get(at)) if isinstance(it, Line) else it)
    if max(before, default=0) > at:
        raise Fault(f"{packed['moves']}: the run at rest has fewer lines or turns than when the search began")
    items += [ShortRead(request, records) for request, records in packed["reads"]]
    return replace(base, items=tuple(items))


def read(folder: str) -> State:
    """Reads what a search left in a folder, and its failing schedules. A fault names what is wrong."""
    content = _content(f"{folder}/{STATE}")
    try:
        found = Found(**{name: content["counts"][name] for name in COUNTS}, is_complete=content["complete"],
                      seeds=set(numbers(content["seeds"])), names=content["moves"])
        found.failures = [_read_failure(folder, it) for it in content["failures"]]
        return State(content["identity"], Shard(*content["shard"]), content["at rest"]["fails"], found, content["left"])
    except (KeyError, TypeError, ValueError) as fault:
        raise Fault(f"{folder}/{STATE}: it is not what a search left") from fault


def _content(path: str) -> Dict[str, Any]:
    try:
        with open(path, "rb") as file:
            said = json.loads(file.read())
    except FileNotFoundError as fault:
        raise Fault(f"{path}: there is none: no search with --shard or --minutes left this folder") from fault
    except OSError as fault:
        raise Fault(f"{path}: {fault.strerror}") from fault
    except ValueError as fault:
        raise Fault(f"{path}: it is not whole: it is no JSON") from fault
    if not isinstance(said, dict) or not {"format", "sha256", "content"} <= set(said):
        raise Fault(f"{path}: it is not what a search left")
    if said["format"] != FORMAT:
        raise Fault(f"{path}: it has format {said['format']}, and this version of watchtree reads format {FORMAT}")
    if _digest(said["content"]) != said["sha256"]:
        raise Fault(f"{path}: it was changed since a search left it")
    content: Dict[str, Any] = said["content"]
    return content


def _read_failure(folder: str, entry: Dict[str, Any]) -> Result:
    path = f"{folder}/{os.path.basename(entry['file'])}"
    try:
        with open(path, "rb") as file:
            data = file.read()
    except OSError as fault:
        raise Fault(f"{path}: {fault.strerror}: {STATE} lists it") from fault
    if hashlib.sha256(data).hexdigest() != entry["sha256"]:
        raise Fault(f"{path}: it was changed since a search left it")
    schedule = parse(data.decode("utf-8", "surrogateescape"))
    return Result(entry["seed"], entry["status"], True, entry["delivered"], schedule, [], entry["moves"])
