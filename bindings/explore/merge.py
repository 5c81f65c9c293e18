"""What several shards found, as one search: all of them must be there, whole, and of one search."""

import os
from typing import Any, Dict, List, Tuple

import state
from schedules import Fault
from search import Found
from shards import Shard
from state import State


def merged(folders: List[str], identity: Dict[str, Any], out: str) -> State:
    """Returns the search that these folders are the shards of. `out` is where it will be left."""
    shards: Dict[int, Tuple[str, State]] = {}
    for folder in folders:
        if os.path.exists(out) and os.path.exists(folder) and os.path.samefile(out, folder):
            raise Fault(f"{folder}: the merge would replace it: give another --out")
        it = state.read(folder)
        it.check(folder, identity)
        if not it.found.is_complete:
            raise Fault(f"{folder}: the search of shard {it.shard} is not over: --resume goes on with it")
        if it.shard.number in shards and it.shard.count == _count(shards):
            raise Fault(f"{shards[it.shard.number][0]} and {folder}: both are shard {it.shard}")
        if shards and it.shard.count != _count(shards):
            raise Fault(f"{folder}: it is shard {it.shard}, and {folders[0]} is one of {_count(shards)}")
        shards[it.shard.number] = folder, it
    missing = [str(Shard(number, _count(shards))) for number in range(1, _count(shards) + 1) if number not in shards]
    if missing:
        raise Fault(f"not all shards are there: {', '.join(missing)} " + ("is" if len(missing) == 1 else "are") + " missing")
    parts = [shards[number][1] for number in sorted(shards)]
    return State(identity, Shard(), any(it.base_fails for it in parts), _sum([it.found for it in parts]))


def _count(shards: Dict[int, Tuple[str, State]]) -> int:
    return next((it.shard.count for _, it in shards.values()), 0)


def _sum(parts: List[Found]) -> Found:
    found = Found(left=[], is_complete=True)
    for part in parts:
        found.seconds += part.seconds
        for name in ("undelivered", "unfinished", "stalled"):
            setattr(found, name, getattr(found, name) + getattr(part, name))
        found.seeds |= part.seeds
        found.names += part.names
        found.failures += part.failures
    # By seed; by moves as one search on one processor finds them.
    found.failures.sort(key=lambda it: (it.seed or 0, it.schedule.changes(), it.schedule.order()))
    return found
