"""Every order in which it could have happened: runs event code under many schedules, and shrinks one that breaks it.

    from watchtree import Mask, explore

    SCRIPT = '''
    mkdir /d 755
    --
    mkdir /d/a 755
    create /d/a/f 644
    '''

    def consumer(tree):
        believed = set()
        instance = tree.inotify()
        instance.add_watch("/d", Mask.CREATE)
        ...
        for event in instance:
            ...
        return believed

    def check(tree, believed):
        assert believed == explore.paths(tree, "/d")

    explore.run(SCRIPT, consumer, check, seeds=range(200)).check()

Each call of the consumer is a request. Before it is answered the schedule says which lines happen; a line also happens
whenever the consumer asks for events in vain. docs/EXPLORE-IN-PROCESS.md says more.
"""

from ._once import Check, Consumer
from ._player import EndOfRun, TooManyRequests
from ._run import BATCHES, QUEUES, Failure, FoundFailure, NotDeterministic, Result, replay, run
from ._schedule import Change, Schedule, parse_schedule
from ._shards import Shard
from ._tree import ExploredInstance, ExploredTree, paths

__all__ = [
    "BATCHES",
    "Change",
    "Check",
    "Consumer",
    "EndOfRun",
    "ExploredInstance",
    "ExploredTree",
    "Failure",
    "FoundFailure",
    "NotDeterministic",
    "QUEUES",
    "Result",
    "Schedule",
    "Shard",
    "TooManyRequests",
    "parse_schedule",
    "paths",
    "replay",
    "run",
]
