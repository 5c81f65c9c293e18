"""All schedules in which a few lines are moved."""

from typing import Dict, Iterator, List, Tuple

from ._once import Outcome, Program
from ._plans import Moved
from ._shards import WHOLE, Shard


def moved(program: Program, moves: int, queue: int, shard: Shard = WHOLE) -> Iterator[Outcome]:
    """Runs every schedule in which at most `moves` lines happen before an earlier request than they would at rest.

    Each schedule is run once, those with fewer moved lines first. Lines keep their order. A shard has those that begin
    with a first move of its own; the first shard has the schedule without a move, too.
    """
    level: List[Tuple[Tuple[int, int], ...]] = [()]
    for depth in range(moves + 1):
        deeper = []
        for counts in level:
            plan = Moved(dict(counts), queue)
            outcome = program.run(plan)
            if depth or shard.number == 1:
                yield outcome
            if depth < moves:
                deeper += list(_one_more(counts, plan.left))
        level = list(shard.part(deeper)) if depth == 0 else deeper


def _one_more(counts: Tuple[Tuple[int, int], ...], left: Dict[int, int]) -> Iterator[Tuple[Tuple[int, int], ...]]:
    """Moves one more line before the last request that has any, or a later one. `left` is how many each leaves."""
    last, count = counts[-1] if counts else (0, 0)
    for request, lines in left.items():
        if lines and request == last:
            yield (*counts[:-1], (last, count + 1))
        elif lines and request > last:
            yield (*counts, (request, 1))
