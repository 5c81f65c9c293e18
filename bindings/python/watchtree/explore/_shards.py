"""Parts of a search, for several processes or machines."""

from itertools import islice
from typing import Iterable, Iterator, NamedTuple, TypeVar, Union

T = TypeVar("T")


class Shard(NamedTuple):
    """Part `number` of `total`: all of them are the whole search, and no two have a schedule in common."""

    number: int
    total: int

    def part(self, them: Iterable[T]) -> Iterator[T]:
        """Returns every `total`-th, from `number` on."""
        return islice(them, self.number - 1, None, self.total)


WHOLE = Shard(1, 1)


def parse_shard(given: Union[str, Shard]) -> Shard:
    """Reads `K/N`, such as `2/4`."""
    if isinstance(given, str):
        number, _, total = given.partition("/")
        given = Shard(int(number), int(total)) if number.isdecimal() and total.isdecimal() else Shard(0, 0)
    if not 1 <= given.number <= given.total:
        raise ValueError("a shard is K/N, such as 1/4 to 4/4")
    return given
