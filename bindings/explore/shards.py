"""Parts of a search for several machines. Shard K of N has every N-th seed, or the moves whose first one is its own: no
two shards have a run in common, and all N together are the whole search."""

import zlib
from dataclasses import dataclass
from typing import Tuple


@dataclass(frozen=True)
class Shard:
    """A part of a search. Without numbers it is the whole one."""

    number: int = 1
    count: int = 1

    def __str__(self) -> str:
        return f"{self.number}/{self.count}"

    def seeds(self, seeds: range) -> range:
        """Returns the seeds of this part."""
        return seeds[self.number - 1 :: self.count]

    def has_move(self, key: Tuple[int, int, int]) -> bool:
        """Whether a first move belongs to this part. Its key alone decides: a program that makes other requests on another
        machine does not shift the moves of one shard into another."""
        return zlib.crc32(repr(key).encode()) % self.count == self.number - 1
