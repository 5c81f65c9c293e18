//! Parts of a search, for several processes or machines.

/// Part `number` of `count`: all of them are the whole search, and no two have a schedule in common.
#[derive(Clone, Copy, Debug)]
pub(crate) struct Shard {
    number: usize,
    count: usize,
}

impl Shard {
    pub const WHOLE: Shard = Shard { number: 1, count: 1 };

    pub fn new(number: usize, count: usize) -> Shard {
        assert!(1 <= number && number <= count, "a shard is one from 1 of {count} on, not {number}");
        Shard { number, count }
    }

    pub fn is_first(self) -> bool {
        self.number == 1
    }

    /// Every `count`-th, from `number` on.
    pub fn part<T>(self, them: impl IntoIterator<Item = T>) -> impl Iterator<Item = T> {
        them.into_iter().skip(self.number - 1).step_by(self.count)
    }
}
