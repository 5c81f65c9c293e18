//! What decides a run: a seed, a schedule, or a number of lines before each request.
use super::schedule::Schedule;
use std::rc::Rc;

/// Numbers that a seed decides: splitmix64.
#[derive(Debug)]
pub(crate) struct Draws(u64);

impl Draws {
    pub fn new(seed: u64) -> Draws {
        Draws(seed)
    }

    /// A number from 0 to `count` - 1.
    pub fn below(&mut self, count: u64) -> u64 {
        self.0 = self.0.wrapping_add(0x9E37_79B9_7F4A_7C15);
        let z = (self.0 ^ (self.0 >> 30)).wrapping_mul(0xBF58_476D_1CE4_E5B9);
        let z = (z ^ (z >> 27)).wrapping_mul(0x94D0_49BB_1331_11EB);
        (z ^ (z >> 31)) % count
    }

    fn one_of<T: Copy>(&mut self, values: &[T]) -> T {
        values[self.below(values.len() as u64) as usize]
    }
}

#[derive(Debug)]
enum Kind {
    /// Lines happen early and often with some seeds, late and seldom with others.
    Seeded {
        draws: Draws,
        odds: u64,
        batches: Option<Rc<[Option<u32>]>>,
    },
    Fixed {
        before: Vec<Option<u32>>,
        reads: Vec<(u32, u32)>,
    },
    /// `counts` has how many lines happen before some requests. `left` notes how many were left after each.
    Moved {
        counts: Vec<(u32, usize)>,
        left: Vec<(u32, usize)>,
    },
}

#[derive(Debug)]
pub(crate) struct Plan {
    pub queue: u32,
    kind: Kind,
}

impl Plan {
    pub fn seeded(seed: u64, queues: &[u32], batches: &Rc<[Option<u32>]>) -> Plan {
        let mut draws = Draws::new(seed);
        let queue = draws.one_of(queues);
        let odds = 1 + draws.below(16);
        let is_short = draws.below(2) == 1;
        Plan { queue, kind: Kind::Seeded { draws, odds, batches: is_short.then(|| Rc::clone(batches)) } }
    }

    pub fn fixed(schedule: &Schedule) -> Plan {
        let before = schedule.changes.iter().map(|it| it.before).collect();
        Plan { queue: schedule.queue, kind: Kind::Fixed { before, reads: schedule.reads.clone() } }
    }

    pub fn moved(counts: Vec<(u32, usize)>, queue: u32) -> Plan {
        Plan { queue, kind: Kind::Moved { counts, left: Vec::new() } }
    }

    /// How many lines were left after those that happened before each request, of a plan of moves.
    pub fn left(&self) -> &[(u32, usize)] {
        match &self.kind {
            Kind::Moved { left, .. } => left,
            _ => &[],
        }
    }

    /// How many of the lines from `begin` to `end`, at least one, happen before a request is answered.
    pub fn lines(&mut self, request: u32, begin: usize, end: usize) -> usize {
        match &mut self.kind {
            Kind::Seeded { draws, odds, .. } => {
                if draws.below(*odds) != 0 {
                    return 0;
                }
                let mut count = 1;
                while count < end - begin && draws.below(2) != 0 {
                    count += 1;
                }
                count
            }
            Kind::Fixed { before, .. } => {
                before[begin..end].iter().take_while(|it| it.map_or(false, |at| at <= request)).count()
            }
            Kind::Moved { counts, left } => {
                let wanted = counts.iter().find(|it| it.0 == request).map_or(0, |it| it.1);
                let count = wanted.min(end - begin);
                left.push((request, end - begin - count));
                count
            }
        }
    }

    /// How many records a read returns at most.
    pub fn records(&mut self, request: u32) -> Option<u32> {
        match &mut self.kind {
            Kind::Seeded { draws, batches, .. } => batches.as_ref().and_then(|it| draws.one_of(it)),
            Kind::Fixed { reads, .. } => reads.iter().find(|it| it.0 == request).map(|it| it.1),
            Kind::Moved { .. } => None,
        }
    }
}
