//! Makes a failing schedule shorter while it still fails.
use super::moves::moved;
use super::program::{Failed, Outcome, Program};
use super::schedule::Schedule;
use super::shard::Shard;
use crate::QUEUE;

/// How far the schedules of a script are searched: how many lines are moved, and how many runs are made.
const MOVES: usize = 3;
const MOVED_RUNS: usize = 300;
/// How many requests earlier a change is tried when a line before it is dropped.
const EARLIER: u32 = 24;

/// A schedule that was changed.
fn changed(schedule: &Schedule, change: impl FnOnce(&mut Schedule)) -> Schedule {
    let mut other = schedule.clone();
    change(&mut other);
    other
}

/// Drops lines: many at once first, later ones first.
fn without_lines(schedule: &Schedule) -> impl Iterator<Item = Schedule> + '_ {
    let count = schedule.changes.len();
    let sizes = std::iter::successors(Some(count), |it| Some(it / 2)).take_while(|&it| it > 0);
    let pieces = sizes.flat_map(move |size| (0..=count - size).rev().step_by(size).map(move |at| at..at + size));
    let changes = pieces.map(move |piece| changed(schedule, |it| drop(it.changes.drain(piece))));
    let setup = (0..schedule.setup.len()).rev().map(move |at| changed(schedule, |it| drop(it.setup.remove(at))));
    changes.chain(setup)
}

/// Lets changes happen at rest, drops limits of reads, and makes queues longer.
fn without_moves(schedule: &Schedule) -> impl Iterator<Item = Schedule> + '_ {
    let queue = (schedule.queue != QUEUE).then(|| changed(schedule, |it| it.queue = QUEUE));
    let reads = (!schedule.reads.is_empty()).then(|| changed(schedule, |it| it.reads.clear()));
    let each_read = (0..schedule.reads.len()).rev().map(move |at| {
        changed(schedule, |it| {
            it.reads.remove(at);
        })
    });
    let is_moved = move |at: &usize| schedule.changes[*at].before.is_some();
    let moves = (0..schedule.changes.len()).rev().filter(is_moved);
    let at_rest = moves.map(move |at| changed(schedule, |it| it.changes[at].before = None));
    queue.into_iter().chain(reads).chain(each_read).chain(at_rest)
}

/// Drops one line, and lets the changes after it happen before earlier requests: the consumer makes fewer then.
fn with_shifts(schedule: &Schedule) -> impl Iterator<Item = Schedule> + '_ {
    (0..schedule.changes.len()).flat_map(move |at| {
        let first = schedule.changes[at + 1..].iter().find_map(|it| it.before).unwrap_or(0);
        (1..first.min(EARLIER)).map(move |shift| {
            changed(schedule, |it| {
                it.changes.remove(at);
                let earlier = |request: u32| request.saturating_sub(shift).max(1);
                for change in &mut it.changes[at..] {
                    change.before = change.before.map(earlier);
                }
                for read in it.reads.iter_mut().filter(|it| it.0 >= first) {
                    read.0 = earlier(read.0);
                }
            })
        })
    })
}

/// Drops two lines together: one that makes something, and one that removes it.
fn pairs(schedule: &Schedule) -> impl Iterator<Item = Schedule> + '_ {
    let count = schedule.changes.len();
    let two = (0..count).flat_map(move |one| (one + 1..count).map(move |other| (one, other)));
    two.map(move |(one, other)| {
        changed(schedule, |it| {
            it.changes.remove(other);
            it.changes.remove(one);
        })
    })
}

/// Looks for failures of one kind, in at most `left` runs.
struct Search<'s, 'a, B> {
    program: &'s Program<'a, B>,
    kind: Failed,
    left: usize,
}

impl<B> Search<'_, '_, B> {
    fn by_schedule(&mut self, schedules: impl Iterator<Item = Schedule>) -> Option<Outcome> {
        for schedule in schedules {
            self.left = self.left.checked_sub(1)?;
            let outcome = self.program.replay(&schedule, false);
            if outcome.is_like(&self.kind) {
                return Some(outcome);
            }
        }
        None
    }

    /// Drops a line, and tries all schedules of the rest with few moves.
    fn by_moves(&mut self, schedule: &Schedule) -> Option<Outcome> {
        for at in 0..schedule.changes.len() {
            let script = changed(schedule, |it| drop(it.changes.remove(at)));
            let program = self.program.with_script(&script);
            let short = if schedule.queue == 1 { None } else { Some(1) };
            for queue in short.into_iter().chain([schedule.queue]) {
                let (mut found, mut runs) = (None, 0);
                moved(&program, MOVES, queue, Shard::WHOLE, |outcome| {
                    runs += 1;
                    self.left = self.left.saturating_sub(1);
                    found = outcome.is_like(&self.kind).then_some(outcome);
                    found.is_none() && runs < MOVED_RUNS && self.left > 0
                });
                if found.is_some() {
                    return found;
                }
            }
        }
        None
    }
}

/// Returns the smallest failure of the same kind, by lines and moves, that at most `runs` runs find.
pub(crate) fn shrink<B>(program: &Program<'_, B>, found: Outcome, kind: &Failed, runs: usize) -> Outcome {
    let (mut search, mut best) = (Search { program, kind: kind.clone(), left: runs }, found);
    loop {
        let schedule = best.schedule.clone();
        let smaller = without_lines(&schedule)
            .chain(without_moves(&schedule))
            .chain(with_shifts(&schedule))
            .chain(pairs(&schedule));
        match search.by_schedule(smaller).or_else(|| search.by_moves(&schedule)) {
            Some(better) => best = better,
            None => return best,
        }
    }
}
