//! All schedules in which a few lines are moved.
use super::plan::Plan;
use super::program::{Outcome, Program};
use super::shard::Shard;

type Counts = Vec<(u32, usize)>;

/// Runs every schedule in which at most `moves` lines happen before an earlier request than they would at rest, until
/// `each` returns false. Each schedule is run once, those with fewer moved lines first. Lines keep their order. A shard
/// has those that begin with a first move of its own; the first shard has the schedule without a move, too.
pub(crate) fn moved<B>(
    program: &Program<'_, B>,
    moves: usize,
    queue: u32,
    shard: Shard,
    mut each: impl FnMut(Outcome) -> bool,
) {
    let mut level: Vec<Counts> = vec![Vec::new()];
    for depth in 0..=moves {
        let mut deeper = Vec::new();
        for counts in level {
            let outcome = program.run(Plan::moved(counts.clone(), queue), false);
            if depth < moves {
                deeper.extend(one_more(&counts, outcome.plan.left()));
            }
            if (depth > 0 || shard.is_first()) && !each(outcome) {
                return;
            }
        }
        level = if depth == 0 { shard.part(deeper).collect() } else { deeper };
    }
}

/// Moves one more line before the last request that has any, or a later one. `left` is how many each leaves.
fn one_more(counts: &Counts, left: &[(u32, usize)]) -> Vec<Counts> {
    let last = counts.last().map_or(0, |it| it.0);
    let can = left.iter().filter(|it| it.1 > 0 && it.0 >= last.max(1));
    can.map(|&(request, _)| {
        let mut more = counts.clone();
        match more.last_mut() {
            Some(it) if it.0 == request => it.1 += 1,
            _ => more.push((request, 1)),
        }
        more
    })
    .collect()
}
