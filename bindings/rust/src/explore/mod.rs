//! Every order in which it could have happened: runs event code under many schedules, and shrinks one that breaks it.
//!
//! A consumer is a function over a [`Tree`]. Each of its calls is a request, and lines of a script may happen before it
//! is answered. A line also happens whenever the consumer waits and there is no record. A check then compares what the
//! consumer believes with what is there.
//!
//! ```
//! use std::collections::BTreeSet;
//! use std::ffi::OsString;
//! use watchtree::explore::{Explore, Tree};
//! use watchtree::{mask, Error, QUEUE};
//!
//! /// Lists a directory, then watches it: what is made in between is missed.
//! fn consumer(tree: &mut Tree) -> Result<BTreeSet<OsString>, Error> {
//!     let mut names: BTreeSet<OsString> = tree.list("/d")?.into_iter().collect();
//!     let instance = tree.inotify(QUEUE)?;
//!     tree.add_watch(instance, "/d", mask::CREATE)?;
//!     while let Some(events) = tree.wait(instance)? {
//!         names.extend(events.iter().filter_map(|event| event.name).map(OsString::from));
//!     }
//!     Ok(names)
//! }
//!
//! let script = "mkdir /d 755\n--\ncreate /d/a 644\ncreate /d/b 644\n";
//! let report = Explore::new(script, consumer, |tree, names| {
//!     let there: BTreeSet<OsString> = tree.peek_list("/d").expect("it is there").into_iter().collect();
//!     if *names == there { Ok(()) } else { Err(format!("believes {names:?}, and there are {there:?}")) }
//! })?
//! .queues(&[QUEUE])
//! .seeds(0..200)?;
//! let failure = report.failure().expect("a seed finds it");
//! assert_eq!(failure.schedule.changes.len(), 1);
//! println!("{failure}");
//! # Ok::<(), watchtree::explore::Fault>(())
//! ```
//!
//! The consumer has to be deterministic. docs/EXPLORE-IN-PROCESS.md says more.
mod moves;
mod panics;
mod plan;
mod program;
mod report;
mod schedule;
mod shard;
mod shrink;
mod timeline;
mod tree;

pub use program::Part;
pub use schedule::{Change, Fault, Schedule};
pub use tree::Tree;

use crate::{Error, QUEUE};
use moves::moved;
use plan::Plan;
use program::{Outcome, Program};
use shard::Shard;
use shrink::shrink;
use std::fmt;
use std::fs;
use std::path::Path;
use std::rc::Rc;
use std::time::{Duration, Instant};

/// The limits of queues that a seed chooses from.
pub const QUEUES: [u32; 6] = [QUEUE, QUEUE, 1, 2, 3, 5];
/// How many records a read returns at most, that a seed chooses from; `None` is without a limit.
pub const BATCHES: [Option<u32>; 5] = [None, Some(1), Some(1), Some(2), Some(3)];
const REQUESTS: u32 = 10_000;
const SHRINKING_RUNS: usize = 10_000;

/// A consumer, a script and a check, to be run under many schedules.
pub struct Explore<'a, B> {
    program: Program<'a, B>,
    queues: Vec<u32>,
    batches: Rc<[Option<u32>]>,
    keeps_going: bool,
    name: String,
    shard: Shard,
}

/// A failing schedule, shrunk. It is printed as what happened in it.
#[derive(Clone, Debug)]
pub struct Failure {
    /// The seed that found it, if one did.
    pub seed: Option<u64>,
    /// The shrunk schedule, for [`Explore::replay`].
    pub schedule: Schedule,
    pub part: Part,
    /// What the check said, what a panic said, or the error of the consumer.
    pub message: String,
    pub timeline: String,
    /// The schedule as it was found.
    pub found: Schedule,
    /// The calls of the run and their replies, those of the consumer and the changes: `watchtree run` repeats them.
    pub script: String,
}

impl fmt::Display for Failure {
    fn fmt(&self, f: &mut fmt::Formatter<'_>) -> fmt::Result {
        let lines = self.schedule.setup.len() + self.schedule.changes.len();
        let seed = self.seed.map_or(String::new(), |it| format!(" (seed {it})"));
        writeln!(f, "{} failed under a schedule of {lines} lines{seed}\n\n{}", self.part, self.timeline)?;
        write!(f, "the schedule, for Explore::replay:\n\n{}", self.schedule)
    }
}

/// What the runs found.
#[derive(Clone, Debug, Default)]
pub struct Report {
    pub runs: u64,
    /// How many reads returned records, in all runs.
    pub reads: u64,
    pub failures: Vec<Failure>,
    /// The file of the script, for [`junit`](Report::junit) and [`json`](Report::json).
    pub name: String,
    pub elapsed: Duration,
}

impl Report {
    /// The first failure.
    pub fn failure(&self) -> Option<&Failure> {
        self.failures.first()
    }
}

impl<'a, B: 'a> Explore<'a, B> {
    /// Takes a script: lines that happen first, the line `--`, and changes. A run fails if the consumer returns an
    /// error or panics, or if the check does.
    pub fn new(
        script: &str,
        consumer: impl Fn(&mut Tree) -> Result<B, Error> + 'a,
        check: impl Fn(&mut crate::Tree, &B) -> Result<(), String> + 'a,
    ) -> Result<Explore<'a, B>, Fault> {
        let schedule = Schedule::script(script)?;
        let lines = Rc::new(schedule.changes.into_iter().map(|it| it.line).collect());
        let (consumer, check) = (Rc::new(consumer), Rc::new(check));
        let program = Program { setup: schedule.setup, lines, consumer, check, limit: REQUESTS };
        program.try_script()?;
        let (queues, batches, name) = (QUEUES.to_vec(), Rc::new(BATCHES), "script".into());
        Ok(Explore { program, queues, batches, keeps_going: false, name, shard: Shard::WHOLE })
    }

    /// Takes the file of a script, such as a recording of `watchtree record`.
    pub fn from_file(
        path: impl AsRef<Path>,
        consumer: impl Fn(&mut Tree) -> Result<B, Error> + 'a,
        check: impl Fn(&mut crate::Tree, &B) -> Result<(), String> + 'a,
    ) -> Result<Explore<'a, B>, Fault> {
        let path = path.as_ref();
        let bytes = fs::read(path).map_err(|error| Fault(format!("{}: {error}", path.display())))?;
        // (only comments may have other bytes)
        let explore = Explore::new(&String::from_utf8_lossy(&bytes), consumer, check)?;
        Ok(Explore { name: path.display().to_string(), ..explore })
    }

    /// The limits of queues that a seed chooses from, [`QUEUES`] unless they are set. [`moves`](Explore::moves) takes
    /// the first.
    ///
    /// # Panics
    /// If there is none.
    pub fn queues(mut self, queues: &[u32]) -> Self {
        assert!(!queues.is_empty());
        self.queues = queues.to_vec();
        self
    }

    /// How many records a read returns at most, [`BATCHES`] unless they are set.
    ///
    /// # Panics
    /// If there is none.
    pub fn batches(mut self, batches: &[Option<u32>]) -> Self {
        assert!(!batches.is_empty());
        self.batches = batches.into();
        self
    }

    /// Runs all schedules, also after one that failed.
    pub fn keep_going(mut self) -> Self {
        self.keeps_going = true;
        self
    }

    /// Runs part `number` of `count` of the seeds or moves, from 1 on. All parts together are the whole, and no two have
    /// a schedule in common.
    ///
    /// # Panics
    /// If there is no such part.
    pub fn shard(mut self, number: usize, count: usize) -> Self {
        self.shard = Shard::new(number, count);
        self
    }

    /// How many requests a consumer may make in a run: 10,000 unless it is set.
    pub fn max_requests(mut self, requests: u32) -> Self {
        self.program.limit = requests;
        self
    }

    /// Runs one schedule for each seed, until one fails. An error if no read of any run returned a record.
    pub fn seeds(&self, seeds: impl IntoIterator<Item = u64>) -> Result<Report, Fault> {
        let (mut report, start) = (Report::default(), Instant::now());
        for seed in self.shard.part(seeds) {
            let plan = Plan::seeded(seed, &self.queues, &self.batches);
            if !self.count(&mut report, Some(seed), self.program.run(plan, false)) {
                break;
            }
        }
        self.ended(report, start)
    }

    /// Runs all schedules in which at most `moves` lines happen before an earlier request than they would at rest.
    pub fn moves(&self, moves: usize) -> Result<Report, Fault> {
        let (mut report, start) = (Report::default(), Instant::now());
        moved(&self.program, moves, self.queues[0], self.shard, |outcome| self.count(&mut report, None, outcome));
        self.ended(report, start)
    }

    /// Runs the consumer under one schedule, and returns how it failed if it did.
    pub fn replay(&self, schedule: &Schedule) -> Option<Failure> {
        let outcome = self.program.replay(schedule, true);
        let failed = outcome.failed?;
        let (part, message, found) = (failed.part, failed.message, schedule.clone());
        let Outcome { schedule, timeline, script, .. } = outcome;
        Some(Failure { seed: None, schedule, part, message, timeline, found, script })
    }

    /// Counts a run. False if it was the last.
    fn count(&self, report: &mut Report, seed: Option<u64>, outcome: Outcome) -> bool {
        report.runs += 1;
        report.reads += outcome.reads;
        match outcome.failed.clone() {
            None => true,
            Some(failed) => {
                let found = outcome.schedule.clone();
                assert!(
                    self.program.replay(&found, false).is_like(&failed),
                    "the consumer is not deterministic: {} failed once, not again, under\n{found}",
                    failed.part
                );
                let short = shrink(&self.program, outcome, &failed, SHRINKING_RUNS);
                let failure = self.replay(&short.schedule).expect("a shrunk schedule fails");
                report.failures.push(Failure { seed, found, ..failure });
                self.keeps_going
            }
        }
    }

    /// The report of a search that has run. An error if the check saw nothing.
    fn ended(&self, report: Report, start: Instant) -> Result<Report, Fault> {
        if report.runs > 0 && report.reads == 0 && report.failures.is_empty() {
            return Err(Fault(format!("no read returned a record in {} runs, so the check saw nothing", report.runs)));
        }
        Ok(Report { name: self.name.clone(), elapsed: start.elapsed(), ..report })
    }
}
