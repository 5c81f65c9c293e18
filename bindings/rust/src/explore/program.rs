//! Runs a consumer once, under one plan.
use super::panics::catch;
use super::plan::Plan;
use super::schedule::{Fault, Schedule, PAUSE};
use super::tree::Tree;
use crate::Error;
use std::fmt;
use std::rc::Rc;

type Consumer<'a, B> = Rc<dyn Fn(&mut Tree) -> Result<B, Error> + 'a>;
type Check<'a, B> = Rc<dyn Fn(&mut crate::Tree, &B) -> Result<(), String> + 'a>;

/// Who failed.
#[derive(Clone, Copy, Debug, PartialEq, Eq)]
pub enum Part {
    Consumer,
    Check,
}

impl Part {
    pub(crate) fn word(self) -> &'static str {
        match self {
            Part::Consumer => "consumer",
            Part::Check => "check",
        }
    }
}

impl fmt::Display for Part {
    fn fmt(&self, f: &mut fmt::Formatter<'_>) -> fmt::Result {
        write!(f, "the {}", self.word())
    }
}

/// How a run failed. Two failures with the same part and source line are of one kind.
#[derive(Clone, Debug)]
pub(crate) struct Failed {
    pub part: Part,
    pub message: String,
    /// The line that panicked, or the error of the consumer.
    pub place: String,
}

/// What became of a run.
#[derive(Debug)]
pub(crate) struct Outcome {
    pub failed: Option<Failed>,
    pub schedule: Schedule,
    pub reads: u64,
    pub timeline: String,
    pub script: String,
    pub plan: Plan,
}

impl Outcome {
    pub fn is_like(&self, other: &Failed) -> bool {
        self.failed.as_ref().map_or(false, |it| it.part == other.part && it.place == other.place)
    }
}

/// A script, a consumer and a check, ready to run many times.
pub(crate) struct Program<'a, B> {
    pub setup: Vec<String>,
    pub lines: Rc<Vec<String>>,
    pub consumer: Consumer<'a, B>,
    pub check: Check<'a, B>,
    pub limit: u32,
}

impl<'a, B> Program<'a, B> {
    /// The program with another script.
    pub fn with_script(&self, schedule: &Schedule) -> Program<'a, B> {
        Program {
            setup: schedule.setup.clone(),
            lines: Rc::new(schedule.changes.iter().map(|it| it.line.clone()).collect()),
            consumer: Rc::clone(&self.consumer),
            check: Rc::clone(&self.check),
            limit: self.limit,
        }
    }

    /// Checks that each line is a line of a script, and that no line of the set-up is refused.
    pub fn try_script(&self) -> Result<(), Fault> {
        let mut tree = crate::Tree::open().map_err(|error| Fault(error.to_string()))?;
        let mut reply_to = |line: &String| {
            tree.line(line, crate::QUEUE).map_err(|error| Fault(format!("{line:?} is not a line of a script: {error}")))
        };
        for line in &self.setup {
            let reply = reply_to(line)?;
            if reply.starts_with(b"err") {
                let reply = String::from_utf8_lossy(&reply);
                return Err(Fault(format!("the line {line:?} before `--` is refused: {}", reply.trim_end())));
            }
        }
        self.lines.iter().filter(|it| *it != PAUSE).try_for_each(|line| reply_to(line).map(drop))
    }

    /// Makes one run in a new tree.
    ///
    /// # Panics
    /// If a tree cannot be opened because it is out of memory, or a line is not a line of a script.
    pub fn run(&self, plan: Plan, has_timeline: bool) -> Outcome {
        let mut tree = Tree::new(plan, &self.lines, self.limit, has_timeline).expect("memory for a tree");
        for line in &self.setup {
            tree.line(line, "set-up").expect("it is a line of a script");
        }
        let failed = self.judge(&mut tree);
        if let (Some(timeline), Some(failed)) = (&mut tree.timeline, &failed) {
            timeline.failed(&failed.part.to_string(), &failed.message);
        }
        let schedule = tree.schedule(&self.setup);
        let timeline = tree.timeline.as_ref().map(ToString::to_string).unwrap_or_default();
        Outcome { failed, schedule, reads: tree.reads, timeline, script: tree.script, plan: tree.plan }
    }

    fn judge(&self, tree: &mut Tree) -> Option<Failed> {
        let failed = |part, message, place| Some(Failed { part, message, place });
        let ended = catch(|| (self.consumer)(tree));
        // (before the check makes calls)
        if tree.timeline.is_some() {
            tree.script = tree.tree.script().expect("memory for the script");
        }
        match ended {
            Err(panic) => failed(Part::Consumer, panic.message, panic.place),
            Ok(Err(error)) => failed(Part::Consumer, error.to_string(), error.to_string()),
            Ok(Ok(believed)) => match catch(|| (self.check)(&mut tree.tree, &believed)) {
                Err(panic) => failed(Part::Check, panic.message, panic.place),
                Ok(Err(message)) => failed(Part::Check, message, String::new()),
                Ok(Ok(())) => None,
            },
        }
    }

    /// Makes the run of a schedule, whose script may be another one.
    pub fn replay(&self, schedule: &Schedule, has_timeline: bool) -> Outcome {
        self.with_script(schedule).run(Plan::fixed(schedule), has_timeline)
    }
}
