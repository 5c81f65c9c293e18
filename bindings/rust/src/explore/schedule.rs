//! Scripts, schedules, and their text.
use crate::QUEUE;
use std::fmt;

pub(crate) const PAUSE: &str = "--";

/// A line of a script, and when it happens.
#[derive(Clone, Debug, PartialEq, Eq, Hash)]
pub struct Change {
    pub line: String,
    /// The request that is answered after it; none if it happens at rest.
    pub before: Option<u32>,
}

/// What happens when. It is printed as the text of its file, which [`Schedule::parse`] reads.
///
/// Requests of the consumer are numbered from 1. A change whose request does not come happens at rest.
#[derive(Clone, Debug, PartialEq, Eq, Hash)]
pub struct Schedule {
    /// The lines that happen first.
    pub setup: Vec<String>,
    pub changes: Vec<Change>,
    /// Pairs of a request, which is a read, and the number of records that it returns at most.
    pub reads: Vec<(u32, u32)>,
    /// The limit of each queue, in records.
    pub queue: u32,
}

/// Why a text is no script or no schedule, or why a run of it says nothing.
#[derive(Clone, Debug, PartialEq, Eq)]
pub struct Fault(pub String);

impl fmt::Display for Fault {
    fn fmt(&self, f: &mut fmt::Formatter<'_>) -> fmt::Result {
        f.write_str(&self.0)
    }
}

impl std::error::Error for Fault {}

fn is_skipped(line: &str) -> bool {
    let line = line.trim_matches(' ');
    line.is_empty() || line.starts_with('#')
}

impl Schedule {
    /// Reads a script with the directives `#@` of docs/EXPLORE.md. Any script is a schedule.
    pub fn parse(text: &str) -> Result<Schedule, Fault> {
        let mut parser = Parser::default();
        for (at, line) in text.split('\n').enumerate() {
            if !parser.take(line) {
                return Err(Fault(format!("line {}: {line:?} is not a directive, or not one for this line", at + 1)));
            }
        }
        let mut schedule = parser.schedule;
        schedule.reads.sort_unstable();
        Ok(schedule)
    }

    /// Reads a script that has a line `--`.
    pub(crate) fn script(text: &str) -> Result<Schedule, Fault> {
        if !text.split('\n').any(|it| it == PAUSE) {
            return Err(Fault("a script has a line `--` between what happens first and the changes".into()));
        }
        Schedule::parse(text)
    }
}

struct Parser {
    schedule: Schedule,
    is_setup: bool,
    before: Option<u32>,
}

impl Default for Parser {
    fn default() -> Parser {
        let schedule = Schedule { setup: Vec::new(), changes: Vec::new(), reads: Vec::new(), queue: QUEUE };
        Parser { schedule, is_setup: true, before: None }
    }
}

impl Parser {
    /// Takes a line. False if it is a directive that does not exist.
    fn take(&mut self, line: &str) -> bool {
        if let Some(words) = line.strip_prefix("#@") {
            return self.directive(&words.split_whitespace().collect::<Vec<_>>());
        }
        if is_skipped(line) {
            return true;
        }
        if !self.is_setup {
            self.schedule.changes.push(Change { line: line.into(), before: self.before });
        } else if line == PAUSE {
            self.is_setup = false;
        } else {
            self.schedule.setup.push(line.into());
        }
        true
    }

    fn directive(&mut self, words: &[&str]) -> bool {
        let numbers: Option<Vec<u32>> =
            words.iter().skip(1).map(|it| it.parse().ok().filter(|&number| number > 0)).collect();
        match (words, numbers.as_deref()) {
            (["at", "rest"], _) => {
                self.before = None;
                !self.is_setup
            }
            (["before", _], Some(&[request])) => {
                self.before = Some(request);
                !self.is_setup
            }
            (["queue", _], Some(&[records])) => {
                self.schedule.queue = records;
                self.is_setup && self.schedule.setup.is_empty()
            }
            (["read", _, _], Some(&[request, records])) => {
                self.schedule.reads.retain(|it| it.0 != request);
                self.schedule.reads.push((request, records));
                true
            }
            _ => false,
        }
    }
}

impl fmt::Display for Schedule {
    fn fmt(&self, f: &mut fmt::Formatter<'_>) -> fmt::Result {
        if self.queue != QUEUE {
            writeln!(f, "#@ queue {}", self.queue)?;
        }
        for line in self.setup.iter().map(String::as_str).chain([PAUSE]) {
            writeln!(f, "{line}")?;
        }
        let (mut last, mut reads) = (None, self.reads.iter().peekable());
        for change in &self.changes {
            if change.before != last {
                match change.before {
                    None => writeln!(f, "#@ at rest")?,
                    Some(request) => {
                        while let Some((at, records)) = reads.next_if(|it| it.0 < request) {
                            writeln!(f, "#@ read {at} {records}")?;
                        }
                        writeln!(f, "#@ before {request}")?;
                    }
                }
                last = change.before;
            }
            writeln!(f, "{}", change.line)?;
        }
        reads.try_for_each(|(at, records)| writeln!(f, "#@ read {at} {records}"))
    }
}
