//! The tree as the consumer has it: each call is a request, and changes happen between them.
use super::plan::Plan;
use super::schedule::{Change, Schedule, PAUSE};
use super::timeline::Timeline;
use crate::{Error, Events, Instance, Mask, Stat};
use std::ffi::OsString;
use std::path::Path;
use std::rc::Rc;

/// The sizes of records differ by this, in bytes.
const STEP: usize = 16;

/// The panic that ends a consumer which makes too many requests.
pub(crate) struct TooManyRequests;

/// The tree of a consumer. Its calls are those of [`Tree`](crate::Tree), and each is a request, before whose answer
/// lines of the script may happen. [`wait`](Tree::wait) waits for records, which lets them happen too.
#[derive(Debug)]
pub struct Tree {
    pub(crate) tree: crate::Tree,
    pub(crate) plan: Plan,
    pub(crate) timeline: Option<Timeline>,
    /// The journal of a run with a timeline, when the consumer has ended.
    pub(crate) script: String,
    lines: Rc<Vec<String>>,
    limit: u32,
    requests: u32,
    /// How many reads returned records.
    pub(crate) reads: u64,
    before: Vec<Option<u32>>,
    limits: Vec<(u32, u32)>,
    /// The instances that were asked in vain since the last request, and how often any was.
    asked: Vec<Instance>,
    asks: u32,
}

/// Writes the methods: the paths of each, and its other arguments.
macro_rules! requests {
    ($($name:ident([$($path:ident)*] $($word:ident: $kind:ty),*) -> $answer:ty;)*) => {$(
        #[doc = concat!("As [`Tree::", stringify!($name), "`](crate::Tree::", stringify!($name), ").")]
        pub fn $name(&mut self, $($path: impl AsRef<Path>,)* $($word: $kind),*) -> Result<$answer, Error> {
            let request = self.request();
            $(let $path = $path.as_ref();)*
            let words = self.timeline.as_ref().map(|_| {
                let words: Vec<String> = vec![$($path.display().to_string(),)* $(format!("{:?}", $word)),*];
                words.join(" ")
            });
            let answer = self.tree.$name($($path,)* $($word),*);
            if let (Some(timeline), Some(words)) = (&mut self.timeline, words) {
                timeline.request(request, stringify!($name), &words, &answer);
            }
            answer
        }
    )*};
}

impl Tree {
    pub(crate) fn new(plan: Plan, lines: &Rc<Vec<String>>, limit: u32, has_timeline: bool) -> Result<Tree, Error> {
        Ok(Tree {
            tree: crate::Tree::open()?,
            plan,
            timeline: has_timeline.then(Timeline::default),
            script: String::new(),
            lines: Rc::clone(lines),
            limit,
            requests: 0,
            reads: 0,
            before: Vec::new(),
            limits: Vec::new(),
            asked: Vec::new(),
            asks: 0,
        })
    }

    /// Lets a line happen, which may be refused.
    pub(crate) fn line(&mut self, line: &str, when: &str) -> Result<(), Error> {
        let reply = if line == PAUSE { Vec::new() } else { self.tree.line(line, self.plan.queue)? };
        if let Some(timeline) = &mut self.timeline {
            timeline.line(line, &reply, when);
        }
        Ok(())
    }

    /// What happened when. Lines that did not happen are at rest.
    pub(crate) fn schedule(&self, setup: &[String]) -> Schedule {
        let before = self.before.iter().copied().chain(std::iter::repeat(None));
        let changes =
            self.lines.iter().zip(before).map(|(line, before)| Change { line: line.clone(), before }).collect();
        Schedule { setup: setup.to_vec(), changes, reads: self.limits.clone(), queue: self.plan.queue }
    }

    fn happen(&mut self, before: Option<u32>) {
        let lines = Rc::clone(&self.lines);
        let line = &lines[self.before.len()];
        self.before.push(before);
        let when = match (&self.timeline, before) {
            (None, _) => String::new(),
            (_, None) => "at rest".into(),
            (_, Some(request)) => format!("before request {request}"),
        };
        self.line(line, &when).expect("it is a line of a script");
    }

    /// Counts a request, and lets the lines happen that happen before it is answered.
    fn request(&mut self) -> u32 {
        self.requests += 1;
        if self.requests > self.limit {
            std::panic::panic_any(TooManyRequests);
        }
        self.asked.clear();
        let (begin, end) = (self.before.len(), self.lines.len());
        if begin < end {
            for _ in 0..self.plan.lines(self.requests, begin, end) {
                self.happen(Some(self.requests));
            }
        }
        self.requests
    }

    /// Lets a line happen, as the consumer asks an instance in vain. An error if none is left.
    fn rest(&mut self, instance: Instance, waits: bool) -> Result<(), Error> {
        self.asks += 1;
        if self.asks > self.limit {
            std::panic::panic_any(TooManyRequests);
        }
        let is_first = !self.asked.contains(&instance);
        if is_first {
            self.asked.push(instance);
        }
        if !waits && is_first {
            return Err(Error::AGAIN);
        }
        if self.before.len() == self.lines.len() {
            if let Some(timeline) = &mut self.timeline {
                timeline.end();
            }
            return Err(Error::CLOSED);
        }
        self.happen(None);
        Ok(())
    }

    fn take(&mut self, instance: Instance, bytes: usize, waits: bool) -> Result<Option<Events>, Error> {
        while self.tree.waiting(instance)? == 0 {
            match self.rest(instance, waits) {
                Err(Error::CLOSED) if waits => return Ok(None),
                rested => rested?,
            }
        }
        let request = self.request();
        self.reads += 1;
        let limit = self.plan.records(request);
        let events = match limit {
            None => {
                let waiting = self.tree.bytes_waiting(instance)? as usize;
                self.tree.read(instance, bytes.min(waiting))?
            }
            Some(records) => {
                self.limits.push((request, records));
                self.take_records(instance, bytes, records)?
            }
        };
        if let Some(timeline) = &mut self.timeline {
            timeline.read(request, instance, &events, limit);
        }
        Ok(Some(events))
    }

    /// Takes at most `records` records, each with the shortest buffer that it fits, so that no other follows.
    fn take_records(&mut self, instance: Instance, bytes: usize, records: u32) -> Result<Events, Error> {
        let mut taken = Vec::new();
        for _ in 0..records {
            if self.tree.waiting(instance)? == 0 {
                break;
            }
            let left = bytes - taken.len();
            let sizes = (1..=left / STEP).map(|it| it * STEP);
            let tried = sizes.map(|size| self.tree.read(instance, size)).find(|it| *it != Err(Error::EINVAL));
            match tried {
                Some(events) => taken.extend_from_slice(events?.as_bytes()),
                None => break,
            }
        }
        if taken.is_empty() {
            return Err(Error::EINVAL);
        }
        Ok(Events::new(taken))
    }

    /// Waits for records, and reads as many as fit into 65,536 bytes. Lines happen until there is one. `None` is the
    /// end of the run: no record waits, and no line is left.
    pub fn wait(&mut self, instance: Instance) -> Result<Option<Events>, Error> {
        self.take(instance, 65536, true)
    }

    /// Like [`Tree::read`](crate::Tree::read), without waiting: [`Error::AGAIN`] if no record waits. If it is called
    /// again without another request in between, the consumer polls, so the next line happens first;
    /// [`Error::CLOSED`] if no line is left.
    pub fn read(&mut self, instance: Instance, bytes: usize) -> Result<Events, Error> {
        self.take(instance, bytes, false).map(|it| it.expect("a read that does not wait has no end"))
    }

    /// How many records wait. If none does, it is as a [`read`](Tree::read) that finds nothing, and answers 0.
    pub fn waiting(&mut self, instance: Instance) -> Result<u64, Error> {
        while self.tree.waiting(instance)? == 0 {
            match self.rest(instance, false) {
                Err(Error::AGAIN) => return Ok(0),
                rested => rested?,
            }
        }
        self.request();
        self.tree.waiting(instance)
    }

    /// Makes an instance. Its queue has the limit of the schedule if that is smaller.
    pub fn inotify(&mut self, limit: u32) -> Result<Instance, Error> {
        let request = self.request();
        let limit = limit.min(self.plan.queue);
        let answer = self.tree.inotify(limit);
        if let Some(timeline) = &mut self.timeline {
            timeline.request(request, "inotify", &limit.to_string(), &answer);
        }
        answer
    }

    /// Like [`Tree::add_watch`](crate::Tree::add_watch).
    pub fn add_watch(
        &mut self,
        instance: Instance,
        path: impl AsRef<Path>,
        mask: impl Into<Mask>,
    ) -> Result<i32, Error> {
        let (request, path, Mask(bits)) = (self.request(), path.as_ref(), mask.into());
        let answer = self.tree.add_watch(instance, path, bits);
        if let Some(timeline) = &mut self.timeline {
            let words = format!("{} {} {bits:#x}", instance.0, path.display());
            timeline.request(request, "add_watch", &words, &answer);
        }
        answer
    }

    /// Like [`Tree::pread`](crate::Tree::pread).
    pub fn pread(&mut self, path: impl AsRef<Path>, offset: u64, out: &mut [u8]) -> Result<usize, Error> {
        let (request, path) = (self.request(), path.as_ref());
        let answer = self.tree.pread(path, offset, out);
        if let Some(timeline) = &mut self.timeline {
            let words = format!("{} {offset} {}", path.display(), out.len());
            timeline.request(request, "pread", &words, &answer);
        }
        answer
    }

    requests! {
        mkdir([path] mode: u32) -> u32;
        create([path] mode: u32) -> u32;
        write([path] offset: u64, bytes: &[u8]) -> u64;
        truncate([path] len: u64) -> ();
        chmod([path] mode: u32) -> ();
        link([old to]) -> ();
        unlink([path]) -> ();
        rmdir([path]) -> ();
        rename([old to]) -> ();
        rename2([old to] flags: u32) -> ();
        stat([path]) -> Stat;
        list([path]) -> Vec<OsString>;
        rm_watch([] instance: Instance, wd: i32) -> ();
        close([] instance: Instance) -> ();
    }
}
