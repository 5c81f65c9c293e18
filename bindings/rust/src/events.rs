//! The records that a read returns.
use crate::Mask;
use std::ffi::OsStr;
use std::os::unix::ffi::OsStrExt;

/// A record of inotify(7).
#[derive(Clone, Copy, Debug, PartialEq, Eq)]
pub struct Event<'a> {
    pub wd: i32,
    /// Bits of [`mask`](crate::mask); [`mask()`](Event::mask) returns them with their names.
    pub mask: u32,
    /// Connects the two records of a rename; otherwise 0.
    pub cookie: u32,
    /// The name in the watched directory; none if the event is about the watched file itself.
    pub name: Option<&'a OsStr>,
}

impl Event<'_> {
    /// The bits of `mask`, with their names.
    pub fn mask(&self) -> Mask {
        Mask(self.mask)
    }
}

/// The records that a read returned, in the bytes of read(2).
#[derive(Clone, Debug, Default, PartialEq, Eq)]
pub struct Events {
    bytes: Vec<u8>,
}

impl Events {
    pub(crate) fn new(bytes: Vec<u8>) -> Events {
        Events { bytes }
    }

    /// The bytes, as read(2) on an inotify descriptor returns them.
    pub fn as_bytes(&self) -> &[u8] {
        &self.bytes
    }

    pub fn iter(&self) -> EventIter<'_> {
        EventIter { rest: &self.bytes }
    }
}

impl<'a> IntoIterator for &'a Events {
    type Item = Event<'a>;
    type IntoIter = EventIter<'a>;

    fn into_iter(self) -> EventIter<'a> {
        self.iter()
    }
}

/// Iterates over the records of a read.
#[derive(Clone, Debug)]
pub struct EventIter<'a> {
    rest: &'a [u8],
}

impl<'a> Iterator for EventIter<'a> {
    type Item = Event<'a>;

    fn next(&mut self) -> Option<Event<'a>> {
        let word = |at: usize| -> Option<[u8; 4]> { self.rest.get(at..at + 4)?.try_into().ok() };
        let (wd, mask, cookie, len) = (word(0)?, word(4)?, word(8)?, u32::from_le_bytes(word(12)?));
        let (record, rest) = self.rest.split_at(self.rest.len().min(16 + len as usize));
        let name = &record[16..];
        let end = name.iter().position(|&it| it == 0).unwrap_or(name.len());
        self.rest = rest;
        Some(Event {
            wd: i32::from_le_bytes(wd),
            mask: u32::from_le_bytes(mask),
            cookie: u32::from_le_bytes(cookie),
            name: (end > 0).then(|| OsStr::from_bytes(&name[..end])),
        })
    }
}
