//! The calls of a script by a plain Rust program, for benchmarks: what one would write by hand over std's collections, with
//! a journal, and without a contract or a proof. It reads a script on standard input and prints what watchtree prints for the
//! scripts of bench/. Of other scripts it may refuse by another error, or stop at a line with a fault.
//!
//! With the words `fork COUNT`, for bench/fork, it then copies the tree COUNT times: without its journal, or, with the
//! word `cut` after them, with the snapshot of a cut.

use std::collections::{BTreeMap, HashMap, VecDeque};
use std::io::{self, Read, Write};
use std::rc::Rc;

type Errno = (&'static str, u32);

const ENOENT: Errno = ("ENOENT", 2);
const EBADF: Errno = ("EBADF", 9);
const EAGAIN: Errno = ("EAGAIN", 11);
const EBUSY: Errno = ("EBUSY", 16);
const EEXIST: Errno = ("EEXIST", 17);
const ENOTDIR: Errno = ("ENOTDIR", 20);
const EISDIR: Errno = ("EISDIR", 21);
const EINVAL: Errno = ("EINVAL", 22);
const EFBIG: Errno = ("EFBIG", 27);
const ENOTEMPTY: Errno = ("ENOTEMPTY", 39);
const EPERM: Errno = ("EPERM", 1);

const IN_ACCESS: u32 = 0x1;
const IN_MODIFY: u32 = 0x2;
const IN_ATTRIB: u32 = 0x4;
const IN_CLOSE_WRITE: u32 = 0x8;
const IN_CLOSE_NOWRITE: u32 = 0x10;
const IN_OPEN: u32 = 0x20;
const IN_MOVED_FROM: u32 = 0x40;
const IN_MOVED_TO: u32 = 0x80;
const IN_CREATE: u32 = 0x100;
const IN_DELETE: u32 = 0x200;
const IN_DELETE_SELF: u32 = 0x400;
const IN_MOVE_SELF: u32 = 0x800;
const IN_ALL_EVENTS: u32 = 0xfff;
const IN_Q_OVERFLOW: u32 = 0x4000;
const IN_IGNORED: u32 = 0x8000;
const IN_ISDIR: u32 = 0x4000_0000;
const IN_ONESHOT: u32 = 0x8000_0000;
const IN_MASK_ADD: u32 = 0x2000_0000;

#[derive(Clone)]
enum Call {
    Create(Vec<u8>, u32),
    Mkdir(Vec<u8>, u32),
    Write(Vec<u8>, u64, Vec<u8>),
    Cat(Vec<u8>, u64, u32),
    Truncate(Vec<u8>, u64),
    Chmod(Vec<u8>, u32),
    Link(Vec<u8>, Vec<u8>),
    Unlink(Vec<u8>),
    Rmdir(Vec<u8>),
    Rename(Vec<u8>, Vec<u8>, u32),
    Stat(Vec<u8>),
    List(Vec<u8>),
    Init(u32),
    Watch(u32, Vec<u8>, u32),
    Unwatch(u32, i32),
    Read(u32, u32),
    Close(u32),
}

#[derive(Clone)]
enum Reply {
    Done,
    Number(u64),
    Wd(i32),
    Bytes(Vec<u8>),
    Names(Vec<Box<[u8]>>),
    Stat(u32, bool, u32, u64, u64),
    Records(Vec<u8>),
    Refused(Errno),
}

#[derive(Clone)]
struct Entry {
    _caller: u32,
    _call: Call,
    _reply: Reply,
}

#[derive(Clone)]
enum Body {
    File(Vec<u8>),
    Directory(BTreeMap<Box<[u8]>, usize>),
}

#[derive(Clone)]
struct Node {
    number: u32,
    mode: u32,
    links: u64,
    body: Body,
}

#[derive(Clone, PartialEq)]
struct Event {
    wd: i32,
    mask: u32,
    cookie: u32,
    name: Option<Rc<[u8]>>,
}

#[derive(Clone, Default)]
struct Instance {
    watches: HashMap<u32, (i32, u32)>,
    numbers: HashMap<i32, u32>,
    next_wd: i32,
    limit: usize,
    queue: VecDeque<Event>,
}

impl Event {
    fn len(&self) -> usize {
        16 + self.name.as_ref().map_or(0, |name| (name.len() / 16 + 1) * 16)
    }

    fn append(&self, bytes: &mut Vec<u8>) {
        let end = bytes.len() + self.len();
        bytes.extend_from_slice(&self.wd.to_le_bytes());
        bytes.extend_from_slice(&self.mask.to_le_bytes());
        bytes.extend_from_slice(&self.cookie.to_le_bytes());
        bytes.extend_from_slice(&(self.len() as u32 - 16).to_le_bytes());
        if let Some(name) = &self.name {
            bytes.extend_from_slice(name);
        }
        bytes.resize(end, 0);
    }
}

impl Instance {
    fn offer(&mut self, event: Event) {
        if self.queue.back() == Some(&event) {
            return;
        }
        if self.queue.len() < self.limit {
            self.queue.push_back(event);
        } else if !self.queue.iter().any(|waiting| waiting.mask == IN_Q_OVERFLOW) {
            self.queue.push_back(Event { wd: -1, mask: IN_Q_OVERFLOW, cookie: 0, name: None });
        }
    }
}

#[derive(Clone)]
struct Tree {
    nodes: Vec<Option<Node>>,
    free: Vec<usize>,
    next_number: u32,
    next_cookie: u32,
    next_id: u32,
    instances: BTreeMap<u32, Instance>,
    watchers: HashMap<u32, Vec<u32>>,
    journal: Vec<Entry>,
    places: u64,
    snapshot: (Vec<(Vec<u8>, u32)>, Vec<(u32, u32, Vec<u8>)>),
}

/// The directory that has the last name of a path, that name, and what stands there.
struct Place<'a> {
    directory: usize,
    name: &'a [u8],
    node: Option<usize>,
}

fn names(path: &[u8]) -> impl Iterator<Item = &[u8]> {
    path.split(|b| *b == b'/').filter(|name| !name.is_empty())
}

impl Tree {
    fn new() -> Tree {
        let root = Node { number: 1, mode: 0o755, links: 1, body: Body::Directory(BTreeMap::new()) };
        Tree {
            nodes: vec![Some(root)],
            free: Vec::new(),
            next_number: 2,
            next_cookie: 1,
            next_id: 1,
            instances: BTreeMap::new(),
            watchers: HashMap::new(),
            journal: Vec::new(),
            places: 0,
            snapshot: Default::default(),
        }
    }

    fn node(&self, key: usize) -> &Node {
        self.nodes[key].as_ref().unwrap()
    }

    fn node_mut(&mut self, key: usize) -> &mut Node {
        self.nodes[key].as_mut().unwrap()
    }

    fn names_mut(&mut self, key: usize) -> &mut BTreeMap<Box<[u8]>, usize> {
        match &mut self.node_mut(key).body {
            Body::Directory(names) => names,
            Body::File(_) => unreachable!(),
        }
    }

    fn is_directory(&self, key: usize) -> bool {
        matches!(self.node(key).body, Body::Directory(_))
    }

    fn child(&self, key: usize, name: &[u8]) -> Result<usize, Errno> {
        match &self.node(key).body {
            Body::Directory(names) => names.get(name).copied().ok_or(ENOENT),
            Body::File(_) => Err(ENOTDIR),
        }
    }

    fn find(&self, path: &[u8]) -> Result<usize, Errno> {
        names(path).try_fold(0, |key, name| self.child(key, name))
    }

    /// `None`: the root.
    fn place<'a>(&self, path: &'a [u8]) -> Result<Option<Place<'a>>, Errno> {
        let mut names = names(path).peekable();
        let mut directory = 0;
        while let Some(name) = names.next() {
            if names.peek().is_none() {
                if !self.is_directory(directory) {
                    return Err(ENOTDIR);
                }
                let node = self.child(directory, name).ok();
                return Ok(Some(Place { directory, name, node }));
            }
            directory = self.child(directory, name)?;
        }
        Ok(None)
    }

    fn tell(&mut self, key: usize, bits: u32, cookie: u32, name: Option<&Rc<[u8]>>) {
        let number = self.node(key).number;
        let Some(ids) = self.watchers.get(&number) else { return };
        let mut ended = Vec::new();
        for id in ids {
            let instance = self.instances.get_mut(id).unwrap();
            let (wd, mask) = instance.watches[&number];
            if mask & bits & IN_ALL_EVENTS == 0 {
                continue;
            }
            instance.offer(Event { wd, mask: bits, cookie, name: name.cloned() });
            if mask & IN_ONESHOT != 0 {
                ended.push((*id, wd));
            }
        }
        for (id, wd) in ended {
            self.end_watch(id, wd);
        }
    }

    fn end_watch(&mut self, id: u32, wd: i32) {
        let instance = self.instances.get_mut(&id).unwrap();
        let number = instance.numbers.remove(&wd).unwrap();
        instance.watches.remove(&number);
        instance.offer(Event { wd, mask: IN_IGNORED, cookie: 0, name: None });
        self.forget(number, id);
    }

    fn forget(&mut self, number: u32, id: u32) {
        let ids = self.watchers.get_mut(&number).unwrap();
        ids.retain(|other| *other != id);
        if ids.is_empty() {
            self.watchers.remove(&number);
        }
    }

    /// Whether anybody watches the directory or the object.
    fn is_watched(&self, keys: &[usize]) -> bool {
        keys.iter().any(|key| self.watchers.contains_key(&self.node(*key).number))
    }

    fn rc(&self, name: &[u8], keys: &[usize]) -> Option<Rc<[u8]>> {
        self.is_watched(keys).then(|| Rc::from(name))
    }

    fn isdir(&self, key: usize) -> u32 {
        if self.is_directory(key) { IN_ISDIR } else { 0 }
    }

    /// Returns the directory of a path, and what is there.
    fn tell_both(&mut self, path: &[u8], key: usize, all: &[u32]) {
        let place = self.place(path).ok().flatten();
        let name = place.as_ref().and_then(|place| self.rc(place.name, &[place.directory]));
        for bits in all {
            if let (Some(place), Some(name)) = (&place, &name) {
                self.tell(place.directory, *bits, 0, Some(name));
            }
            self.tell(key, *bits, 0, None);
        }
    }

    fn make(&mut self, path: &[u8], mode: u32, body: Body) -> Result<Reply, Errno> {
        if mode > 0o7777 {
            return Err(EINVAL);
        }
        let Some(place) = self.place(path)? else { return Err(EEXIST) };
        if place.node.is_some() {
            return Err(EEXIST);
        }
        let is_directory = matches!(body, Body::Directory(_));
        let number = self.next_number;
        self.next_number += 1;
        let node = Some(Node { number, mode, links: 1, body });
        let key = match self.free.pop() {
            Some(key) => {
                self.nodes[key] = node;
                key
            }
            None => {
                self.nodes.push(node);
                self.nodes.len() - 1
            }
        };
        self.names_mut(place.directory).insert(place.name.into(), key);
        let name = self.rc(place.name, &[place.directory]);
        if is_directory {
            self.tell(place.directory, IN_CREATE | IN_ISDIR, 0, name.as_ref());
        } else {
            for bits in [IN_CREATE, IN_OPEN, IN_CLOSE_WRITE] {
                self.tell(place.directory, bits, 0, name.as_ref());
            }
        }
        Ok(Reply::Number(number.into()))
    }

    fn file(&self, path: &[u8]) -> Result<usize, Errno> {
        let key = self.find(path)?;
        if self.is_directory(key) { Err(EISDIR) } else { Ok(key) }
    }

    fn bytes_mut(&mut self, key: usize) -> &mut Vec<u8> {
        match &mut self.node_mut(key).body {
            Body::File(bytes) => bytes,
            Body::Directory(_) => unreachable!(),
        }
    }

    fn write(&mut self, path: &[u8], offset: u64, new: &[u8]) -> Result<Reply, Errno> {
        let key = self.file(path)?;
        if !new.is_empty() {
            let end = offset as usize + new.len();
            if end > 1 << 24 {
                return Err(EFBIG);
            }
            let bytes = self.bytes_mut(key);
            if bytes.len() < end {
                bytes.resize(end, 0);
            }
            bytes[offset as usize..end].copy_from_slice(new);
        }
        let all = [IN_OPEN, IN_MODIFY, IN_CLOSE_WRITE];
        let some = [IN_OPEN, IN_CLOSE_WRITE];
        self.tell_both(path, key, if new.is_empty() { &some } else { &all });
        Ok(Reply::Number(new.len() as u64))
    }

    fn cat(&mut self, path: &[u8], offset: u64, count: u32) -> Result<Reply, Errno> {
        let key = self.file(path)?;
        let bytes = self.bytes_mut(key);
        let from = bytes.len().min(offset as usize);
        let to = bytes.len().min(from + count as usize);
        let read = bytes[from..to].to_vec();
        let all = [IN_OPEN, IN_ACCESS, IN_CLOSE_NOWRITE];
        let some = [IN_OPEN, IN_CLOSE_NOWRITE];
        self.tell_both(path, key, if read.is_empty() { &some } else { &all });
        Ok(Reply::Bytes(read))
    }

    fn unlink(&mut self, path: &[u8]) -> Result<Reply, Errno> {
        let key = self.find(path)?;
        if self.is_directory(key) {
            return Err(EPERM);
        }
        let place = self.place(path)?.unwrap();
        self.names_mut(place.directory).remove(place.name);
        self.lose(key);
        let name = self.rc(place.name, &[place.directory]);
        self.tell(place.directory, IN_DELETE, 0, name.as_ref());
        Ok(Reply::Done)
    }

    /// A file has a name less.
    fn lose(&mut self, key: usize) {
        self.tell(key, IN_ATTRIB, 0, None);
        self.node_mut(key).links -= 1;
        if self.node(key).links == 0 {
            self.end(key);
        }
    }

    fn end(&mut self, key: usize) {
        self.tell(key, IN_DELETE_SELF, 0, None);
        let number = self.node(key).number;
        for id in self.watchers.get(&number).cloned().unwrap_or_default() {
            let wd = self.instances[&id].watches[&number].0;
            self.end_watch(id, wd);
        }
        self.nodes[key] = None;
        self.free.push(key);
    }

    fn has_names(&self, key: usize) -> bool {
        matches!(&self.node(key).body, Body::Directory(names) if !names.is_empty())
    }

    fn rmdir(&mut self, path: &[u8]) -> Result<Reply, Errno> {
        let Some(place) = self.place(path)? else { return Err(EBUSY) };
        let key = place.node.ok_or(ENOENT)?;
        if !self.is_directory(key) {
            return Err(ENOTDIR);
        }
        if self.has_names(key) {
            return Err(ENOTEMPTY);
        }
        self.names_mut(place.directory).remove(place.name);
        self.end(key);
        let name = self.rc(place.name, &[place.directory]);
        self.tell(place.directory, IN_DELETE | IN_ISDIR, 0, name.as_ref());
        Ok(Reply::Done)
    }

    fn is_below(path: &[u8], above: &[u8]) -> bool {
        let mut names_above = names(above);
        let mut names = names(path);
        names_above.all(|name| names.next() == Some(name)) && names.next().is_some()
    }

    fn moved(&mut self, from: &Place, to: &Place, key: usize) {
        let cookie = self.next_cookie;
        self.next_cookie += 1;
        let isdir = self.isdir(key);
        let (old, new) = (self.rc(from.name, &[from.directory]), self.rc(to.name, &[to.directory]));
        self.tell(from.directory, IN_MOVED_FROM | isdir, cookie, old.as_ref());
        self.tell(to.directory, IN_MOVED_TO | isdir, cookie, new.as_ref());
    }

    fn rename(&mut self, old: &[u8], new: &[u8], flags: u32) -> Result<Reply, Errno> {
        let (Some(from), Some(to)) = (self.place(old)?, self.place(new)?) else { return Err(EBUSY) };
        let key = from.node.ok_or(ENOENT)?;
        if self.is_directory(key) && Self::is_below(new, old) {
            return Err(EINVAL);
        }
        match (to.node, flags) {
            (_, 3..) => return Err(EINVAL),
            (Some(_), 1) => return Err(EEXIST),
            (None, 2) => return Err(ENOENT),
            (Some(other), _) if other == key => return Ok(Reply::Done),
            (Some(other), 2) => {
                if self.is_directory(other) && Self::is_below(old, new) {
                    return Err(EINVAL);
                }
                *self.names_mut(from.directory).get_mut(from.name).unwrap() = other;
                *self.names_mut(to.directory).get_mut(to.name).unwrap() = key;
                self.moved(&from, &to, key);
                self.tell(key, IN_MOVE_SELF, 0, None);
                self.moved(&to, &from, other);
                self.tell(other, IN_MOVE_SELF, 0, None);
                return Ok(Reply::Done);
            }
            (Some(other), _) => match (self.is_directory(key), self.is_directory(other)) {
                (true, false) => return Err(ENOTDIR),
                (false, true) => return Err(EISDIR),
                _ if self.has_names(other) => return Err(ENOTEMPTY),
                _ => (),
            },
            (None, _) => (),
        }
        self.names_mut(from.directory).remove(from.name);
        self.names_mut(to.directory).insert(to.name.into(), key);
        self.moved(&from, &to, key);
        if let Some(other) = to.node {
            if self.is_directory(other) { self.end(other) } else { self.lose(other) }
        }
        self.tell(key, IN_MOVE_SELF, 0, None);
        Ok(Reply::Done)
    }

    fn link(&mut self, old: &[u8], new: &[u8]) -> Result<Reply, Errno> {
        let key = self.find(old)?;
        if self.is_directory(key) {
            return Err(EPERM);
        }
        let Some(place) = self.place(new)? else { return Err(EEXIST) };
        if place.node.is_some() {
            return Err(EEXIST);
        }
        self.names_mut(place.directory).insert(place.name.into(), key);
        self.node_mut(key).links += 1;
        self.tell(key, IN_ATTRIB, 0, None);
        let name = self.rc(place.name, &[place.directory]);
        self.tell(place.directory, IN_CREATE, 0, name.as_ref());
        Ok(Reply::Done)
    }

    fn stat(&self, path: &[u8]) -> Result<Reply, Errno> {
        let node = self.node(self.find(path)?);
        Ok(match &node.body {
            Body::File(bytes) => Reply::Stat(node.number, false, node.mode, node.links, bytes.len() as u64),
            Body::Directory(_) => Reply::Stat(node.number, true, node.mode, 1, 0),
        })
    }

    fn list(&self, path: &[u8]) -> Result<Reply, Errno> {
        match &self.node(self.find(path)?).body {
            Body::File(_) => Err(ENOTDIR),
            Body::Directory(names) => Ok(Reply::Names(names.keys().cloned().collect())),
        }
    }

    fn watch(&mut self, id: u32, path: &[u8], mask: u32) -> Result<Reply, Errno> {
        if !self.instances.contains_key(&id) {
            return Err(EBADF);
        }
        if mask & IN_ALL_EVENTS == 0 {
            return Err(EINVAL);
        }
        let key = self.find(path)?;
        let number = self.node(key).number;
        let instance = self.instances.get_mut(&id).unwrap();
        let bits = mask & (IN_ALL_EVENTS | IN_ONESHOT);
        if let Some((wd, old)) = instance.watches.get_mut(&number) {
            *old = if mask & IN_MASK_ADD != 0 { *old | bits } else { bits };
            return Ok(Reply::Wd(*wd));
        }
        let wd = instance.next_wd;
        instance.next_wd += 1;
        instance.watches.insert(number, (wd, bits));
        instance.numbers.insert(wd, number);
        let ids = self.watchers.entry(number).or_default();
        let at = ids.partition_point(|other| *other < id);
        ids.insert(at, id);
        Ok(Reply::Wd(wd))
    }

    fn read(&mut self, id: u32, count: u32) -> Result<Reply, Errno> {
        let instance = self.instances.get_mut(&id).ok_or(EBADF)?;
        if instance.queue.is_empty() {
            return Err(EAGAIN);
        }
        let mut bytes = Vec::new();
        while let Some(event) = instance.queue.front() {
            if bytes.len() + event.len() > count as usize {
                break;
            }
            event.append(&mut bytes);
            instance.queue.pop_front();
        }
        if bytes.is_empty() { Err(EINVAL) } else { Ok(Reply::Records(bytes)) }
    }

    fn close(&mut self, id: u32) -> Result<Reply, Errno> {
        let instance = self.instances.remove(&id).ok_or(EBADF)?;
        for number in instance.watches.keys() {
            self.forget(*number, id);
        }
        Ok(Reply::Done)
    }

    fn answer(&mut self, call: &Call) -> Result<Reply, Errno> {
        match call {
            Call::Create(path, mode) => self.make(path, *mode, Body::File(Vec::new())),
            Call::Mkdir(path, mode) => self.make(path, *mode, Body::Directory(BTreeMap::new())),
            Call::Write(path, offset, bytes) => self.write(path, *offset, bytes),
            Call::Cat(path, offset, count) => self.cat(path, *offset, *count),
            Call::Truncate(path, len) => {
                let key = self.file(path)?;
                if *len > 1 << 24 {
                    return Err(EFBIG);
                }
                self.bytes_mut(key).resize(*len as usize, 0);
                self.tell_both(path, key, &[IN_MODIFY]);
                Ok(Reply::Done)
            }
            Call::Chmod(path, mode) => {
                if *mode > 0o7777 {
                    return Err(EINVAL);
                }
                let key = self.find(path)?;
                self.node_mut(key).mode = *mode;
                self.tell_both(path, key, &[IN_ATTRIB | self.isdir(key)]);
                Ok(Reply::Done)
            }
            Call::Link(old, new) => self.link(old, new),
            Call::Unlink(path) => self.unlink(path),
            Call::Rmdir(path) => self.rmdir(path),
            Call::Rename(old, new, flags) => self.rename(old, new, *flags),
            Call::Stat(path) => self.stat(path),
            Call::List(path) => self.list(path),
            Call::Init(limit) => {
                let id = self.next_id;
                self.next_id += 1;
                let limit = *limit as usize;
                self.instances.insert(id, Instance { next_wd: 1, limit, ..Instance::default() });
                Ok(Reply::Number(id.into()))
            }
            Call::Watch(id, path, mask) => self.watch(*id, path, *mask),
            Call::Unwatch(id, wd) => {
                let instance = self.instances.get(id).ok_or(EBADF)?;
                instance.numbers.get(wd).ok_or(EINVAL)?;
                self.end_watch(*id, *wd);
                Ok(Reply::Done)
            }
            Call::Read(id, count) => self.read(*id, *count),
            Call::Close(id) => self.close(*id),
        }
    }

    fn call(&mut self, call: Call) -> Reply {
        let reply = self.answer(&call).unwrap_or_else(Reply::Refused);
        self.places += 1;
        self.journal.push(Entry { _caller: 0, _call: call, _reply: reply.clone() });
        reply
    }

    fn collect(&self, key: usize, path: &mut Vec<u8>, paths: &mut Vec<(Vec<u8>, u32)>) {
        let node = self.node(key);
        paths.push((path.clone(), node.number));
        if let Body::Directory(names) = &node.body {
            for (name, child) in names {
                let len = path.len();
                path.push(b'/');
                path.extend_from_slice(name);
                self.collect(*child, path, paths);
                path.truncate(len);
            }
        }
    }

    fn cut(&mut self) -> u64 {
        let mut paths = Vec::new();
        self.collect(0, &mut Vec::new(), &mut paths);
        let mut files: Vec<_> = self.nodes.iter().flatten().map(|node| match &node.body {
            Body::File(bytes) => (node.number, node.mode, bytes.clone()),
            Body::Directory(_) => (node.number, node.mode, Vec::new()),
        }).collect();
        files.sort_by_key(|file| file.0);
        self.snapshot = (paths, files);
        self.journal.clear();
        self.places
    }
}

fn number(word: &str) -> u64 {
    word.parse().expect("a number")
}

fn octal(word: &str) -> u32 {
    u32::from_str_radix(word, 8).expect("a mode")
}

fn mask(word: &str) -> u32 {
    u32::from_str_radix(word.strip_prefix("0x").expect("0x"), 16).expect("a mask")
}

fn path(word: &str) -> Vec<u8> {
    let bytes = word.as_bytes();
    let mut path = Vec::with_capacity(bytes.len());
    let mut at = 0;
    while at < bytes.len() {
        if bytes[at] == b'%' {
            path.push(u8::from_str_radix(&word[at + 1..at + 3], 16).expect("two digits"));
            at += 3;
        } else {
            path.push(bytes[at]);
            at += 1;
        }
    }
    path
}

fn hex(word: &str) -> Vec<u8> {
    if word == "-" {
        return Vec::new();
    }
    (0..word.len()).step_by(2).map(|at| u8::from_str_radix(&word[at..at + 2], 16).expect("a digit")).collect()
}

fn push_hex(text: &mut Vec<u8>, bytes: &[u8]) {
    for byte in bytes {
        for digit in [byte >> 4, byte & 15] {
            text.push(b"0123456789abcdef"[usize::from(digit)]);
        }
    }
}

fn push_name(text: &mut Vec<u8>, name: &[u8]) {
    for byte in name {
        if (0x21..=0x7e).contains(byte) && *byte != b'%' {
            text.push(*byte);
        } else {
            text.push(b'%');
            push_hex(text, &[*byte]);
        }
    }
}

fn push_records(text: &mut Vec<u8>, mut bytes: &[u8]) {
    let word = |at: usize, bytes: &[u8]| u32::from_le_bytes(bytes[at..at + 4].try_into().unwrap());
    while !bytes.is_empty() {
        let len = word(12, bytes) as usize;
        write!(text, "  {} {:08x} {}", word(0, bytes) as i32, word(4, bytes), word(8, bytes)).unwrap();
        let name = &bytes[16..16 + len];
        let name = &name[..name.iter().position(|byte| *byte == 0).unwrap_or(0)];
        if !name.is_empty() {
            text.push(b' ');
            push_name(text, name);
        }
        text.push(b'\n');
        bytes = &bytes[16 + len..];
    }
}

fn push_reply(text: &mut Vec<u8>, reply: &Reply, is_hex: bool) {
    match reply {
        Reply::Done => text.extend_from_slice(b"ok\n"),
        Reply::Number(number) => writeln!(text, "ok {number}").unwrap(),
        Reply::Wd(wd) => writeln!(text, "ok {wd}").unwrap(),
        Reply::Bytes(bytes) => {
            text.extend_from_slice(b"ok ");
            if bytes.is_empty() { text.push(b'-') } else { push_hex(text, bytes) }
            text.push(b'\n');
        }
        Reply::Names(names) => {
            writeln!(text, "ok {}", names.len()).unwrap();
            for name in names {
                text.extend_from_slice(b"  ");
                push_name(text, name);
                text.push(b'\n');
            }
        }
        Reply::Stat(number, is_directory, mode, links, size) => {
            let kind = if *is_directory { 'd' } else { 'f' };
            writeln!(text, "ok {number} {kind} {mode:04o} {links} {size}").unwrap();
        }
        Reply::Records(bytes) => {
            writeln!(text, "ok {}", bytes.len()).unwrap();
            if is_hex {
                text.extend_from_slice(b"  ");
                push_hex(text, bytes);
                text.push(b'\n');
            } else {
                push_records(text, bytes);
            }
        }
        Reply::Refused((name, number)) => writeln!(text, "err {name} {number}").unwrap(),
    }
}

fn call(words: &[&str]) -> Call {
    match words {
        ["create", p, mode] => Call::Create(path(p), octal(mode)),
        ["mkdir", p, mode] => Call::Mkdir(path(p), octal(mode)),
        ["write", p, offset, bytes] => Call::Write(path(p), number(offset), hex(bytes)),
        ["cat", p, offset, count] => Call::Cat(path(p), number(offset), number(count) as u32),
        ["truncate", p, len] => Call::Truncate(path(p), number(len)),
        ["chmod", p, mode] => Call::Chmod(path(p), octal(mode)),
        ["link", old, new] => Call::Link(path(old), path(new)),
        ["unlink", p] => Call::Unlink(path(p)),
        ["rmdir", p] => Call::Rmdir(path(p)),
        ["rename", old, new] => Call::Rename(path(old), path(new), 0),
        ["rename2", old, new, flags] => Call::Rename(path(old), path(new), number(flags) as u32),
        ["stat", p] => Call::Stat(path(p)),
        ["list", p] => Call::List(path(p)),
        ["init"] => Call::Init(16384),
        ["init", limit] => Call::Init(number(limit) as u32),
        ["watch", id, p, bits] => Call::Watch(number(id) as u32, path(p), mask(bits)),
        ["unwatch", id, wd] => Call::Unwatch(number(id) as u32, wd.parse().expect("a descriptor")),
        ["read", id, count] | ["hex", id, count] => Call::Read(number(id) as u32, number(count) as u32),
        ["close", id] => Call::Close(number(id) as u32),
        _ => panic!("no such command: {words:?}"),
    }
}

fn main() -> io::Result<()> {
    let mut script = String::new();
    io::stdin().read_to_string(&mut script)?;
    let mut out = io::stdout().lock();
    let mut tree = Tree::new();
    let mut text = Vec::new();
    for line in script.lines().filter(|line| !line.trim_start().starts_with('#')) {
        let mut words = [""; 4];
        let mut count = 0;
        for word in line.split(' ').filter(|word| !word.is_empty()) {
            words[count] = word;
            count += 1;
        }
        match &words[..count] {
            [] => continue,
            ["cut"] => {
                let place = tree.cut();
                writeln!(text, "ok {place}")?;
            }
            words => {
                let reply = tree.call(call(words));
                push_reply(&mut text, &reply, words[0] == "hex");
            }
        }
        if text.len() > 1 << 16 {
            out.write_all(&text)?;
            text.clear();
        }
    }
    out.write_all(&text)?;
    copy(tree, &std::env::args().skip(1).collect::<Vec<_>>());
    Ok(())
}

fn copy(mut tree: Tree, words: &[String]) {
    if let [fork, count, rest @ ..] = words {
        assert_eq!(fork, "fork");
        if rest.is_empty() {
            tree.journal.clear();
        } else {
            tree.cut();
        }
        for _ in 0..number(count) {
            std::mem::forget(std::hint::black_box(tree.clone()));
        }
    }
}
