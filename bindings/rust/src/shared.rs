//! A tree that threads share.
use crate::calls::{all_of, calls, names, numbers, text};
use crate::error::answer;
use crate::sys::{self, RawShared, RawStat};
use crate::{Entry, Error, Events, Mask, Stat};
use std::ffi::OsString;
use std::os::raw::c_int;
use std::os::unix::ffi::OsStringExt;
use std::os::unix::io::{AsFd, AsRawFd, BorrowedFd, FromRawFd, OwnedFd, RawFd};
use std::path::{Path, PathBuf};
use std::ptr;
use std::sync::{Arc, Mutex, PoisonError};
use std::time::{Duration, Instant};

/// A tree that several threads use at the same time. Each clone is the same tree, and it is closed when the last clone
/// and the last instance are dropped. [`fork`](SharedTree::fork) makes another tree.
///
/// ```
/// use std::thread;
/// use watchtree::{mask, SharedTree};
///
/// let tree = SharedTree::open()?;
/// tree.mkdir("/d", 0o755)?;
/// let instance = tree.inotify(16384)?;
/// instance.add_watch("/d", mask::CREATE)?;
///
/// let reader = thread::spawn(move || instance.read(4096));
/// tree.create("/d/f", 0o644)?;
/// let events = reader.join().expect("the reader ends")?;
/// assert_eq!(events.iter().next().and_then(|event| event.name), Some("f".as_ref()));
/// # Ok::<(), watchtree::Error>(())
/// ```
///
/// A call takes the tree's lock (see watchtree_threads.h), so calls of several threads happen one after the other. In a
/// child of fork(2) the tree is not open, and each call is [`Error::CLOSED`].
#[derive(Clone, Debug)]
pub struct SharedTree {
    handle: Arc<Handle>,
}

#[derive(Debug)]
struct Handle {
    raw: *mut RawShared,
    /// Held while a line's text is fetched: the tree keeps the text of one line.
    line: Mutex<()>,
}

// Each function of watchtree_threads.h but wtt_close may be called by any thread at any time, and wtt_close is called
// once, when nobody has the handle any more.
unsafe impl Send for Handle {}
unsafe impl Sync for Handle {}

impl Drop for Handle {
    fn drop(&mut self) {
        unsafe { sys::wtt_close(self.raw) }
    }
}

impl SharedTree {
    /// Opens a tree with nothing but the root.
    pub fn open() -> Result<SharedTree, Error> {
        let mut raw = ptr::null_mut();
        answer(unsafe { sys::wtt_open(&mut raw) })?;
        Ok(SharedTree::of(raw))
    }

    fn of(raw: *mut RawShared) -> SharedTree {
        SharedTree { handle: Arc::new(Handle { raw, line: Mutex::new(()) }) }
    }

    /// Makes an independent tree with the same files, instances, watches and waiting records. (A clone is the same
    /// tree.)
    ///
    /// It answers from now on exactly as this one does, with the same numbers and cookies, and neither sees what the
    /// other does. Its journal is empty, and its sequence numbers continue. [`instance`](SharedTree::instance) returns
    /// its instances, which have descriptors of their own.
    ///
    /// ```
    /// use watchtree::{mask, SharedTree};
    ///
    /// let tree = SharedTree::open()?;
    /// let instance = tree.inotify(16)?;
    /// instance.add_watch("/", mask::CREATE)?;
    /// let fork = tree.fork()?;
    /// fork.create("/f", 0o644)?;
    /// assert_eq!((instance.waiting()?, fork.instance(instance.number())?.waiting()?), (0, 1));
    /// # Ok::<(), watchtree::Error>(())
    /// ```
    pub fn fork(&self) -> Result<SharedTree, Error> {
        let mut raw = ptr::null_mut();
        answer(unsafe { sys::wtt_fork(self.raw(), &mut raw) })?;
        Ok(SharedTree::of(raw))
    }

    fn raw(&self) -> *mut RawShared {
        self.handle.raw
    }

    calls!([&self], self, sys, raw: wtt_cut wtt_mkdir wtt_create wtt_write wtt_pread wtt_truncate wtt_chmod wtt_link
        wtt_unlink wtt_rmdir wtt_rename wtt_rename2 wtt_stat wtt_list wtt_peek_stat
        wtt_peek_list wtt_peek_pread wtt_path_of wtt_first_place wtt_last_place wtt_entry);

    /// Closes the tree now, for all clones and instances: every call is [`Error::CLOSED`] from then on, also one that
    /// waits in another thread.
    pub fn shutdown(&self) {
        unsafe { sys::wtt_shutdown(self.raw()) }
    }

    /// Makes an instance whose queue holds at most `limit` records, 1 to 65,535.
    pub fn inotify(&self, limit: u32) -> Result<SharedInstance, Error> {
        let number = answer(unsafe { sys::wtt_inotify_init(self.raw(), limit) })? as u32;
        self.instance(number).map_err(|error| {
            unsafe { sys::wtt_inotify_close(self.raw(), number) };
            error
        })
    }

    /// The open instance with a number: one of a fork, or one that a line made. [`Error::CLOSED`] if none is open.
    ///
    /// It is closed when the first `SharedInstance` of it is dropped.
    pub fn instance(&self, number: u32) -> Result<SharedInstance, Error> {
        let fd = answer(unsafe { sys::wtt_fd(self.raw(), number) })?;
        // A new descriptor, which belongs to the caller.
        let fd = unsafe { OwnedFd::from_raw_fd(fd as RawFd) };
        Ok(SharedInstance { tree: self.clone(), number, fd })
    }

    /// The numbers of the open instances that have a record waiting, in ascending order.
    pub fn ready(&self) -> Result<Vec<u32>, Error> {
        numbers(|out| unsafe { sys::wtt_ready(self.raw(), out.as_mut_ptr(), out.len()) })
    }

    /// Runs a line of a script, such as `mkdir /d 755`, and returns the text that it prints. `queue` is the limit of an
    /// instance that names none.
    pub fn line(&self, line: impl AsRef<[u8]>, queue: u32) -> Result<Vec<u8>, Error> {
        let (line, mut has_run) = (line.as_ref(), false);
        let _held = self.handle.line.lock().unwrap_or_else(PoisonError::into_inner);
        all_of(|out| {
            let buffer = out.as_mut_ptr().cast();
            if has_run {
                return unsafe { sys::wtt_text(self.raw(), buffer, out.len()) };
            }
            has_run = true;
            unsafe { sys::wtt_line(self.raw(), queue, line.as_ptr().cast(), line.len(), buffer, out.len()) }
        })
    }
}

/// An instance of inotify in a [`SharedTree`]. It is closed when it is dropped; its tree stays open until then.
///
/// Its descriptor ([`AsFd`], [`AsRawFd`]) is readable exactly while records wait, for poll(2), epoll(7), `mio`, tokio's
/// `AsyncFd` and the like. It is only for waiting: [`try_read`](SharedInstance::try_read) reads.
#[derive(Debug)]
pub struct SharedInstance {
    tree: SharedTree,
    number: u32,
    fd: OwnedFd,
}

impl Drop for SharedInstance {
    fn drop(&mut self) {
        unsafe { sys::wtt_inotify_close(self.tree.raw(), self.number) };
    }
}

impl AsFd for SharedInstance {
    fn as_fd(&self) -> BorrowedFd<'_> {
        self.fd.as_fd()
    }
}

impl AsRawFd for SharedInstance {
    fn as_raw_fd(&self) -> RawFd {
        self.fd.as_raw_fd()
    }
}

impl SharedInstance {
    /// The tree that it is an instance of.
    pub fn tree(&self) -> &SharedTree {
        &self.tree
    }

    /// Its number in lines of scripts.
    pub fn number(&self) -> u32 {
        self.number
    }

    /// Watches the file or directory at a path, and returns the watch descriptor.
    pub fn add_watch(&self, path: impl AsRef<Path>, mask: impl Into<Mask>) -> Result<i32, Error> {
        let ((path, len), Mask(bits)) = (text(path.as_ref()), mask.into());
        let wd = unsafe { sys::wtt_inotify_add_watch(self.tree.raw(), self.number, path, len, bits) };
        answer(wd).map(|it| it as i32)
    }

    pub fn rm_watch(&self, wd: i32) -> Result<(), Error> {
        answer(unsafe { sys::wtt_inotify_rm_watch(self.tree.raw(), self.number, wd) }).map(drop)
    }

    /// How many records wait.
    pub fn waiting(&self) -> Result<u64, Error> {
        answer(unsafe { sys::wtt_waiting(self.tree.raw(), self.number) })
    }

    /// How many bytes the waiting records take.
    pub fn bytes_waiting(&self) -> Result<u64, Error> {
        answer(unsafe { sys::wtt_bytes_waiting(self.tree.raw(), self.number) })
    }

    /// Closes the instance now. Threads that wait for its records return [`Error::CLOSED`].
    pub fn close(&self) -> Result<(), Error> {
        answer(unsafe { sys::wtt_inotify_close(self.tree.raw(), self.number) }).map(drop)
    }

    fn read_for(&self, bytes: usize, milliseconds: c_int) -> Result<Events, Error> {
        let mut out = vec![0; bytes];
        let buffer = out.as_mut_ptr().cast();
        let count = answer(unsafe { sys::wtt_read(self.tree.raw(), self.number, buffer, bytes, milliseconds) })?;
        out.truncate(count as usize);
        Ok(Events::new(out))
    }

    /// Reads as many whole records as fit into `bytes` bytes. If none waits, it waits for one.
    pub fn read(&self, bytes: usize) -> Result<Events, Error> {
        self.read_for(bytes, -1)
    }

    /// Like [`read`](SharedInstance::read), but without waiting: [`Error::AGAIN`] if no record waits.
    pub fn try_read(&self, bytes: usize) -> Result<Events, Error> {
        self.read_for(bytes, 0)
    }

    /// Like [`read`](SharedInstance::read), but waits for at most `timeout`, rounded up to whole
    /// milliseconds: [`Error::AGAIN`] if no record came.
    ///
    /// ```
    /// # use std::time::Duration;
    /// # use watchtree::{Error, SharedTree};
    /// let instance = SharedTree::open()?.inotify(16)?;
    /// assert_eq!(instance.read_timeout(4096, Duration::from_millis(5)), Err(Error::AGAIN));
    /// # Ok::<(), Error>(())
    /// ```
    pub fn read_timeout(&self, bytes: usize, timeout: Duration) -> Result<Events, Error> {
        let end = match Instant::now().checked_add(timeout) {
            Some(end) => end,
            None => return self.read(bytes),
        };
        loop {
            let left = end.saturating_duration_since(Instant::now());
            let milliseconds = (left.as_nanos() + 999_999) / 1_000_000;
            let wait = c_int::try_from(milliseconds).unwrap_or(c_int::MAX);
            match self.read_for(bytes, wait) {
                Err(Error::AGAIN) if Instant::now() < end => continue,
                answer => return answer,
            }
        }
    }
}
