//! A tree for one thread at a time.
use crate::calls::{all_of, calls, names, numbers, text};
use crate::error::answer;
use crate::sys::{self, RawStat, RawTree};
use crate::{Entry, Error, Events, Mask, Stat};
use std::ffi::OsString;
use std::os::unix::ffi::OsStringExt;
use std::path::{Path, PathBuf};
use std::ptr;

/// The number of an instance of inotify in a [`Tree`]. The instance has the same number in [forks](Tree::fork).
#[derive(Clone, Copy, Debug, PartialEq, Eq, Hash)]
pub struct Instance(pub u32);

/// A tree of files with its instances, for one thread at a time. It is closed when it is dropped.
///
/// It may move to another thread. Threads that share a tree use a [`SharedTree`](crate::SharedTree).
#[derive(Debug)]
pub struct Tree {
    raw: RawTree,
}

// The library's handle owns what it points to, and is proved to be one that may go to another thread.
unsafe impl Send for Tree {}

impl Drop for Tree {
    fn drop(&mut self) {
        unsafe { sys::wt_close(&mut self.raw) }
    }
}

impl Tree {
    /// Opens a tree with nothing but the root.
    pub fn open() -> Result<Tree, Error> {
        let mut tree = Tree { raw: RawTree { at: ptr::null_mut(), ready: false } };
        answer(unsafe { sys::wt_open(&mut tree.raw) })?;
        Ok(tree)
    }

    /// Makes an independent tree with the same files, instances, watches and waiting records.
    ///
    /// It answers from now on exactly as this one does, with the same numbers and cookies, and neither sees what the
    /// other does. Its journal is empty, and its sequence numbers continue. An [`Instance`] is valid in both.
    ///
    /// ```
    /// use watchtree::{mask, Tree};
    ///
    /// let mut tree = Tree::open()?;
    /// let instance = tree.inotify(16)?;
    /// tree.add_watch(instance, "/", mask::CREATE)?;
    /// tree.create("/f", 0o644)?;
    /// let mut fork = tree.fork()?;
    /// fork.unlink("/f")?;
    /// assert_eq!((tree.list("/")?.len(), fork.list("/")?.len()), (1, 0));
    /// assert_eq!(tree.read(instance, 4096)?, fork.read(instance, 4096)?);
    /// assert_eq!(fork.entries()?.next().expect("a call")?.to_string(), "unlink /f\n# ok\n");
    /// # Ok::<(), watchtree::Error>(())
    /// ```
    pub fn fork(&mut self) -> Result<Tree, Error> {
        let mut fork = Tree { raw: RawTree { at: ptr::null_mut(), ready: false } };
        answer(unsafe { sys::wt_fork(&mut self.raw, &mut fork.raw) })?;
        Ok(fork)
    }

    /// Like [`fork`](Tree::fork).
    #[deprecated(note = "call `fork`, the name that `SharedTree` has for it too")]
    pub fn try_clone(&mut self) -> Result<Tree, Error> {
        self.fork()
    }

    fn raw(&mut self) -> &mut RawTree {
        &mut self.raw
    }

    calls!([&mut self], self, sys, raw: wt_cut wt_mkdir wt_create wt_write wt_pread wt_truncate wt_chmod wt_link
        wt_unlink wt_rmdir wt_rename wt_rename2 wt_stat wt_list wt_peek_stat wt_peek_list
        wt_peek_pread wt_path_of wt_first_place wt_last_place wt_entry);

    /// Makes an instance whose queue holds at most `limit` records, 1 to 65,535.
    pub fn inotify(&mut self, limit: u32) -> Result<Instance, Error> {
        answer(unsafe { sys::wt_inotify_init(&mut self.raw, limit) }).map(|it| Instance(it as u32))
    }

    /// Watches the file or directory at a path, and returns the watch descriptor.
    pub fn add_watch(
        &mut self,
        instance: Instance,
        path: impl AsRef<Path>,
        mask: impl Into<Mask>,
    ) -> Result<i32, Error> {
        let ((path, len), Mask(bits)) = (text(path.as_ref()), mask.into());
        answer(unsafe { sys::wt_inotify_add_watch(&mut self.raw, instance.0, path, len, bits) }).map(|it| it as i32)
    }

    pub fn rm_watch(&mut self, instance: Instance, wd: i32) -> Result<(), Error> {
        answer(unsafe { sys::wt_inotify_rm_watch(&mut self.raw, instance.0, wd) }).map(drop)
    }

    /// Reads as many whole records as fit into `bytes` bytes. [`Error::AGAIN`] if none waits.
    pub fn read(&mut self, instance: Instance, bytes: usize) -> Result<Events, Error> {
        let mut out = vec![0; bytes];
        let count = answer(unsafe { sys::wt_read(&mut self.raw, instance.0, out.as_mut_ptr().cast(), bytes) })?;
        out.truncate(count as usize);
        Ok(Events::new(out))
    }

    /// How many records wait.
    pub fn waiting(&mut self, instance: Instance) -> Result<u64, Error> {
        answer(unsafe { sys::wt_waiting(&mut self.raw, instance.0) })
    }

    /// How many bytes the waiting records take.
    pub fn bytes_waiting(&mut self, instance: Instance) -> Result<u64, Error> {
        answer(unsafe { sys::wt_bytes_waiting(&mut self.raw, instance.0) })
    }

    /// The open instances that have a record waiting, by their numbers, in ascending order.
    pub fn ready(&mut self) -> Result<Vec<Instance>, Error> {
        let found = numbers(|out| unsafe { sys::wt_ready(&mut self.raw, out.as_mut_ptr(), out.len()) })?;
        Ok(found.into_iter().map(Instance).collect())
    }

    pub fn close(&mut self, instance: Instance) -> Result<(), Error> {
        answer(unsafe { sys::wt_inotify_close(&mut self.raw, instance.0) }).map(drop)
    }

    /// Runs a line of a script, such as `mkdir /d 755`, and returns the text that it prints. `queue` is the limit of an
    /// instance that names none.
    pub fn line(&mut self, line: impl AsRef<[u8]>, queue: u32) -> Result<Vec<u8>, Error> {
        let (line, mut has_run) = (line.as_ref(), false);
        all_of(|out| {
            let buffer = out.as_mut_ptr().cast();
            if has_run {
                return unsafe { sys::wt_text(&mut self.raw, buffer, out.len()) };
            }
            has_run = true;
            unsafe { sys::wt_line(&mut self.raw, queue, line.as_ptr().cast(), line.len(), buffer, out.len()) }
        })
    }
}
