//! The calls that `Tree` and `SharedTree` have in common.
use crate::sys::RawStat;
use std::ffi::OsString;
use std::fmt;
use std::os::raw::c_char;
use std::os::unix::ffi::{OsStrExt, OsStringExt};
use std::path::Path;

/// The status of the file or directory at a path.
#[derive(Clone, Copy, Debug, PartialEq, Eq)]
pub struct Stat {
    pub number: u32,
    pub is_directory: bool,
    pub mode: u32,
    pub links: u64,
    pub size: u64,
}

impl From<RawStat> for Stat {
    fn from(raw: RawStat) -> Stat {
        let RawStat { links, size, number, mode, is_directory } = raw;
        Stat { number, is_directory: is_directory != 0, mode, links, size }
    }
}

/// An entry of a tree's journal: a call and its reply. It is printed as a line of a script and comments.
#[derive(Clone, Debug, PartialEq, Eq)]
pub struct Entry {
    /// The sequence number: the first call of a tree has 1.
    pub place: u64,
    /// The line of a script that makes the call, without a newline; a comment if none can, as the mode is too large.
    pub line: String,
    /// What the line prints.
    pub reply: String,
}

impl Entry {
    /// The entry that has a text: a line, and a reply whose lines begin with `# `.
    pub(crate) fn new(place: u64, text: &[u8]) -> Entry {
        let text = String::from_utf8_lossy(text);
        let mut lines = text.lines();
        let line = lines.next().unwrap_or_default().to_string();
        let reply = lines.map(|it| format!("{}\n", it.strip_prefix("# ").unwrap_or(it))).collect();
        Entry { place, line, reply }
    }
}

impl fmt::Display for Entry {
    fn fmt(&self, f: &mut fmt::Formatter<'_>) -> fmt::Result {
        writeln!(f, "{}", self.line)?;
        self.reply.lines().try_for_each(|line| writeln!(f, "# {line}"))
    }
}

/// The names in a text in which a zero byte ends each.
pub(crate) fn names(text: Vec<u8>) -> Vec<OsString> {
    let names = text.split(|&it| it == 0).filter(|it| !it.is_empty());
    names.map(|it| OsString::from_vec(it.to_vec())).collect()
}

/// A path as C takes it. It is valid as long as the path is.
pub(crate) fn text(path: &Path) -> (*const c_char, usize) {
    let bytes = path.as_os_str().as_bytes();
    (bytes.as_ptr().cast(), bytes.len())
}

/// Calls a function with longer buffers until the whole answer fits.
pub(crate) fn all_of(mut call: impl FnMut(&mut [u8]) -> i64) -> Result<Vec<u8>, crate::Error> {
    let mut out = vec![0; 4096];
    loop {
        let wanted = crate::error::answer(call(&mut out))? as usize;
        if wanted <= out.len() {
            out.truncate(wanted);
            return Ok(out);
        }
        out.resize(wanted, 0);
    }
}

/// The numbers of instances that a call returns. At most 128 are open at a time.
pub(crate) fn numbers(call: impl FnOnce(&mut [u32]) -> i64) -> Result<Vec<u32>, crate::Error> {
    let mut out = vec![0; 128];
    let count = crate::error::answer(call(&mut out))? as usize;
    assert!(count <= out.len(), "the library has more instances open than it says that it can");
    out.truncate(count);
    Ok(out)
}

/// Writes the methods: the receiver, the word `self`, and the functions of C.
macro_rules! calls {
    ([$($receiver:tt)+], $me:ident, $sys:ident, $prefix:ident: $cut:ident $mkdir:ident $create:ident $write:ident
     $pread:ident $truncate:ident $chmod:ident $link:ident $unlink:ident $rmdir:ident $rename:ident $rename2:ident
     $stat:ident $list:ident $peek_stat:ident $peek_list:ident $peek_pread:ident
     $path_of:ident $first_place:ident $last_place:ident $entry:ident) => {
        /// Cuts the journal of calls, and returns the sequence number of the last one.
        pub fn cut($($receiver)+) -> Result<u64, Error> {
            answer(unsafe { $sys::$cut($me.$prefix()) })
        }

        /// Makes a directory, and returns its number.
        pub fn mkdir($($receiver)+, path: impl AsRef<Path>, mode: u32) -> Result<u32, Error> {
            let (path, len) = text(path.as_ref());
            answer(unsafe { $sys::$mkdir($me.$prefix(), path, len, mode) }).map(|it| it as u32)
        }

        /// Makes a regular file, and returns its number.
        pub fn create($($receiver)+, path: impl AsRef<Path>, mode: u32) -> Result<u32, Error> {
            let (path, len) = text(path.as_ref());
            answer(unsafe { $sys::$create($me.$prefix(), path, len, mode) }).map(|it| it as u32)
        }

        /// Writes bytes at an offset, and returns how many.
        pub fn write($($receiver)+, path: impl AsRef<Path>, offset: u64, bytes: &[u8]) -> Result<u64, Error> {
            let (path, len) = text(path.as_ref());
            let data = bytes.as_ptr().cast();
            answer(unsafe { $sys::$write($me.$prefix(), path, len, offset, data, bytes.len()) })
        }

        /// Like `pread`, but without an entry in the journal and without events.
        pub fn peek_pread($($receiver)+, path: impl AsRef<Path>, offset: u64, out: &mut [u8]) -> Result<usize, Error> {
            let (path, len) = text(path.as_ref());
            let buffer = out.as_mut_ptr().cast();
            answer(unsafe { $sys::$peek_pread($me.$prefix(), path, len, offset, buffer, out.len()) })
                .map(|it| it as usize)
        }

        /// Reads bytes at an offset into `out`, and returns how many.
        pub fn pread($($receiver)+, path: impl AsRef<Path>, offset: u64, out: &mut [u8]) -> Result<usize, Error> {
            let (path, len) = text(path.as_ref());
            let buffer = out.as_mut_ptr().cast();
            answer(unsafe { $sys::$pread($me.$prefix(), path, len, offset, buffer, out.len()) }).map(|it| it as usize)
        }

        pub fn truncate($($receiver)+, path: impl AsRef<Path>, len: u64) -> Result<(), Error> {
            let (path, path_len) = text(path.as_ref());
            answer(unsafe { $sys::$truncate($me.$prefix(), path, path_len, len) }).map(drop)
        }

        pub fn chmod($($receiver)+, path: impl AsRef<Path>, mode: u32) -> Result<(), Error> {
            let (path, len) = text(path.as_ref());
            answer(unsafe { $sys::$chmod($me.$prefix(), path, len, mode) }).map(drop)
        }

        pub fn link($($receiver)+, old: impl AsRef<Path>, to: impl AsRef<Path>) -> Result<(), Error> {
            let ((old, old_len), (to, to_len)) = (text(old.as_ref()), text(to.as_ref()));
            answer(unsafe { $sys::$link($me.$prefix(), old, old_len, to, to_len) }).map(drop)
        }

        pub fn unlink($($receiver)+, path: impl AsRef<Path>) -> Result<(), Error> {
            let (path, len) = text(path.as_ref());
            answer(unsafe { $sys::$unlink($me.$prefix(), path, len) }).map(drop)
        }

        pub fn rmdir($($receiver)+, path: impl AsRef<Path>) -> Result<(), Error> {
            let (path, len) = text(path.as_ref());
            answer(unsafe { $sys::$rmdir($me.$prefix(), path, len) }).map(drop)
        }

        pub fn rename($($receiver)+, old: impl AsRef<Path>, to: impl AsRef<Path>) -> Result<(), Error> {
            let ((old, old_len), (to, to_len)) = (text(old.as_ref()), text(to.as_ref()));
            answer(unsafe { $sys::$rename($me.$prefix(), old, old_len, to, to_len) }).map(drop)
        }

        /// Renames by the flags of renameat2(2): [`RENAME_NOREPLACE`](crate::RENAME_NOREPLACE),
        /// [`RENAME_EXCHANGE`](crate::RENAME_EXCHANGE), or 0.
        pub fn rename2(
            $($receiver)+,
            old: impl AsRef<Path>,
            to: impl AsRef<Path>,
            flags: u32,
        ) -> Result<(), Error> {
            let ((old, old_len), (to, to_len)) = (text(old.as_ref()), text(to.as_ref()));
            answer(unsafe { $sys::$rename2($me.$prefix(), old, old_len, to, to_len, flags) }).map(drop)
        }

        pub fn stat($($receiver)+, path: impl AsRef<Path>) -> Result<Stat, Error> {
            let (path, len) = text(path.as_ref());
            let mut out = RawStat::default();
            answer(unsafe { $sys::$stat($me.$prefix(), path, len, &mut out) })?;
            Ok(out.into())
        }

        /// Like `stat`, but without an entry in the journal.
        pub fn peek_stat($($receiver)+, path: impl AsRef<Path>) -> Result<Stat, Error> {
            let (path, len) = text(path.as_ref());
            let mut out = RawStat::default();
            answer(unsafe { $sys::$peek_stat($me.$prefix(), path, len, &mut out) })?;
            Ok(out.into())
        }

        /// The names in a directory, in the order of their bytes.
        pub fn list($($receiver)+, path: impl AsRef<Path>) -> Result<Vec<OsString>, Error> {
            let (path, len) = text(path.as_ref());
            all_of(|out| unsafe { $sys::$list($me.$prefix(), path, len, out.as_mut_ptr().cast(), out.len()) })
                .map(names)
        }

        /// Like `list`, but without an entry in the journal.
        pub fn peek_list($($receiver)+, path: impl AsRef<Path>) -> Result<Vec<OsString>, Error> {
            let (path, len) = text(path.as_ref());
            all_of(|out| unsafe { $sys::$peek_list($me.$prefix(), path, len, out.as_mut_ptr().cast(), out.len()) })
                .map(names)
        }

        /// A path of the file or directory with a number: the first in the order of names. It looks at each path of the
        /// tree, and adds no entry to the journal.
        pub fn path_of($($receiver)+, number: u32) -> Result<PathBuf, Error> {
            let path = all_of(|out| {
                let buffer = out.as_mut_ptr().cast();
                unsafe { $sys::$path_of($me.$prefix(), u64::from(number), buffer, out.len()) }
            })?;
            Ok(OsString::from_vec(path).into())
        }

        /// The entries of the journal in order, up to this call.
        ///
        /// The journal begins after the last `cut`, or where a fork began. Later calls add none to them, and a cut ends
        /// the iteration.
        pub fn entries($($receiver)+) -> Result<impl Iterator<Item = Result<Entry, Error>> + '_, Error> {
            // (the last one first: if another thread cuts the journal in between, none is left)
            let last = answer(unsafe { $sys::$last_place($me.$prefix()) })?;
            let first = answer(unsafe { $sys::$first_place($me.$prefix()) })?;
            let entry = move |place| {
                all_of(|out| {
                    let buffer = out.as_mut_ptr().cast();
                    unsafe { $sys::$entry($me.$prefix(), place, buffer, out.len()) }
                })
                .map(|text| Entry::new(place, &text))
            };
            Ok((first..=last).map(entry).take_while(|it| *it != Err(Error::ENOENT)))
        }

        /// The journal as a script: each call as its line, and its reply in lines that begin with `# `.
        ///
        /// Run on a new tree it makes the same calls with the same replies. After a `cut`, and in a fork, the journal
        /// begins with a later call, and the script with a comment that says so: it is for a tree as this one was then.
        pub fn script($($receiver)+) -> Result<String, Error> {
            let mut script = String::new();
            for entry in $me.entries()? {
                let entry = entry?;
                if script.is_empty() && entry.place > 1 {
                    let place = entry.place;
                    script = format!("# The journal begins with call {place}: this is no script of an empty tree.\n");
                }
                script += &entry.to_string();
            }
            Ok(script)
        }
    };
}
pub(crate) use calls;
