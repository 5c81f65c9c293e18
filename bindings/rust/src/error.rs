//! Why a call was refused.
use crate::sys;
use std::fmt;
use std::io;
use std::os::raw::c_void;

/// Why a call was refused: a number of errno(3), or from 1001 on one of this library's own, as watchtree.h lists them.
/// Each has a constant.
///
/// ```
/// use watchtree::{Error, Tree};
///
/// let mut tree = Tree::open()?;
/// match tree.stat("/f") {
///     Err(Error::ENOENT) => assert_eq!(tree.create("/f", 0o644)?, 2),
///     found => panic!("a new tree is empty, and has {found:?}"),
/// }
/// # Ok::<(), Error>(())
/// ```
#[derive(Clone, Copy, Debug, PartialEq, Eq)]
pub struct Error(pub i32);

/// The errors with the numbers of errno(3).
impl Error {
    /// `link` or `unlink` of a directory.
    pub const EPERM: Error = Error(1);
    /// Nothing exists at the path, or the journal has no such entry.
    pub const ENOENT: Error = Error(2);
    /// The instance or the tree is closed; also [`Error::CLOSED`].
    pub const EBADF: Error = Error(9);
    /// No record waits; also [`Error::AGAIN`].
    pub const EAGAIN: Error = Error(11);
    /// Out of memory. The call changed nothing and may be made again.
    pub const ENOMEM: Error = Error(12);
    /// The root is removed or renamed, or something is renamed onto it.
    pub const EBUSY: Error = Error(16);
    /// Something exists at the path, or the file is watched and the mask has [`MASK_CREATE`](crate::mask::MASK_CREATE).
    pub const EEXIST: Error = Error(17);
    /// A file is used as a directory, or a directory would replace a file.
    pub const ENOTDIR: Error = Error(20);
    /// A directory is used as a file, or a file would replace a directory.
    pub const EISDIR: Error = Error(21);
    /// A path, a mode, flags, a limit, a mask or a watch descriptor is not valid, or the first record does not fit.
    pub const EINVAL: Error = Error(22);
    /// The system has no descriptor left.
    pub const ENFILE: Error = Error(23);
    /// The tree has 128 open instances, or the process has no descriptor left.
    pub const EMFILE: Error = Error(24);
    /// A file would have more than 16,777,216 bytes.
    pub const EFBIG: Error = Error(27);
    /// The instance has 8,192 watches.
    pub const ENOSPC: Error = Error(28);
    /// A file would have more than 65,000 paths.
    pub const EMLINK: Error = Error(31);
    /// A name has more than 255 bytes, or a path more than 4,095.
    pub const ENAMETOOLONG: Error = Error(36);
    /// A directory that is not empty would be removed or replaced.
    pub const ENOTEMPTY: Error = Error(39);
    /// Another thread has run a line since, so its text is gone.
    pub const ESTALE: Error = Error(116);

    /// No record waits: [`Error::EAGAIN`].
    pub const AGAIN: Error = Error::EAGAIN;
    /// The instance or the tree is closed: [`Error::EBADF`].
    pub const CLOSED: Error = Error::EBADF;
}

/// The library's own errors. Those from 1101 on are faults of a line, which then does nothing.
impl Error {
    /// The journal has 1,000,000 calls since the last [`Tree::cut`](crate::Tree::cut).
    pub const JOURNAL_FULL: Error = Error(1001);
    /// No cookie is left for a rename.
    pub const COOKIES_SPENT: Error = Error(1004);
    /// No number is left for a file.
    pub const NUMBERS_SPENT: Error = Error(1007);
    /// A byte is neither a space nor from `!` to `~`.
    pub const BAD_BYTE: Error = Error(1101);
    /// The first word is no command.
    pub const UNKNOWN_COMMAND: Error = Error(1102);
    /// The command takes more or fewer words.
    pub const WRONG_NUMBER: Error = Error(1103);
    /// A `%` is not followed by two hexadecimal digits.
    pub const BAD_ESCAPE: Error = Error(1104);
    /// A mode is not 1 to 6 octal digits.
    pub const BAD_MODE: Error = Error(1105);
    /// Bytes are not an even number of hexadecimal digits.
    pub const BAD_HEX: Error = Error(1106);
    /// A mask is not `0x` and 1 to 8 hexadecimal digits.
    pub const BAD_MASK: Error = Error(1107);
    /// A number is not 1 to 20 decimal digits, or is too large.
    pub const BAD_NUMBER: Error = Error(1108);
}

impl fmt::Display for Error {
    fn fmt(&self, f: &mut fmt::Formatter<'_>) -> fmt::Result {
        match text(|out, len| unsafe { sys::wt_error_text(-i64::from(self.0), out, len) }) {
            Ok(text) => f.write_str(&text),
            Err(_) => write!(f, "unknown error {}", self.0),
        }
    }
}

impl std::error::Error for Error {}

impl From<Error> for io::Error {
    fn from(fault: Error) -> io::Error {
        if fault.0 > 1000 {
            io::Error::new(io::ErrorKind::Other, fault)
        } else {
            io::Error::from_raw_os_error(fault.0)
        }
    }
}

/// A negative return value is an error.
pub(crate) fn answer(number: i64) -> Result<u64, Error> {
    u64::try_from(number).map_err(|_| Error(number.unsigned_abs().try_into().unwrap_or(i32::MAX)))
}

/// A text of the library, which fits into 128 bytes.
fn text(call: impl FnOnce(*mut c_void, usize) -> i64) -> Result<String, Error> {
    let mut out = [0; 128];
    let len = answer(call(out.as_mut_ptr().cast(), out.len()))? as usize;
    Ok(String::from_utf8_lossy(&out[..len]).into_owned())
}

/// The version of the library, such as `1.0.0`.
pub fn version() -> Result<String, Error> {
    text(|out, len| unsafe { sys::wt_version(out, len) })
}
