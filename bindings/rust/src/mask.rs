//! The bits of <sys/inotify.h>: what a watch asks for, and what a record says. Each is a `u32`, and also a constant of
//! [`Mask`].
use std::fmt;
use std::ops::{BitOr, BitOrAssign};

pub const ACCESS: u32 = 0x1;
pub const MODIFY: u32 = 0x2;
pub const ATTRIB: u32 = 0x4;
pub const CLOSE_WRITE: u32 = 0x8;
pub const CLOSE_NOWRITE: u32 = 0x10;
pub const CLOSE: u32 = CLOSE_WRITE | CLOSE_NOWRITE;
pub const OPEN: u32 = 0x20;
pub const MOVED_FROM: u32 = 0x40;
pub const MOVED_TO: u32 = 0x80;
pub const MOVE: u32 = MOVED_FROM | MOVED_TO;
pub const CREATE: u32 = 0x100;
pub const DELETE: u32 = 0x200;
pub const DELETE_SELF: u32 = 0x400;
pub const MOVE_SELF: u32 = 0x800;
pub const ALL_EVENTS: u32 = 0xfff;
/// The file system was unmounted, which never happens in a tree.
pub const UNMOUNT: u32 = 0x2000;
/// The queue was full, and events were lost. The record has `wd` -1.
pub const Q_OVERFLOW: u32 = 0x4000;
/// The watch has ended.
pub const IGNORED: u32 = 0x8000;
/// Watch only a directory; otherwise `ENOTDIR`.
pub const ONLYDIR: u32 = 0x0100_0000;
/// Has no effect: there are no symbolic links.
pub const DONT_FOLLOW: u32 = 0x0200_0000;
/// Has no effect: a file without a path is gone.
pub const EXCL_UNLINK: u32 = 0x0400_0000;
/// Make a new watch; `EEXIST` if the file is watched.
pub const MASK_CREATE: u32 = 0x1000_0000;
/// Add to the bits of the watch that the file has.
pub const MASK_ADD: u32 = 0x2000_0000;
/// The event is about a directory.
pub const ISDIR: u32 = 0x4000_0000;
/// The watch ends with its first event.
pub const ONESHOT: u32 = 0x8000_0000;

/// A set of the bits of this module, each with a constant of its name. It prints their names, and `|` joins sets.
///
/// A function that takes a mask takes this type or a `u32`; `into` converts either into the other.
///
/// ```
/// use watchtree::{mask, Mask, Tree};
///
/// let mut tree = Tree::open()?;
/// let instance = tree.inotify(16)?;
/// tree.add_watch(instance, "/", Mask::CREATE | Mask::MOVE)?;
/// tree.mkdir("/d", 0o755)?;
/// let events = tree.read(instance, 4096)?;
/// let found = events.iter().next().expect("an event").mask();
/// assert!(found.contains(Mask::CREATE | Mask::ISDIR) && !found.intersects(Mask::MOVE));
/// assert_eq!(found.to_string(), "CREATE|ISDIR");
/// assert_eq!(u32::from(found), mask::CREATE | mask::ISDIR);
/// # Ok::<(), watchtree::Error>(())
/// ```
#[derive(Clone, Copy, Default, PartialEq, Eq, Hash)]
pub struct Mask(pub u32);

/// Declares the constants of `Mask`: single bits in ascending order, which it prints the names of, and sets of several.
macro_rules! constants {
    ([$($bit:ident)*] [$($set:ident)*]) => {
        const NAMES: &[(u32, &str)] = &[$(($bit, stringify!($bit))),*];

        /// The constants of [`mask`](crate::mask).
        impl Mask {
            $(
                #[doc = concat!("[`mask::", stringify!($bit), "`](crate::mask::", stringify!($bit), ").")]
                pub const $bit: Mask = Mask($bit);
            )*
            $(
                #[doc = concat!("[`mask::", stringify!($set), "`](crate::mask::", stringify!($set), "), several bits.")]
                pub const $set: Mask = Mask($set);
            )*
        }
    };
}

constants! {
    [ACCESS MODIFY ATTRIB CLOSE_WRITE CLOSE_NOWRITE OPEN MOVED_FROM MOVED_TO CREATE DELETE DELETE_SELF MOVE_SELF UNMOUNT
     Q_OVERFLOW IGNORED ONLYDIR DONT_FOLLOW EXCL_UNLINK MASK_CREATE MASK_ADD ISDIR ONESHOT]
    [CLOSE MOVE ALL_EVENTS]
}

impl Mask {
    /// Whether all bits of another mask are in this one.
    pub fn contains(self, other: impl Into<Mask>) -> bool {
        let other = other.into();
        self.0 & other.0 == other.0
    }

    /// Whether any bit of another mask is in this one.
    pub fn intersects(self, other: impl Into<Mask>) -> bool {
        self.0 & other.into().0 != 0
    }
}

impl<T: Into<Mask>> BitOr<T> for Mask {
    type Output = Mask;

    fn bitor(self, other: T) -> Mask {
        Mask(self.0 | other.into().0)
    }
}

impl<T: Into<Mask>> BitOrAssign<T> for Mask {
    fn bitor_assign(&mut self, other: T) {
        *self = *self | other;
    }
}

impl From<u32> for Mask {
    fn from(bits: u32) -> Mask {
        Mask(bits)
    }
}

impl From<Mask> for u32 {
    fn from(mask: Mask) -> u32 {
        mask.0
    }
}

/// The names of the bits, such as `CREATE|ISDIR`. Bits without a name are printed as one hexadecimal number, an empty mask as `0x0`.
impl fmt::Display for Mask {
    fn fmt(&self, f: &mut fmt::Formatter<'_>) -> fmt::Result {
        let (mut rest, mut between) = (self.0, "");
        for (bit, name) in NAMES.iter().filter(|it| self.0 & it.0 != 0) {
            write!(f, "{between}{name}")?;
            (rest, between) = (rest & !bit, "|");
        }
        if rest != 0 || self.0 == 0 {
            write!(f, "{between}{rest:#x}")?;
        }
        Ok(())
    }
}

impl fmt::Debug for Mask {
    fn fmt(&self, f: &mut fmt::Formatter<'_>) -> fmt::Result {
        write!(f, "Mask({self})")
    }
}
