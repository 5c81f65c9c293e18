//! A file tree in memory with inotify(7): safe wrappers over libwatchtree.
//!
//! ```
//! use watchtree::{Mask, Tree};
//!
//! let mut tree = Tree::open()?;
//! tree.mkdir("/d", 0o755)?;
//! let instance = tree.inotify(16384)?;
//! tree.add_watch(instance, "/d", Mask::CREATE | Mask::DELETE)?;
//! tree.create("/d/f", 0o644)?;
//! for event in &tree.read(instance, 4096)? {
//!     println!("wd {} mask {} name {:?}", event.wd, event.mask(), event.name);
//! }
//! # Ok::<(), watchtree::Error>(())
//! ```
//!
//! Each method returns what the system call of its name returns, or an [`Error`], which has constants such as
//! [`Error::ENOENT`]. A [`Mask`] has the bits of a mask with their names; a function that takes one also takes a `u32`.
//!
//! A [`Tree`] is for one thread at a time: every call takes `&mut Tree`. A [`SharedTree`] is for several: its calls
//! take `&self`, reads can wait, and an instance has a descriptor for event loops. In both, `fork` makes an independent
//! tree like this one, and `script` prints the calls so far as a script. [`explore`] runs event code under many
//! schedules, and shrinks one that breaks it.
mod calls;
mod error;
mod events;
pub mod explore;
pub mod mask;
mod shared;
mod sys;
mod tree;

pub use calls::{Entry, Stat};
pub use error::{version, Error};
pub use events::{Event, EventIter, Events};
pub use mask::Mask;
pub use shared::{SharedInstance, SharedTree};
pub use tree::{Instance, Tree};

/// The default limit of a queue in records, as fs.inotify.max_queued_events of Linux.
pub const QUEUE: u32 = 16384;
/// The flag of `rename2` that requires that nothing exists at the new path.
pub const RENAME_NOREPLACE: u32 = 1;
/// The flag of `rename2` that exchanges the two files.
pub const RENAME_EXCHANGE: u32 = 2;
