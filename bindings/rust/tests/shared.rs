//! A tree that threads share: each method once, waits, closes, descriptors, and how long a tree lives.
use std::os::raw::{c_int, c_short, c_ulong};
use std::os::unix::io::{AsFd, AsRawFd};
use std::sync::Arc;
use std::thread;
use std::time::{Duration, Instant};
use watchtree::{mask, Error, SharedInstance, SharedTree, Stat, RENAME_EXCHANGE};

#[repr(C)]
struct PollFd {
    fd: c_int,
    events: c_short,
    revents: c_short,
}

extern "C" {
    fn poll(fds: *mut PollFd, count: c_ulong, milliseconds: c_int) -> c_int;
}

/// Whether poll(2) says that a descriptor is readable, at the latest when the time is over.
fn is_readable(instance: &SharedInstance, milliseconds: c_int) -> bool {
    let mut it = PollFd { fd: instance.as_fd().as_raw_fd(), events: 1, revents: 0 };
    unsafe { poll(&mut it, 1, milliseconds) == 1 && it.revents == 1 }
}

fn is_for_threads<T: Send + Sync>(_: &T) {}

#[test]
fn calls_answer() -> Result<(), Error> {
    let tree = SharedTree::open()?;
    assert_eq!((tree.mkdir("/d", 0o755)?, tree.create("/d/f", 0o600)?), (2, 3));
    assert_eq!(tree.write("/d/f", 0, b"hello")?, 5);
    let mut out = [0; 9];
    assert_eq!((tree.pread("/d/f", 1, &mut out)?, &out[..5]), (4, &b"ello\0"[..]));
    tree.truncate("/d/f", 2)?;
    tree.chmod("/d/f", 0o640)?;
    assert_eq!(tree.stat("/d/f")?, Stat { number: 3, is_directory: false, mode: 0o640, links: 1, size: 2 });
    tree.link("/d/f", "/d/g")?;
    assert_eq!(tree.list("/d")?, ["f", "g"]);
    tree.unlink("/d/g")?;
    tree.rename("/d/f", "/d/g")?;
    tree.create("/d/h", 0o644)?;
    tree.rename2("/d/h", "/d/g", RENAME_EXCHANGE)?;
    assert_eq!(tree.stat("/d/h")?.number, 3);
    assert_eq!(tree.rmdir("/d"), Err(Error(39)));
    assert_eq!(tree.line("stat /d", 64)?, b"ok 2 d 0755 1 0\n");
    assert_eq!(tree.line("nothing", 64), Err(Error(1102)));
    for i in 0..30 {
        tree.create(format!("/d/{i:02}{}", "n".repeat(200)), 0o644)?;
    }
    assert_eq!(tree.list("/d")?.len(), 32);
    assert_eq!(tree.line("list /d", 64)?.len(), 6 + 30 * 205 + 2 * 4);
    let place = tree.cut()?;
    assert!(place > 40);
    assert_eq!((tree.peek_stat("/d/h")?.number, tree.peek_list("/d")?.len()), (3, 32));
    assert_eq!(tree.path_of(3)?, std::path::Path::new("/d/h"));
    assert_eq!((tree.peek_pread("/d/h", 0, &mut out)?, &out[..2], tree.cut()?), (2, &b"he"[..], place));
    Ok(())
}

#[test]
fn a_fork_is_another_tree() -> Result<(), Error> {
    let tree = SharedTree::open()?;
    let instance = tree.inotify(16)?;
    instance.add_watch("/", mask::CREATE)?;
    tree.create("/f", 0o644)?;
    let fork = tree.fork()?;
    let other = fork.instance(instance.number())?;
    assert!(is_readable(&other, 0));
    assert_eq!(other.try_read(4096)?, instance.try_read(4096)?);
    assert!(!is_readable(&other, 0));
    fork.create("/g", 0o644)?;
    assert!(is_readable(&other, 0) && !is_readable(&instance, 0));
    assert_eq!((tree.list("/")?.len(), tree.create("/g", 0o644)?), (1, 3));
    let begins = "# The journal begins with call 4: this is no script of an empty tree.";
    let script = fork.script()?;
    assert_eq!((script.lines().next(), script.lines().last()), (Some(begins), Some("# ok 3")));
    assert_eq!(tree.entries()?.last().expect("an entry")?.line, "create /g 644");
    let later = tree.entries()?;
    tree.cut()?;
    assert_eq!(later.count(), 0);
    assert_eq!(fork.instance(2).err(), Some(Error::CLOSED));
    drop((tree, instance));
    assert_eq!(other.read(4096)?.iter().count(), 1);
    fork.shutdown();
    assert_eq!((fork.fork().err(), fork.script()), (Some(Error::CLOSED), Err(Error::CLOSED)));
    Ok(())
}

#[test]
fn an_instance_is_read_and_closed() -> Result<(), Error> {
    let tree = SharedTree::open()?;
    let instance = tree.inotify(16)?;
    is_for_threads(&tree);
    is_for_threads(&instance);
    assert_eq!((instance.number(), instance.waiting()?), (1, 0));
    assert_eq!(instance.add_watch("/", mask::CREATE)?, 1);
    assert_eq!(instance.try_read(4096), Err(Error::AGAIN));
    tree.create("/f", 0o644)?;
    assert_eq!((instance.waiting()?, instance.bytes_waiting()?, instance.try_read(31)), (1, 32, Err(Error(22))));
    assert_eq!(tree.ready()?, [1]);
    assert_eq!((instance.read(4096)?.as_bytes().len(), tree.ready()?), (32, vec![]));
    instance.rm_watch(1)?;
    let events = instance.try_read(4096)?;
    assert_eq!(events.iter().map(|it| (it.wd, it.mask, it.name)).collect::<Vec<_>>(), [(1, mask::IGNORED, None)]);
    instance.close()?;
    assert_eq!((instance.read(4096), instance.close()), (Err(Error::CLOSED), Err(Error::CLOSED)));
    drop(instance);
    let dropped = tree.inotify(16)?.number();
    assert_eq!(tree.line(format!("close {dropped}"), 16)?, b"err EBADF 9\n");
    Ok(())
}

#[test]
fn a_read_waits_no_longer_than_its_limit() -> Result<(), Error> {
    let tree = SharedTree::open()?;
    let instance = tree.inotify(16)?;
    instance.add_watch("/", mask::CREATE)?;
    let begin = Instant::now();
    assert_eq!(instance.read_timeout(4096, Duration::from_micros(20_100)), Err(Error::AGAIN));
    assert!(begin.elapsed() >= Duration::from_micros(20_100));
    assert_eq!(instance.read_timeout(4096, Duration::ZERO), Err(Error::AGAIN));
    tree.create("/f", 0o644)?;
    assert_eq!(instance.read_timeout(4096, Duration::MAX)?.iter().count(), 1);
    Ok(())
}

#[test]
fn a_close_ends_a_wait() -> Result<(), Error> {
    let tree = SharedTree::open()?;
    let instance = Arc::new(tree.inotify(16)?);
    let waiting = Arc::clone(&instance);
    let reader = thread::spawn(move || waiting.read(4096));
    instance.close()?;
    assert_eq!(reader.join().expect("it ends"), Err(Error::CLOSED));
    assert!(is_readable(&instance, 0));
    Ok(())
}

#[test]
fn a_shutdown_ends_every_wait() -> Result<(), Error> {
    let tree = SharedTree::open()?;
    let instance = tree.inotify(16)?;
    let reader = thread::spawn(move || (instance.read(4096), instance.waiting()));
    tree.shutdown();
    assert_eq!(reader.join().expect("it ends"), (Err(Error::CLOSED), Err(Error::CLOSED)));
    tree.shutdown();
    assert_eq!((tree.mkdir("/d", 0o755), tree.cut()), (Err(Error::CLOSED), Err(Error::CLOSED)));
    Ok(())
}

#[test]
fn a_descriptor_is_readable_while_records_wait() -> Result<(), Error> {
    let tree = SharedTree::open()?;
    let instance = tree.inotify(16)?;
    instance.add_watch("/", mask::CREATE)?;
    assert!(!is_readable(&instance, 0));
    let other = tree.clone();
    let writer = thread::spawn(move || other.create("/f", 0o644));
    assert!(is_readable(&instance, -1));
    writer.join().expect("it ends")?;
    assert_eq!(instance.try_read(4096)?.iter().count(), 1);
    assert!(!is_readable(&instance, 0));
    Ok(())
}

#[test]
fn a_tree_lives_as_long_as_its_instances() -> Result<(), Error> {
    let tree = SharedTree::open()?;
    let instance = tree.inotify(16)?;
    instance.add_watch("/", mask::CREATE)?;
    drop(tree);
    instance.tree().create("/f", 0o644)?;
    assert_eq!(instance.read(4096)?.iter().count(), 1);
    Ok(())
}

#[test]
fn writers_and_readers_share_a_tree() -> Result<(), Error> {
    const CALLS: u32 = 2000;
    let tree = SharedTree::open()?;
    let instances = [tree.inotify(16384)?, tree.inotify(16384)?];
    for instance in &instances {
        instance.add_watch("/", mask::MOVE)?;
    }
    thread::scope(|scope| {
        for name in ["/a", "/b"] {
            let tree = tree.clone();
            scope.spawn(move || -> Result<(), Error> {
                tree.create(name, 0o644)?;
                let other = format!("{name}x");
                for _ in 0..CALLS / 2 {
                    tree.rename(name, &other)?;
                    tree.rename(&other, name)?;
                }
                Ok(())
            });
        }
        for instance in &instances {
            scope.spawn(move || {
                let mut cookies = Vec::new();
                while cookies.len() < 4 * CALLS as usize {
                    let events = instance.read(4096).expect("records");
                    cookies.extend(events.iter().map(|it| it.cookie));
                }
                let wanted = (1..=2 * CALLS).flat_map(|it| [it, it]);
                assert!(cookies.into_iter().eq(wanted));
            });
        }
    });
    Ok(())
}
