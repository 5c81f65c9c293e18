//! Each method once, what is refused, and a tree in another thread.
use std::ffi::{OsStr, OsString};
use std::os::unix::ffi::OsStrExt;
use std::path::{Path, PathBuf};
use std::thread;
use watchtree::{mask, Error, Event, Instance, Stat, Tree, QUEUE, RENAME_EXCHANGE, RENAME_NOREPLACE};

#[test]
fn calls_answer() -> Result<(), Error> {
    let mut tree = Tree::open()?;
    assert_eq!((tree.mkdir("/d", 0o755)?, tree.create("/d/f", 0o600)?), (2, 3));
    let instance = tree.inotify(QUEUE)?;
    assert_eq!(tree.add_watch(instance, "/d", mask::ALL_EVENTS)?, 1);
    assert_eq!(tree.write("/d/f", 0, b"hello")?, 5);
    let mut out = [0; 9];
    assert_eq!((tree.pread("/d/f", 1, &mut out)?, &out[..5]), (4, &b"ello\0"[..]));
    tree.truncate("/d/f", 2)?;
    tree.chmod("/d/f", 0o640)?;
    tree.rm_watch(instance, 1)?;
    let events = tree.read(instance, 65536)?;
    assert_eq!(events.iter().last().map(|it| (it.mask, it.name)), Some((mask::IGNORED, None)));
    assert_eq!(tree.add_watch(instance, "/d", mask::ALL_EVENTS)?, 2);
    let wanted = Stat { number: 3, is_directory: false, mode: 0o640, links: 1, size: 2 };
    assert_eq!(tree.stat("/d/f")?, wanted);
    tree.link("/d/f", "/d/g")?;
    assert_eq!(tree.list("/d")?, ["f", "g"]);
    tree.unlink("/d/g")?;
    let place = tree.cut()?;
    assert_eq!((tree.peek_stat("/d/f")?, tree.peek_list("/d")?), (wanted, vec!["f".into()]));
    assert_eq!((tree.path_of(1)?, tree.path_of(3)?), (PathBuf::from("/"), PathBuf::from("/d/f")));
    assert_eq!(tree.path_of(99), Err(Error(2)));
    assert_eq!((tree.peek_pread("/d/f", 1, &mut out)?, out[0]), (1, b'e'));
    assert_eq!((tree.cut()?, tree.ready()?), (place, vec![instance]));
    let bytes = tree.bytes_waiting(instance)? as usize;
    let waiting = tree.waiting(instance)?;
    let all = tree.read(instance, 65536)?;
    assert_eq!((all.iter().count() as u64, all.as_bytes().len(), tree.ready()?), (waiting, bytes, vec![]));
    let odd = OsStr::from_bytes(b"/d/\xff");
    tree.rename("/d/f", odd)?;
    let events = tree.read(instance, 4096)?;
    let from = Event { wd: 2, mask: mask::MOVED_FROM, cookie: 1, name: Some("f".as_ref()) };
    let to = Event { wd: 2, mask: mask::MOVED_TO, cookie: 1, name: Some(OsStr::from_bytes(b"\xff")) };
    assert_eq!(events.iter().collect::<Vec<_>>(), [from, to]);
    assert_eq!(events.as_bytes().len(), 64);
    tree.create("/d/h", 0o644)?;
    tree.rename2("/d/h", odd, RENAME_EXCHANGE)?;
    assert_eq!(tree.stat("/d/h")?.number, 3);
    assert_eq!(tree.rename2("/d/h", odd, RENAME_NOREPLACE), Err(Error(17)));
    tree.rename2("/d/h", odd, 0)?;
    tree.rm_watch(instance, 2)?;
    tree.close(instance)?;
    tree.unlink(odd)?;
    tree.rmdir("/d")?;
    assert_eq!(tree.cut()?, tree.cut()?);
    Ok(())
}

#[test]
fn refusals_are_errors() -> Result<(), Error> {
    let mut tree = Tree::open()?;
    tree.mkdir("/d", 0o755)?;
    assert_eq!(tree.mkdir("/d", 0o755), Err(Error(17)));
    assert_eq!(tree.unlink("/none").map_err(std::io::Error::from).unwrap_err().kind(), std::io::ErrorKind::NotFound);
    assert_eq!(tree.waiting(Instance(1)), Err(Error(9)));
    let instance = tree.inotify(1)?;
    assert_eq!(tree.read(instance, 4096), Err(Error(11)));
    tree.add_watch(instance, "/", mask::CREATE)?;
    tree.create("/f", 0o644)?;
    assert_eq!(tree.read(instance, 31), Err(Error(22)));
    assert_eq!(tree.read(instance, 32)?.iter().next().and_then(|it| it.name), Some("f".as_ref()));
    assert_eq!(tree.line("nothing", 9), Err(Error(1102)));
    assert_eq!(Error(1001).to_string(), "JournalFull: The journal is full");
    assert_eq!(Error(2).to_string(), "ENOENT: No such file or directory");
    assert_eq!(Error(3).to_string(), "unknown error 3");
    Ok(())
}

#[test]
fn what_does_not_fit_is_asked_for_again() -> Result<(), Error> {
    let mut tree = Tree::open()?;
    let names: Vec<OsString> = (0..100).map(|i| format!("{i:03}{}", "n".repeat(200)).into()).collect();
    for name in &names {
        tree.create(Path::new("/").join(name), 0o644)?;
    }
    assert_eq!(tree.list("/")?, names);
    let text = tree.line("list /", 9)?;
    assert_eq!((text.len(), &text[..7]), (7 + 100 * 206, &b"ok 100\n"[..]));
    Ok(())
}

/// The answers to random calls, the same for the same seed.
fn answers(tree: &mut Tree, instance: Instance, mut state: u32) -> Vec<Result<u64, Error>> {
    let mut choose = |count: u32| {
        state = state.wrapping_mul(1_664_525).wrapping_add(1_013_904_223);
        (state >> 8) % count
    };
    let mut call = |_| {
        let (path, to) = (format!("/{}", choose(4)), format!("/{}", choose(4)));
        match choose(6) {
            0 => tree.create(path, 0o644).map(u64::from),
            1 => tree.unlink(path).map(|()| 0),
            2 => tree.rename(path, to).map(|()| 0),
            3 => tree.write(path, u64::from(choose(9)), b"data"),
            4 => {
                tree.read(instance, 16 * choose(9) as usize).map(|it| it.as_bytes().iter().map(|&b| u64::from(b)).sum())
            }
            _ => tree.waiting(instance),
        }
    };
    (0..200).map(&mut call).collect()
}

#[test]
fn a_fork_answers_as_its_tree() -> Result<(), Error> {
    let mut tree = Tree::open()?;
    let instance = tree.inotify(7)?;
    tree.add_watch(instance, "/", mask::ALL_EVENTS)?;
    for seed in 0..50 {
        answers(&mut tree, instance, seed);
        let (mut first, mut second) = (tree.fork()?, tree.fork()?);
        assert_ne!(answers(&mut first, instance, 2 * seed + 1000).len(), 0);
        let wanted = answers(&mut tree, instance, 2 * seed + 1001);
        assert_eq!(answers(&mut second, instance, 2 * seed + 1001), wanted);
        assert_eq!(tree.list("/")?, second.list("/")?);
        assert_eq!(tree.cut()?, second.cut()?);
        drop(tree);
        tree = second.fork()?;
    }
    Ok(())
}

#[test]
#[allow(deprecated)]
fn the_old_name_of_a_fork() -> Result<(), Error> {
    let mut tree = Tree::open()?;
    tree.create("/f", 0o644)?;
    let mut fork = tree.try_clone()?;
    fork.unlink("/f")?;
    assert_eq!((tree.list("/")?.len(), fork.list("/")?.len()), (1, 0));
    Ok(())
}

#[test]
fn a_journal_is_a_script() -> Result<(), Error> {
    let (mut tree, mut replay) = (Tree::open()?, Tree::open()?);
    assert_eq!((tree.script()?, tree.entries()?.count()), (String::new(), 0));
    let instance = tree.inotify(7)?;
    tree.add_watch(instance, "/", mask::CREATE)?;
    answers(&mut tree, instance, 1);
    tree.mkdir("/a b", 0o755)?;
    for entry in tree.entries()? {
        let entry = entry?;
        assert_eq!(String::from_utf8_lossy(&replay.line(&entry.line, QUEUE)?), entry.reply, "{entry}");
    }
    let script = tree.script()?;
    assert_eq!(replay.script()?, script);
    let last = tree.entries()?.last().expect("an entry")?;
    assert!(script.ends_with(&last.to_string()));
    assert_eq!((last.line.as_str(), last.place), ("mkdir /a%20b 755", tree.cut()?));
    assert_eq!(tree.script()?, "");
    tree.chmod("/", 0o700)?;
    let begins = format!("# The journal begins with call {}: this is no script of an empty tree.\n", last.place + 1);
    assert_eq!(tree.script()?, format!("{begins}chmod / 700\n# ok\n"));
    Ok(())
}

#[test]
fn the_version_is_that_of_the_crate() {
    assert_eq!(watchtree::version(), Ok(env!("CARGO_PKG_VERSION").to_string()));
}

#[test]
fn a_tree_goes_to_another_thread() -> Result<(), Error> {
    let mut tree = Tree::open()?;
    tree.mkdir("/d", 0o755)?;
    let mut tree = thread::spawn(move || tree.create("/d/f", 0o644).map(|_| tree)).join().expect("it ends")?;
    assert_eq!(tree.list("/d")?, ["f"]);
    Ok(())
}
