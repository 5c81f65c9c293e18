//! Schedules: known bugs are found and shrunk, their corrected twins survive, and what a seed draws is known.
#[path = "../examples/naive_recursive.rs"]
mod naive_recursive;
#[path = "../examples/rename_halves.rs"]
mod rename_halves;

use std::cell::Cell;
use std::collections::BTreeSet;
use std::fmt::Debug;
use watchtree::explore::{Change, Explore, Failure, Fault, Part, Schedule, Tree, BATCHES, QUEUES};
use watchtree::{mask, Error, Instance, Stat, QUEUE};

const SEEDS: u64 = 200;
const TWIN_SEEDS: u64 = 5000;
const SMALL: &str = "mkdir /d 755\n--\ncreate /d/a 644\ncreate /d/b 644\n";

type Consumer<B> = fn(&mut Tree) -> Result<B, Error>;
type Check<B> = fn(&mut watchtree::Tree, &B) -> Result<(), String>;

/// A bug is found, its schedule is short and fails again, and the corrected twin survives.
fn is_found<B: Debug + 'static>(
    script: &str,
    bug: Consumer<B>,
    twin: Consumer<B>,
    check: Check<B>,
) -> Result<Failure, Fault> {
    let naive = Explore::new(script, bug, check)?.queues(&[QUEUE]);
    let report = naive.seeds(0..SEEDS)?;
    let failure = report.failure().expect("it is found").clone();
    let schedule = &failure.schedule;
    assert!(schedule.setup.len() + schedule.changes.len() <= 6, "{failure}");
    let read = Schedule::parse(&schedule.to_string())?;
    for _ in 0..20 {
        let again = naive.replay(&read).expect("it fails again");
        assert_eq!((&again.timeline, &again.schedule), (&failure.timeline, schedule));
        assert_eq!(again.script, failure.script);
    }
    let mut tree = watchtree::Tree::open().expect("memory for a tree");
    for line in failure.script.lines() {
        tree.line(line, QUEUE).expect("it is a line of a script");
    }
    assert_eq!(tree.script().as_ref(), Ok(&failure.script));
    let corrected = Explore::new(script, twin, check)?.queues(&[QUEUE]);
    assert!(corrected.replay(schedule).is_none());
    let report = corrected.seeds(0..TWIN_SEEDS)?;
    assert_eq!((report.runs, report.failures.len()), (TWIN_SEEDS, 0), "{:?}", report.failure());
    assert!(report.reads > TWIN_SEEDS);
    Ok(failure)
}

#[test]
fn a_naive_recursive_watcher() -> Result<(), Fault> {
    use naive_recursive::{check, corrected, naive, SCRIPT};
    let failure = is_found(SCRIPT, naive, corrected, check)?;
    assert_eq!((failure.schedule.changes.len(), failure.part), (2, Part::Check));
    assert!(failure.to_string().contains("the check failed: missed [\"/d/"), "{failure}");
    for (moves, is_found) in [(0, false), (1, true), (2, true)] {
        assert_eq!(Explore::new(SCRIPT, naive, check)?.moves(moves)?.failure().is_some(), is_found);
        assert!(Explore::new(SCRIPT, corrected, check)?.moves(moves)?.failures.is_empty());
    }
    Ok(())
}

#[test]
fn the_halves_of_a_rename() -> Result<(), Fault> {
    use rename_halves::{check, corrected, naive, SCRIPT};
    let failure = is_found(SCRIPT, naive, corrected, check)?;
    assert_eq!(failure.schedule.reads.iter().map(|it| it.1).collect::<Vec<_>>(), [1]);
    Ok(())
}

fn small(tree: &mut Tree) -> Result<Vec<String>, Error> {
    let instance = tree.inotify(QUEUE)?;
    tree.add_watch(instance, "/d", mask::CREATE)?;
    let mut names = Vec::new();
    while let Some(events) = tree.wait(instance)? {
        names.extend(events.iter().filter_map(|it| it.name).map(|it| it.to_string_lossy().into_owned()));
    }
    Ok(names)
}

/// The schedules that were run, as a check that always fails keeps them.
fn schedules(script: &str, run: impl Fn(&Explore<'_, Vec<String>>) -> Vec<Failure>) -> Result<Vec<Schedule>, Fault> {
    let explore = Explore::new(script, small, |_, _| Err("always".into()))?.keep_going();
    Ok(run(&explore).into_iter().map(|it| it.found).collect())
}

#[test]
fn the_text_of_a_schedule() -> Result<(), Fault> {
    let text =
        "#@ queue 8\nmkdir /d 755\n--\n#@ before 3\ncreate /d/a 644\ncreate /d/b 644\n#@ read 4 1\n#@ before 5\n\
                unlink /d/a\n#@ at rest\nunlink /d/b\n#@ read 9 2\n";
    let schedule = Schedule::parse(text)?;
    let change = |line: &str, before| Change { line: line.into(), before };
    let (a, b) = (change("create /d/a 644", Some(3)), change("create /d/b 644", Some(3)));
    let (c, d) = (change("unlink /d/a", Some(5)), change("unlink /d/b", None));
    let wanted = Schedule {
        setup: vec!["mkdir /d 755".into()],
        changes: vec![a, b, c, d],
        reads: vec![(4, 1), (9, 2)],
        queue: 8,
    };
    assert_eq!((&schedule, schedule.to_string().as_str()), (&wanted, text));
    assert_eq!(Schedule::parse(&format!("# a comment\n\n{SMALL}"))?.to_string(), SMALL);
    for wrong in ["queue 0", "queue", "queue x", "before 1", "at rest", "read 1", "later"] {
        let fault = Schedule::parse(&format!("#\n#@ {wrong}\nmkdir /d 755\n--\n")).expect_err(wrong);
        assert!(fault.to_string().starts_with("line 2: "), "{fault}");
    }
    for wrong in ["before 0", "before", "before -1", "queue 3", "read 1 2 3", "at peace"] {
        let fault = Schedule::parse(&format!("mkdir /d 755\n--\n#@ {wrong}\n")).expect_err(wrong);
        assert!(fault.to_string().starts_with("line 3: "), "{fault}");
    }
    Ok(())
}

#[test]
fn a_seed_draws_what_it_draws_in_python() -> Result<(), Fault> {
    let found =
        schedules("mkdir /d 755\n--\ncreate /d/a 644\ncreate /d/b 644\ncreate /d/c 644\ncreate /d/e 644\n", |it| {
            it.seeds(0..300).expect("it runs").failures
        })?;
    assert_eq!(found.len(), 300);
    assert_eq!(found.iter().map(|it| it.queue).collect::<BTreeSet<_>>(), QUEUES.into_iter().collect());
    let batches: BTreeSet<u32> = found.iter().flat_map(|it| it.reads.iter().map(|read| read.1)).collect();
    assert_eq!(batches, BATCHES.into_iter().flatten().collect());
    let stored = include_str!("../../python/seeds.expected");
    let texts: String = found.iter().take(12).enumerate().map(|(seed, it)| format!("# seed {seed}\n{it}")).collect();
    assert_eq!(texts, stored);
    Ok(())
}

#[test]
fn each_schedule_with_few_moves_once() -> Result<(), Fault> {
    let found = schedules(SMALL, |it| it.moves(2).expect("it runs").failures)?;
    let places: Vec<Vec<Option<u32>>> =
        found.iter().map(|it| it.changes.iter().map(|it| it.before).collect()).collect();
    let wanted = [
        [None, None],
        [Some(1), None],
        [Some(2), None],
        [None, Some(3)],
        [Some(1); 2],
        [Some(1), Some(2)],
        [Some(2); 2],
    ];
    assert_eq!(places.iter().cloned().collect::<BTreeSet<_>>(), wanted.iter().map(|it| it.to_vec()).collect());
    assert_eq!((places.len(), &places[0]), (7, &vec![None, None]));
    Ok(())
}

/// What a consumer returns under one schedule, and the schedule as it happened.
fn scheduled<B: Clone + 'static>(text: &str, consumer: impl Fn(&mut Tree) -> Result<B, Error>) -> (B, Schedule) {
    let believed = Cell::new(None);
    let check = |_: &mut watchtree::Tree, it: &B| {
        believed.set(Some(it.clone()));
        Err("always".into())
    };
    let schedule = Schedule::parse(text).expect("a schedule");
    let failure = Explore::new("--\n", consumer, check).expect("a script").replay(&schedule).expect("it fails");
    assert_eq!(failure.part, Part::Check, "{failure}");
    (believed.take().expect("it was checked"), failure.schedule)
}

fn lengths(tree: &mut Tree) -> Result<Vec<Vec<usize>>, Error> {
    let instance = tree.inotify(QUEUE)?;
    tree.add_watch(instance, "/d", mask::CREATE)?;
    let mut reads = Vec::new();
    while let Some(events) = tree.wait(instance)? {
        reads.push(events.iter().map(|it| it.name.map_or(0, |name| name.len())).collect());
    }
    Ok(reads)
}

#[test]
fn a_read_returns_so_many_records() {
    let names = [1, 15, 16, 255, 1].iter().zip("abcde".chars());
    let lines: String = names.map(|(&count, it)| format!("create /d/{} 644\n", it.to_string().repeat(count))).collect();
    let script = format!("mkdir /d 755\n--\n#@ before 3\n{lines}");
    assert_eq!(scheduled(&script, lengths).0, [vec![1, 15, 16, 255, 1]]);
    assert_eq!(scheduled(&format!("{script}#@ read 3 3\n"), lengths).0, [vec![1, 15, 16], vec![255, 1]]);
    let short = format!("{script}#@ read 3 1\n#@ read 4 2\n#@ read 5 9\n");
    assert_eq!(scheduled(&short, lengths).0, [vec![1], vec![15, 16], vec![255, 1]]);
}

#[test]
fn lines_happen_before_a_request_and_at_rest() {
    let script =
        "mkdir /d 755\n--\n#@ before 1\ncreate /d/a 644\n#@ before 4\ncreate /d/b 644\n#@ at rest\ncreate /d/c 644\n\
                  #@ before 900\ncreate /d/e 644\n#@ before 1\ncreate /d/f 644\n";
    let (names, schedule) = scheduled(script, |tree| {
        let first = tree.list("/d")?.len();
        small(tree).map(|names| (first, names))
    });
    let before: Vec<_> = schedule.changes.iter().map(|it| it.before).collect();
    assert_eq!(names, (1, ["b", "c", "e", "f"].map(String::from).to_vec()));
    assert_eq!(before, [Some(1), None, None, None, Some(6)]);
}

#[test]
fn reads_that_do_not_wait() {
    let script = "mkdir /d 755\n--\ncreate /d/a 644\ncreate /d/b 644\n";
    let (answers, _) = scheduled(script, |tree| {
        let instance = tree.inotify(QUEUE)?;
        tree.add_watch(instance, "/d", mask::CREATE)?;
        let mut answers = Vec::new();
        for _ in 0..5 {
            answers.push(tree.read(instance, 4096).map(|it| it.iter().count()));
            answers.push(tree.waiting(instance).map(|it| it as usize));
        }
        Ok(answers)
    });
    // In vain, then a line at rest, whose record waits; so again; and at last nothing is left.
    let again = Err(Error::AGAIN);
    assert_eq!(answers[..4], [again, Ok(1), Ok(1), Ok(0)]);
    assert_eq!(
        answers[4..],
        [Ok(1), Ok(0), Err(Error::CLOSED), Err(Error::CLOSED), Err(Error::CLOSED), Err(Error::CLOSED)]
    );
}

#[test]
fn queues_and_buffers_are_short() {
    let lines = "create /d/a 644\ncreate /d/b 644\ncreate /d/c 644\ncreate /d/e 644\n";
    let script = format!("#@ queue 2\nmkdir /d 755\n--\n#@ before 5\n{lines}");
    let (counts, _) = scheduled(&script, |tree| {
        let instances: Vec<Instance> = [QUEUE, 1].iter().map(|&it| tree.inotify(it)).collect::<Result<_, _>>()?;
        for &instance in &instances {
            tree.add_watch(instance, "/d", mask::CREATE)?;
        }
        let counts: Vec<usize> = instances
            .iter()
            .map(|&it| tree.wait(it).map(|it| it.expect("records").iter().count()))
            .collect::<Result<_, _>>()?;
        Ok((counts, tree.read(instances[0], 4096).err()))
    });
    assert_eq!(counts, (vec![3, 2], Some(Error::AGAIN)));
    for reads in ["", "#@ read 3 2\n#@ read 4 2\n"] {
        let (sizes, _) = scheduled(&format!("mkdir /d 755\n--\n#@ before 3\n{lines}{reads}"), |tree| {
            let instance = tree.inotify(QUEUE)?;
            tree.add_watch(instance, "/d", mask::CREATE)?;
            // (the first finds nothing, the second polls, so that lines happen)
            let sizes = [0, 31, 32, 64].map(|size| tree.read(instance, size).map(|it| it.as_bytes().len()));
            Ok(sizes)
        });
        assert_eq!(sizes, [Err(Error::AGAIN), Err(Error(22)), Ok(32), Ok(64)], "{reads}");
    }
}

#[test]
fn every_call_is_a_request() {
    let script = "mkdir /d 755\n--\n#@ before 19\ncreate /d/x 644\n";
    let (answers, schedule) = scheduled(script, |tree| {
        tree.mkdir("/e", 0o755)?;
        tree.create("/e/f", 0o644)?;
        let mut out = [0; 9];
        let counts = (tree.write("/e/f", 0, b"hello")?, tree.pread("/e/f", 1, &mut out)?);
        let wanted = Stat { number: 4, is_directory: false, mode: 0o644, links: 1, size: 5 };
        assert_eq!((tree.stat("/e/f")?, tree.list("/e")?), (wanted, vec!["f".into()]));
        tree.truncate("/e/f", 1)?;
        tree.chmod("/e/f", 0o600)?;
        tree.link("/e/f", "/e/g")?;
        tree.unlink("/e/g")?;
        tree.rename("/e/f", "/e/h")?;
        tree.rename2("/e/h", "/e/f", 0)?;
        tree.unlink("/e/f")?;
        tree.rmdir("/e")?;
        let instance = tree.inotify(QUEUE)?;
        let wd = tree.add_watch(instance, "/d", mask::CREATE)?;
        tree.rm_watch(instance, wd)?;
        tree.close(instance)?;
        Ok((counts, out[0], tree.list("/d")?))
    });
    assert_eq!(answers, ((5, 4), b'e', vec!["x".into()]));
    assert_eq!(schedule.changes[0].before, Some(19));
}

#[test]
fn a_shrunk_failure_is_of_the_same_kind() -> Result<(), Fault> {
    let script = "mkdir /d 755\nmkdir /e 755\n--\ncreate /d/a 644\ncreate /d/b 644\ncreate /d/c 644\nunlink /d/b\n";
    let consumer = |tree: &mut Tree| {
        let instance = tree.inotify(QUEUE)?;
        tree.add_watch(instance, "/d", mask::CREATE)?;
        while let Some(events) = tree.wait(instance)? {
            for event in events.iter().filter(|it| it.name == Some("b".as_ref())) {
                let path = format!("/d/{}", event.name.expect("it has one").to_string_lossy());
                assert!(tree.stat(path).is_ok(), "it is gone");
            }
        }
        Ok(())
    };
    let report = Explore::new(script, consumer, |_, _| Ok(()))?.queues(&[QUEUE]).seeds(0..SEEDS)?;
    let failure = report.failure().expect("it is found");
    assert_eq!((failure.part, failure.message.as_str()), (Part::Consumer, "it is gone"));
    let lines: Vec<&str> = failure.schedule.changes.iter().map(|it| it.line.as_str()).collect();
    assert_eq!((failure.schedule.setup.len(), lines), (1, vec!["create /d/b 644", "unlink /d/b"]));
    assert_eq!((failure.schedule.reads.len(), failure.schedule.queue), (0, QUEUE));
    assert!(failure.found.changes.len() == 4 && report.runs > failure.seed.expect("a seed"));
    Ok(())
}

#[test]
fn what_is_refused() -> Result<(), Fault> {
    let faults = [
        ("mkdir /d 755\n", "a line `--`"),
        ("mkdir /d/e 755\n--\n", "is refused: err ENOENT"),
        ("--\nnothing\n", "\"nothing\" is not a line"),
        ("nothing\n--\n", "\"nothing\" is not a line"),
    ];
    // (a change may be refused)
    assert!(Explore::new("mkdir /d 755\n--\nmkdir /d 755\n", small, |_, _| Ok(())).is_ok());
    for (script, text) in faults {
        let fault = Explore::new(script, small, |_, _| Ok(())).err().expect(script);
        assert!(fault.to_string().contains(text), "{fault}");
    }
    let silent = Explore::new(SMALL, |_| Ok(()), |_, ()| Ok(()))?;
    assert!(silent.seeds(0..3).expect_err("nothing was read").to_string().contains("no read returned a record"));
    let endless = |tree: &mut Tree| loop {
        tree.stat("/d")?;
    };
    let report = Explore::<()>::new(SMALL, endless, |_, _| Ok(()))?.max_requests(50).seeds(0..3)?;
    assert!(report.failure().expect("it does not end").message.contains("too many requests"));
    let polls = |tree: &mut Tree| -> Result<(), Error> {
        let instance = tree.inotify(QUEUE)?;
        loop {
            drop(tree.read(instance, 64));
        }
    };
    let report = Explore::new(SMALL, polls, |_, _| Ok(()))?.max_requests(50).seeds(0..3)?;
    assert!(report.failure().expect("it does not end").message.contains("too many requests"));
    Ok(())
}

#[test]
#[should_panic(expected = "not deterministic")]
fn a_consumer_that_is_not_deterministic() {
    let calls = Cell::new(0);
    let consumer = |tree: &mut Tree| {
        calls.set(calls.get() + 1);
        if calls.get() == 3 {
            return Err(Error(5));
        }
        small(tree)
    };
    let _ = Explore::new(SMALL, consumer, |_, _| Ok(())).expect("a script").seeds(0..9);
}
