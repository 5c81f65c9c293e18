//! Scripts in files and recordings, shards, and reports.
#[path = "../examples/naive_recursive.rs"]
mod naive_recursive;

use std::collections::BTreeSet;
use std::ffi::OsString;
use std::io::Write;
use std::path::{Path, PathBuf};
use std::process::{Command, Stdio};
use watchtree::explore::{Explore, Fault, Report, Schedule, Tree};
use watchtree::{mask, Error, QUEUE};

use naive_recursive::{check, corrected, naive, SCRIPT};

const RECORDING: &str = concat!(env!("CARGO_MANIFEST_DIR"), "/../python/save.recording");

/// Believes each name of which it got an event, and loses what was there before its watch.
fn names(tree: &mut Tree) -> Result<BTreeSet<OsString>, Error> {
    let instance = tree.inotify(QUEUE)?;
    tree.add_watch(instance, "/d", mask::CREATE | mask::MOVED_TO | mask::DELETE | mask::MOVED_FROM)?;
    let mut known = BTreeSet::new();
    while let Some(events) = tree.wait(instance)? {
        for event in &events {
            let name = event.name.unwrap_or_default().to_os_string();
            if event.mask & (mask::CREATE | mask::MOVED_TO) != 0 {
                known.insert(name);
            } else {
                known.remove(&name);
            }
        }
    }
    Ok(known)
}

fn check_names(tree: &mut watchtree::Tree, known: &BTreeSet<OsString>) -> Result<(), String> {
    let there: BTreeSet<OsString> = tree.peek_list("/d").unwrap_or_default().into_iter().collect();
    if *known == there {
        Ok(())
    } else {
        Err(format!("believes {known:?}, and there are {there:?}"))
    }
}

/// A file that is removed at the end of a test.
struct File(PathBuf);

impl File {
    fn new(name: &str, bytes: &[u8]) -> File {
        let path = std::env::temp_dir().join(format!("watchtree-{}-{name}", std::process::id()));
        std::fs::write(&path, bytes).expect("a file is written");
        File(path)
    }
}

impl Drop for File {
    fn drop(&mut self) {
        std::fs::remove_file(&self.0).expect("it is there");
    }
}

#[test]
fn a_file_is_its_text() -> Result<(), Fault> {
    let file = File::new("script", &[b"# \xff a comment of any bytes\n", SCRIPT.as_bytes()].concat());
    let by_text = Explore::new(SCRIPT, naive, check)?.keep_going().seeds(0..60)?;
    let by_file = Explore::from_file(&file.0, naive, check)?.keep_going().seeds(0..60)?;
    assert_eq!(schedules(&by_file), schedules(&by_text));
    assert!(by_file.failures.len() > 5);
    assert_eq!((by_text.name.as_str(), Path::new(&by_file.name)), ("script", file.0.as_path()));
    Ok(())
}

#[test]
fn what_is_no_script() {
    let file = File::new("no-script", b"mkdir /d 755\n");
    for (path, why) in [(Path::new("/none/script"), "/none/script: "), (&file.0, "a line `--`")] {
        let fault = Explore::from_file(path, names, check_names).err().expect("it is none");
        assert!(fault.to_string().contains(why), "{fault}");
    }
}

#[test]
fn a_recording() -> Result<(), Fault> {
    let explore = Explore::from_file(RECORDING, names, check_names)?;
    for report in [explore.seeds(0..200)?, explore.moves(1)?] {
        let failure = report.failure().expect("it is found");
        assert!(failure.schedule.changes.len() <= 3, "{failure}");
    }
    let text = std::fs::read_to_string(RECORDING).expect("it is there");
    assert!(explore.replay(&Schedule::parse(&text)?).is_none());
    Ok(())
}

fn schedules(report: &Report) -> Vec<(Option<u64>, String)> {
    report.failures.iter().map(|it| (it.seed, it.found.to_string())).collect()
}

/// The shards of a search, whose every run fails, have the runs of the whole, each once.
fn are_the_whole(
    count: usize,
    run: impl Fn(&Explore<'_, BTreeSet<String>>) -> Result<Report, Fault>,
) -> Result<Vec<Report>, Fault> {
    let explore = || Ok(Explore::new(SCRIPT, naive, |_, _| Err("always".into()))?.queues(&[QUEUE]).keep_going());
    let parts = (1..=count).map(|number| run(&explore()?.shard(number, count))).collect::<Result<Vec<_>, Fault>>()?;
    let mut found: Vec<_> = parts.iter().flat_map(schedules).collect();
    let mut whole = schedules(&run(&explore()?)?);
    found.sort();
    whole.sort();
    assert_eq!(found, whole);
    assert_eq!(parts.iter().map(|it| it.runs).sum::<u64>(), whole.len() as u64);
    Ok(parts)
}

#[test]
fn shards_of_seeds() -> Result<(), Fault> {
    for count in [1, 3, 4] {
        let parts = are_the_whole(count, |it| it.seeds(5..21))?;
        let last: Vec<u64> = parts[count - 1].failures.iter().filter_map(|it| it.seed).collect();
        assert_eq!(last, (5..21).skip(count - 1).step_by(count).collect::<Vec<u64>>());
    }
    Ok(())
}

#[test]
fn shards_of_moves() -> Result<(), Fault> {
    for count in [1, 2, 5] {
        let parts = are_the_whole(count, |it| it.moves(1))?;
        let at_rest = |it: &&Report| it.failures.iter().any(|it| it.found.changes.iter().all(|it| it.before.is_none()));
        assert_eq!(parts.iter().filter(at_rest).count(), 1);
        assert!(parts.iter().all(|it| it.runs > 1));
    }
    are_the_whole(3, |it| it.moves(2)).map(drop)
}

#[test]
#[should_panic(expected = "a shard is one from 1 of 4 on, not 5")]
fn what_is_no_shard() {
    drop(Explore::new(SCRIPT, naive, check).expect("a script").shard(5, 4));
}

/// Runs a program over a text, and returns what it prints. None if there is no such program.
fn filtered(program: &str, words: &[&str], text: &str) -> Option<String> {
    let mut child = Command::new(program).args(words).stdin(Stdio::piped()).stdout(Stdio::piped()).spawn().ok()?;
    child.stdin.take().expect("a pipe").write_all(text.as_bytes()).expect("it reads");
    let said = child.wait_with_output().expect("it ends");
    assert!(said.status.success(), "{program} does not read {text}");
    Some(String::from_utf8(said.stdout).expect("it is UTF-8").trim_end().to_string())
}

/// A report with texts that XML and JSON cannot have as they are.
fn report() -> Result<Report, Fault> {
    let check = |_: &mut watchtree::Tree, it: &BTreeSet<String>| match it.len() {
        7 => Ok(()),
        _ => Err("<&\"]]>\\ \x1b[1m\u{fffe}\u{e9}\n".into()),
    };
    let report = Explore::new(SCRIPT, naive, check)?.queues(&[QUEUE]).keep_going().seeds(0..40)?;
    assert!(report.failures.len() > 3 && report.runs > report.failures.len() as u64);
    Ok(report)
}

#[test]
fn a_report_in_junit() -> Result<(), Fault> {
    let (report, failed) = (report()?, report()?.failures.len());
    let text = report.junit();
    for (path, wanted) in [
        ("string(/testsuites/@tests)", (failed + 1).to_string()),
        ("count(//testcase[failure])", failed.to_string()),
        ("string(//testcase[not(failure)]/@name)", format!("{} schedules that pass", 40 - failed)),
        ("string(//testcase[1]/@name)", format!("seed {}", report.failures[0].seed.expect("a seed"))),
        ("string(//failure[1]/@message)", "the check failed: <&\"]]>\\ \\x1b[1m\\xfffe\u{e9}".into()),
    ] {
        match filtered("xmllint", &["--nonet", "--xpath", path, "-"], &text) {
            Some(found) => assert_eq!(found, wanted, "{path}"),
            None => println!("skipped: there is no xmllint (libxml2-utils)"),
        }
    }
    if let Some(found) = filtered("xmllint", &["--nonet", "--xpath", "string(//failure[1])", "-"], &text) {
        assert!(found.contains(report.failures[0].schedule.to_string().trim_end()), "{found}");
    }
    Ok(())
}

#[test]
fn a_report_in_json() -> Result<(), Fault> {
    let report = report()?;
    let program = "import json, sys; it = json.load(sys.stdin); print(it['runs'], it['failed'], it['reads'], \
                   len(it['failures']), it['failures'][0]['seed'], it['failures'][0]['where'], \
                   ascii(it['failures'][0]['message'])); print(it['failures'][0]['schedule'], end='')";
    let first = &report.failures[0];
    let head = format!("40 {0} {1} {0} {2} check", report.failures.len(), report.reads, first.seed.expect("a seed"));
    let message = "'<&\"]]>\\\\ \\\\x1b[1m\\\\xfffe\\xe9\\n'";
    match filtered("python3", &["-c", program], &report.json()) {
        Some(found) => assert_eq!(found, format!("{head} {message}\n{}", first.schedule).trim_end()),
        None => println!("skipped: there is no python3"),
    }
    Ok(())
}

#[test]
fn a_report_without_a_failure() -> Result<(), Fault> {
    let report = Explore::new(SCRIPT, corrected, check)?.queues(&[QUEUE]).seeds(0..20)?;
    assert!(report.junit().contains("tests=\"1\" failures=\"0\" errors=\"0\""), "{}", report.junit());
    assert!(report.json().contains("\"failures\": []"), "{}", report.json());
    Ok(())
}
