//! Keeps a tag for each file, and loses it if the two records of a rename come in two reads.
use std::collections::{BTreeMap, HashMap};
use watchtree::explore::{Explore, Fault, Tree};
use watchtree::{mask, Error, QUEUE};

pub const SCRIPT: &str = "\
mkdir /d 755
create /d/a 644
create /d/b 644
--
rename /d/a /d/c
rename /d/b /d/a
rename /d/c /d/b
";

/// The tag of each name; none if it was lost.
pub type Tags = BTreeMap<String, Option<String>>;

/// Lists the directory until nothing happened in it meanwhile.
fn list(tree: &mut Tree, instance: watchtree::Instance) -> Result<Tags, Error> {
    loop {
        let names = tree.list("/d")?;
        match tree.read(instance, 65536) {
            Err(Error::AGAIN) => {
                let names = names.into_iter().map(|name| name.to_string_lossy().into_owned());
                return Ok(names.map(|name| (name.clone(), Some(name))).collect());
            }
            events => drop(events?),
        }
    }
}

fn follow(tree: &mut Tree, is_kept: bool) -> Result<Tags, Error> {
    let instance = tree.inotify(QUEUE)?;
    tree.add_watch(instance, "/d", mask::MOVE)?;
    let mut tags = list(tree, instance)?;
    let mut moving = HashMap::new();
    while let Some(events) = tree.wait(instance)? {
        for event in &events {
            let name = event.name.expect("it has a name").to_string_lossy().into_owned();
            if event.mask & mask::MOVED_FROM != 0 {
                moving.insert(event.cookie, tags.remove(&name).flatten());
            } else {
                tags.insert(name, moving.remove(&event.cookie).flatten());
            }
        }
        if !is_kept {
            moving.clear(); // it takes what has no second record in this read for moved away
        }
    }
    Ok(tags)
}

pub fn naive(tree: &mut Tree) -> Result<Tags, Error> {
    follow(tree, false)
}

/// Keeps the first record of a rename until the next read.
pub fn corrected(tree: &mut Tree) -> Result<Tags, Error> {
    follow(tree, true)
}

pub fn check(tree: &mut watchtree::Tree, tags: &Tags) -> Result<(), String> {
    assert!(tree.peek_list("/d").expect("it is there").iter().eq(tags.keys().map(String::as_str)));
    let lost: Vec<_> = tags.iter().filter(|it| it.1.is_none()).map(|it| it.0).collect();
    if lost.is_empty() {
        Ok(())
    } else {
        Err(format!("lost the tags of {lost:?}"))
    }
}

#[allow(dead_code)]
fn main() -> Result<(), Fault> {
    let report = Explore::new(SCRIPT, naive, check)?.queues(&[QUEUE]).seeds(0..200)?;
    println!("{}", report.failure().expect("a seed finds it"));
    Ok(())
}
