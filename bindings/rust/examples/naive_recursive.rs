//! A recursive watcher that misses what is made in a new directory before its watch is there.
use std::collections::{BTreeSet, HashMap};
use watchtree::explore::{Explore, Fault, Tree};
use watchtree::{mask, Error, Instance, QUEUE};

pub const SCRIPT: &str = "\
mkdir /d 755
--
mkdir /d/a 755
create /d/a/f 644
mkdir /d/a/b 755
create /d/a/b/g 644
create /d/h 644
mkdir /d/c 755
create /d/c/i 644
";

/// The paths that it has learnt of.
pub type Known = BTreeSet<String>;

struct Watcher<'t> {
    tree: &'t mut Tree,
    instance: Instance,
    folders: HashMap<i32, String>,
    known: Known,
}

impl Watcher<'_> {
    /// Watches a directory first, and then looks what is in it already.
    fn watch(&mut self, folder: &str, looks: bool) -> Result<(), Error> {
        let wd = self.tree.add_watch(self.instance, folder, mask::CREATE)?;
        self.folders.insert(wd, folder.into());
        if !looks {
            return Ok(());
        }
        for name in self.tree.list(folder)? {
            let path = format!("{folder}/{}", name.to_string_lossy());
            let is_directory = self.tree.stat(&path)?.is_directory;
            self.learn(path, is_directory, true)?;
        }
        Ok(())
    }

    fn learn(&mut self, path: String, is_directory: bool, looks: bool) -> Result<(), Error> {
        if is_directory {
            self.watch(&path, looks)?;
        }
        self.known.insert(path);
        Ok(())
    }
}

fn follow(tree: &mut Tree, looks_into_new: bool) -> Result<Known, Error> {
    let instance = tree.inotify(QUEUE)?;
    let mut watcher = Watcher { tree, instance, folders: HashMap::new(), known: Known::new() };
    watcher.watch("/d", true)?;
    while let Some(events) = watcher.tree.wait(instance)? {
        for event in &events {
            let name = event.name.expect("IN_CREATE has a name").to_string_lossy();
            let path = format!("{}/{name}", watcher.folders[&event.wd]);
            watcher.learn(path, event.mask & mask::ISDIR != 0, looks_into_new)?;
        }
    }
    Ok(watcher.known)
}

pub fn naive(tree: &mut Tree) -> Result<Known, Error> {
    follow(tree, false)
}

pub fn corrected(tree: &mut Tree) -> Result<Known, Error> {
    follow(tree, true)
}

/// Adds the descendants of a directory.
fn add_paths(tree: &mut watchtree::Tree, folder: &str, there: &mut Known) -> Result<(), Error> {
    for name in tree.peek_list(folder)? {
        let path = format!("{folder}/{}", name.to_string_lossy());
        if tree.peek_stat(&path)?.is_directory {
            add_paths(tree, &path, there)?;
        }
        there.insert(path);
    }
    Ok(())
}

pub fn check(tree: &mut watchtree::Tree, known: &Known) -> Result<(), String> {
    let mut there = Known::new();
    add_paths(tree, "/d", &mut there).expect("it is there");
    if *known == there {
        return Ok(());
    }
    Err(format!("missed {:?}", there.difference(known).collect::<Vec<_>>()))
}

#[allow(dead_code)]
fn main() -> Result<(), Fault> {
    // No queue overflows here: that is another bug.
    let report = Explore::new(SCRIPT, naive, check)?.queues(&[QUEUE]).seeds(0..200)?;
    println!("{}", report.failure().expect("a seed finds it"));
    Ok(())
}
