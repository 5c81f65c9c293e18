//! What the crate notify says of a directory, recursively, as `+ PATH` and `- PATH`: notify-rs DIRECTORY
use notify::event::{EventKind, ModifyKind, RenameMode};
use notify::{RecommendedWatcher, RecursiveMode, Watcher};
use std::sync::mpsc::channel;

fn main() {
    let directory = std::env::args().nth(1).unwrap();
    let (sender, events) = channel();
    let mut watcher = RecommendedWatcher::new(sender, notify::Config::default()).unwrap();
    watcher.watch(directory.as_ref(), RecursiveMode::Recursive).unwrap();
    for event in events {
        let event = event.unwrap();
        let sign = match event.kind {
            EventKind::Create(_) | EventKind::Modify(ModifyKind::Name(RenameMode::To)) => "+",
            EventKind::Remove(_) | EventKind::Modify(ModifyKind::Name(RenameMode::From)) => "-",
            _ => continue,
        };
        println!("{} {}", sign, event.paths[0].display());
    }
}
