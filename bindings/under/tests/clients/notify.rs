//! Prints the events that the crate notify reports for a directory, recursively.
use notify::{RecommendedWatcher, RecursiveMode, Watcher};
use std::sync::mpsc::channel;

fn main() {
    let directory = std::env::args().nth(1).unwrap();
    let (sender, events) = channel();
    let mut watcher = RecommendedWatcher::new(sender, notify::Config::default()).unwrap();
    watcher.watch(directory.as_ref(), RecursiveMode::Recursive).unwrap();
    for event in events {
        let event = event.unwrap();
        println!("{:?} {:?}", event.kind, event.paths);
    }
}
