//! Prints the events that the crate inotify reports for a directory.
use inotify::{Inotify, WatchMask};

fn main() {
    let directory = std::env::args().nth(1).unwrap();
    let mut inotify = Inotify::init().unwrap();
    inotify.add_watch(directory, WatchMask::ALL_EVENTS).unwrap();
    let mut buffer = [0; 4096];
    loop {
        for event in inotify.read_events_blocking(&mut buffer).unwrap() {
            println!("{:?} {:?}", event.mask, event.name);
        }
    }
}
