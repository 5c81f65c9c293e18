//! One thread changes a tree, another reads what happened: the calls of listen.c from Rust.
use std::thread;
use watchtree::{mask, SharedTree};

fn main() -> Result<(), watchtree::Error> {
    let tree = SharedTree::open()?;
    tree.mkdir("/d", 0o755)?;
    let instance = tree.inotify(16384)?;
    instance.add_watch("/d", mask::CREATE | mask::DELETE | mask::MOVE | mask::DELETE_SELF)?;

    let writer = thread::spawn(move || {
        tree.create("/d/f", 0o644)?;
        tree.rename("/d/f", "/d/g")?;
        tree.unlink("/d/g")?;
        tree.rmdir("/d")
    });
    'reading: loop {
        for event in &instance.read(4096)? {
            let name = event.name.map_or("-".into(), |name| name.to_string_lossy());
            println!("mask {:#x} name {}", event.mask, name);
            if event.mask & mask::IGNORED != 0 {
                break 'reading;
            }
        }
    }
    writer.join().expect("the writer ends")
}
