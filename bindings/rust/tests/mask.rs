//! A mask as a type: its constants are those of the module, it prints their names, and callers with a `u32` compile.
use watchtree::explore::Explore;
use watchtree::{mask, Error, Event, Mask, SharedTree, Tree, QUEUE};

/// The constants of the module by their names, as its source has them.
fn bits_of_the_module() -> Vec<(&'static str, u32)> {
    let mut found: Vec<(&str, u32)> = Vec::new();
    for line in include_str!("../src/mask.rs").lines() {
        let words = line.strip_prefix("pub const ").and_then(|it| it.split_once(": u32 = "));
        if let Some((name, value)) = words {
            let parts = value.trim_end_matches(';').split(" | ");
            let bit = |part: &str| match part.strip_prefix("0x") {
                Some(digits) => u32::from_str_radix(&digits.replace('_', ""), 16).expect("a number"),
                None => found.iter().find(|it| it.0 == part).expect("an earlier constant").1,
            };
            let bits = parts.map(bit).fold(0, |all, it| all | it);
            found.push((name, bits));
        }
    }
    found
}

#[test]
fn each_bit_is_printed_by_its_name() {
    let found = bits_of_the_module();
    let single: Vec<_> = found.iter().filter(|it| it.1.count_ones() == 1).collect();
    assert_eq!((found.len(), single.len()), (25, 22));
    for (name, bit) in single {
        assert_eq!(Mask(*bit).to_string(), *name);
    }
    let all = found.iter().fold(Mask::default(), |all, it| all | it.1);
    assert_eq!(all.to_string().split('|').count(), 22);
    assert_eq!((Mask::CLOSE.0, Mask::MOVE.0, Mask::ALL_EVENTS.0), (mask::CLOSE, mask::MOVE, mask::ALL_EVENTS));
    assert_eq!((Mask::CREATE.0, Mask::ONESHOT.0), (mask::CREATE, mask::ONESHOT));
}

#[test]
fn a_mask_is_printed() {
    let mask = Mask::ISDIR | Mask::CREATE;
    assert_eq!((mask.to_string(), format!("{mask:?}")), ("CREATE|ISDIR".into(), "Mask(CREATE|ISDIR)".into()));
    assert_eq!(Mask::MOVE.to_string(), "MOVED_FROM|MOVED_TO");
    assert_eq!(Mask::default().to_string(), "0x0");
    assert_eq!(Mask(0x31000).to_string(), "0x31000");
    assert_eq!(Mask(0x1100).to_string(), "CREATE|0x1000");
}

#[test]
fn a_mask_is_a_set() {
    let mut mask = Mask::CREATE | mask::DELETE;
    assert!(mask.contains(Mask::CREATE) && mask.contains(mask::DELETE) && mask.contains(mask) && mask.contains(0));
    assert!(!mask.contains(Mask::CREATE | Mask::ISDIR) && !mask.contains(Mask::MOVE));
    assert!(mask.intersects(Mask::CREATE | Mask::ISDIR) && !mask.intersects(Mask::MOVE) && !mask.intersects(0));
    mask |= Mask::ISDIR;
    mask |= mask::OPEN;
    assert_eq!(mask, Mask(0x4000_0320));
    assert_eq!((u32::from(mask), Mask::from(0x4000_0320)), (0x4000_0320, mask));
}

#[test]
fn each_function_takes_both() -> Result<(), Error> {
    let (mut tree, shared) = (Tree::open()?, SharedTree::open()?);
    let (instance, other) = (tree.inotify(QUEUE)?, shared.inotify(QUEUE)?);
    tree.add_watch(instance, "/", mask::CREATE)?;
    tree.add_watch(instance, "/", 0x100)?;
    tree.add_watch(instance, "/", Mask::CREATE)?;
    other.add_watch("/", mask::CREATE | mask::DELETE)?;
    other.add_watch("/", Mask::CREATE | Mask::DELETE)?;
    tree.mkdir("/d", 0o755)?;
    shared.mkdir("/d", 0o755)?;
    let (events, others) = (tree.read(instance, 4096)?, other.read(4096)?);
    assert_eq!(events, others);
    let event = events.iter().next().expect("an event");
    assert_eq!((event.mask, event.mask()), (mask::CREATE | mask::ISDIR, Mask::CREATE | Mask::ISDIR));
    let Event { mask: bits, .. } = event;
    assert!(bits & mask::ISDIR != 0);
    Ok(())
}

#[test]
fn a_timeline_prints_the_names() {
    let script = "mkdir /d 755\n--\nmkdir /d/e 755\n";
    let consumer = |tree: &mut watchtree::explore::Tree| {
        let instance = tree.inotify(QUEUE)?;
        tree.add_watch(instance, "/d", Mask::CREATE)?;
        tree.add_watch(instance, "/d", mask::CREATE)?;
        Ok(tree.wait(instance)?.is_some())
    };
    let check = |_: &mut Tree, &is_read: &bool| if is_read { Err("it read".into()) } else { Ok(()) };
    let report = Explore::new(script, consumer, check).and_then(|it| it.moves(0)).expect("a read");
    let timeline = &report.failure().expect("it fails").timeline;
    assert!(timeline.contains("add_watch 1 /d 0x100 = 1"), "{timeline}");
    assert!(timeline.contains("< wd 1 CREATE|ISDIR e\n"), "{timeline}");
}
