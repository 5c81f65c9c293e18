//! Each error has a constant: those that the library has a text for, those of watchtree.h, and two of the layer for
//! threads.
use std::collections::BTreeMap;
use watchtree::{Error, SharedTree, Tree};

/// Writes a table of constants by their names.
macro_rules! named {
    ($($name:ident)*) => { [$((stringify!($name), Error::$name)),*] };
}

fn constants() -> BTreeMap<&'static str, Error> {
    named! {
        EPERM ENOENT EBADF EAGAIN ENOMEM EBUSY EEXIST ENOTDIR EISDIR EINVAL ENFILE EMFILE EFBIG ENOSPC EMLINK
        ENAMETOOLONG ENOTEMPTY ESTALE JOURNAL_FULL COOKIES_SPENT NUMBERS_SPENT BAD_BYTE UNKNOWN_COMMAND WRONG_NUMBER
        BAD_ESCAPE BAD_MODE BAD_HEX BAD_MASK BAD_NUMBER
    }
    .into()
}

#[test]
fn each_text_of_an_errno_has_its_constant() {
    let mut found = BTreeMap::from([("ENFILE".to_string(), Error(23)), ("ESTALE".to_string(), Error(116))]);
    for error in (1..1000).map(Error) {
        match error.to_string().split_once(": ") {
            Some((name, _)) => drop(found.insert(name.to_string(), error)),
            None => assert_eq!(error.to_string(), format!("unknown error {}", error.0)),
        }
    }
    let ours = constants().into_iter().filter(|it| it.1 .0 < 1000);
    assert_eq!(ours.map(|(name, error)| (name.to_string(), error)).collect::<BTreeMap<_, _>>(), found);
}

#[test]
fn each_error_of_the_header_has_its_constant() {
    let header = include_str!("../../c/watchtree.h");
    let list = &header[header.find("enum {").expect("the header has a list")..];
    let list = &list[..list.find('}').expect("the list ends")];
    let words = list.split(|it: char| !(it.is_ascii_alphanumeric() || it == '_' || it == '='));
    let mut found = BTreeMap::new();
    let mut next = 0;
    let mut words = words.filter(|it| !it.is_empty()).peekable();
    while let Some(word) = words.next() {
        if let Some(name) = word.strip_prefix("WT_") {
            if words.next_if_eq(&"=").is_some() {
                next = words.next().and_then(|it| it.parse().ok()).expect("a number");
            }
            found.insert(name, Error(next));
            next += 1;
        }
    }
    let ours: BTreeMap<_, _> = constants().into_iter().filter(|it| it.1 .0 > 1000).collect();
    assert_eq!(ours, found);
    for (name, error) in ours {
        let text = error.to_string();
        let camel = text.split(':').next().expect("a name").to_uppercase();
        assert_eq!(camel, name.replace('_', ""), "{text}");
    }
}

#[test]
fn a_constant_is_a_pattern() -> Result<(), Error> {
    let (mut tree, shared) = (Tree::open()?, SharedTree::open()?);
    assert!(matches!(tree.stat("/f"), Err(Error::ENOENT)));
    assert!(matches!(shared.rmdir("/"), Err(Error::EBUSY)));
    assert_eq!((Error::AGAIN, Error::CLOSED), (Error::EAGAIN, Error::EBADF));
    Ok(())
}
