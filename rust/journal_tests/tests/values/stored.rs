//! Images in store, of which tests/images.py says more: each is read as what was listed of it then.
use crate::{read, reads_as};
use journal_tests::call::Call::Strip;
use journal_tests::memory::Lent;
use journal_tests::model::block::{BLOCK, PAYLOAD};
use journal_tests::model::entries;
use journal_tests::model::writing::Entry;
use journal_tests::tally::Tally;
use std::fs;

const FOLDER: &str = concat!(env!("CARGO_MANIFEST_DIR"), "/../../tests/stored");

/// Some bytes as the lister prints them.
fn printed(s: &[u8]) -> String {
    if s.is_empty() {
        return "-".into();
    }
    s.iter().map(|byte| format!("{byte:02x}")).collect()
}

#[test]
fn images_in_store() {
    let mut tally = Tally::default();
    let paths = fs::read_dir(FOLDER).unwrap().map(|file| file.unwrap().path());
    for path in paths.filter(|path| path.extension().is_some_and(|kind| kind == "image")) {
        let image = fs::read(&path).unwrap();
        let room = image.len() / BLOCK * PAYLOAD;
        let (code, Lent { written: payload, .. }) =
            read(&mut tally, Strip, &[], [&image, &[]], room);
        assert_eq!(code, 0);
        let list = entries::range(&payload).unwrap();
        let line = |Entry { is_clone, first, second }: &Entry| {
            let kind = if *is_clone { 'C' } else { 'I' };
            format!("{kind} {} {}\n", printed(first), printed(second))
        };
        let lines = list.iter().map(line).collect::<String>();
        let listing = fs::read_to_string(path.with_extension("listing")).unwrap();
        let wanted = listing.replace("\n ", "");
        assert_eq!(format!("entries {}\n{lines}", list.len()), wanted, "{path:?}");
        reads_as(&mut tally, &payload, &list);
    }
    tally.ends(&[0, 8], 200);
}
