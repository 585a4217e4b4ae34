//! The safe functions: what they give, change and refuse.
use journal_tests::model::replica::table;
use journal_tests::model::writing::{self, Entry};
use nungakes::{Journal, Refusal, BLOCK, PAYLOAD};
use nungakes_replica as replica;

#[test]
fn steps_and_lookups() {
    let (mut rows, mut own, mut work) = (0, [0; 40], [7; 40]);
    assert_eq!(replica::insert(&mut rows, &mut own, &mut work, b"b", b"xy"), Ok(()));
    assert_eq!((rows, work), (1, [0; 40]));
    assert_eq!(replica::clone(&mut rows, &mut own, &mut work, b"", b"a"), Ok(()));
    assert_eq!(rows, 2);
    assert_eq!(own[..], table(&crate::map(&[(b"ab", b"xy"), (b"b", b"xy")]), 40));
    assert_eq!(replica::lookup(rows, &own, b"ab"), Ok(&own[10..12]));
    assert_eq!(replica::lookup(rows, &own, b"a"), Err(Refusal::NothingThere));
    assert_eq!(replica::lookup(rows, &own, &[7; 600]), Err(Refusal::NothingThere));
    assert_eq!(replica::lookup(rows + 1, &own, b"ab"), Err(Refusal::CountsDisagree));

    let before = own;
    let mut insert =
        |key: &[u8], value: &[u8]| replica::insert(&mut rows, &mut own, &mut work, key, value);
    assert_eq!(insert(&[7; 513], b""), Err(Refusal::FirstTooLong));
    assert_eq!(insert(b"", &[7; 16_385]), Err(Refusal::SecondTooLong));
    assert_eq!(insert(b"", &[7; 100]), Err(Refusal::TableFull));
    let mut clone =
        |from: &[u8], to: &[u8]| replica::clone(&mut rows, &mut own, &mut work, from, to);
    assert_eq!(clone(b"ab", &[7; 513]), Err(Refusal::SecondTooLong));
    assert_eq!(clone(b"", &[7; 512]), Err(Refusal::KeyTooLong));
    assert_eq!(clone(b"", b"cc"), Err(Refusal::TableFull));
    assert_eq!((rows, own, work), (2, before, [0; 40]));
    assert_eq!(
        replica::clone(&mut rows, &mut own, &mut work[1..], b"", b""),
        Err(Refusal::CountsDisagree)
    );
}

#[test]
fn replays() {
    let entry = Entry { is_clone: false, first: b"key".into(), second: b"value".into() };
    let image = writing::image(&writing::batch(&[entry], 0));
    assert_eq!(image.len(), BLOCK);
    let mut journal = Journal::open(1, 0).unwrap();
    let [mut payload, mut front, mut entries] = [[0; PAYLOAD]; 3];
    nungakes::strip(&image, &mut payload).unwrap();
    journal.set_front(&payload, &mut front).unwrap();
    journal.load(&front, &[], &mut entries).unwrap();
    let (mut rows, mut own, mut work) = (0, [0; 40], [7; 40]);
    let before = journal.clone();
    let short = replica::replay(&mut journal, &entries, &mut rows, &mut own[..15], &mut work[..15]);
    assert_eq!(short, Err(Refusal::TableFull));
    assert_eq!(journal, before);
    assert_eq!(replica::replay(&mut journal, &entries, &mut rows, &mut own, &mut work), Ok(()));
    assert_eq!(replica::lookup(rows, &own, b"key"), Ok(&b"value"[..]));
    let nothing = replica::replay(&mut journal, &entries, &mut rows, &mut own, &mut work);
    assert_eq!(nothing, Err(Refusal::NothingThere));
    journal.words_mut()[0] = 0;
    let damaged = replica::replay(&mut journal, &entries, &mut rows, &mut own, &mut work);
    assert_eq!(damaged, Err(Refusal::CountsDisagree));
}
