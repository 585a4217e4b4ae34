//! The order of the tests of the calls on the unit's card.
use crate::order::{no_answer, nothing_written, read_long, read_short, written_short, Fault};
use crate::{weighing, Case, Table};
use journal_tests::call::{Call, Call::*};
use journal_tests::memory::Lent;
use journal_tests::model::block::{BLOCK, PAYLOAD};
use journal_tests::model::card::block_0;
use journal_tests::model::writing;

pub fn run(table: &mut Table) {
    for part in [formatting, finding, storing, releasing, without_an_answer, with_no_store_left] {
        part(table);
    }
}

/// The image of a batch of two blocks.
fn image() -> Vec<u8> {
    writing::image(&writing::batch(&[1_500, 1_500, 1_500, 16].map(weighing), 0))
}

/// A region of four blocks, of which 3 and 0 are live.
fn card() -> Vec<u8> {
    let image = image();
    let (first, second) = image.split_at(BLOCK);
    [&block_0(3, 2), &[9; BLOCK][..], second, &[9; 2 * BLOCK], first].concat()
}

fn changing(call: Call) -> Case {
    let lent = Lent { written: card(), answer: vec![7; 2], ..Lent::default() };
    Case { call, lent }
}

fn storing_two(made: u64) -> Case {
    let mut case = changing(CardStore { n: 4, made });
    case.lent.read[0] = image();
    case
}

fn finding_two() -> Case {
    let lent = Lent {
        read: [card(), vec![]],
        written: vec![7; 2 * PAYLOAD],
        answer: vec![7; 2],
        ..Lent::default()
    };
    Case { call: CardFind { n: 4 }, lent }
}

fn sized(case: &mut Case, other: u64) {
    match &mut case.call {
        CardFormat { n } | CardFind { n } | CardStore { n, .. } | CardRelease { n } => *n = other,
        call => panic!("{call:?}"),
    }
}

const OUT_OF_RANGE: [Fault; 3] =
    [|case| sized(case, 0), |case| sized(case, 1_025), |case| sized(case, u64::MAX)];

/// The bytes of the card that a call is lent.
fn of_card(case: &mut Case) -> &mut Vec<u8> {
    match case.call {
        CardFind { .. } => &mut case.lent.read[0],
        _ => &mut case.lent.written,
    }
}

fn interval(case: &mut Case, start: u32, len: u32) {
    of_card(case)[..BLOCK].copy_from_slice(&block_0(start, len));
}

const ANOTHER_LENGTH: [Fault; 5] = [
    |case| of_card(case).truncate(6 * BLOCK - 1),
    |case| of_card(case).push(0),
    |case| of_card(case).truncate(5 * BLOCK),
    |case| of_card(case).clear(),
    |case| sized(case, 5),
];

/// The checksum, a byte that is not zero, and intervals that are not valid.
const UNFORMED: [Fault; 4] = [
    |case| of_card(case)[0] ^= 1,
    |case| of_card(case)[BLOCK - 1] = 1,
    |case| interval(case, 4, 0),
    |case| interval(case, 0, 5),
];

fn formatting(table: &mut Table) {
    let base = changing(CardFormat { n: 4 });
    table.in_order(base.clone(), &[(18, &ANOTHER_LENGTH), (1, &OUT_OF_RANGE)]);
    for fault in UNFORMED {
        let mut case = base.clone();
        fault(&mut case);
        assert!(table.accepted(&case).written[..BLOCK] == block_0(0, 0));
    }
}

/// What any call is refused for, but formatting.
fn unformed() -> Vec<Fault> {
    [&UNFORMED[..], &ANOTHER_LENGTH].concat()
}

/// Block 0, the second of the live ones.
const FLIPPED: [Fault; 2] =
    [|case| of_card(case)[2 * BLOCK] ^= 1, |case| of_card(case)[3 * BLOCK - 1] ^= 1];

fn finding(table: &mut Table) {
    table.in_order(
        finding_two(),
        &[
            (12 + 256, &FLIPPED),
            (9, &[written_short, nothing_written]),
            (18, &unformed()),
            (1, &OUT_OF_RANGE),
        ],
    );
}

/// Another word of a block that starts a batch, under its checksum.
fn resealed(block: &mut [u8], at: usize, byte: u8) {
    block[32 + at] = byte;
    let sealed = writing::image(&block[32..]);
    block.copy_from_slice(&sealed);
}

fn storing(table: &mut Table) {
    let unreadable: [Fault; 2] = [
        |case| resealed(&mut case.lent.read[0][..BLOCK], 4, 0),
        |case| resealed(&mut case.lent.read[0][..BLOCK], 9, 0x20),
    ];
    let flipped: [Fault; 2] =
        [|case| case.lent.read[0][BLOCK + 4] ^= 1, |case| case.lent.read[0][2 * BLOCK - 1] ^= 1];
    let no_room: [Fault; 2] = [|case| interval(case, 3, 3), |case| interval(case, 0, 4)];
    for made in 0..=2 {
        table.in_order(
            storing_two(made),
            &[
                (14, &unreadable),
                (12 + 256, &flipped),
                (11, &[read_short, read_long]),
                (19, &no_room),
                (9, &[|case| case.lent.answer.clear()]),
                (18, &unformed()),
                (1, &OUT_OF_RANGE),
            ],
        );
    }
}

fn releasing(table: &mut Table) {
    // block 3 is the first of the live ones
    let unreadable: [Fault; 2] = [
        |case| resealed(&mut of_card(case)[5 * BLOCK..], 4, 3),
        |case| resealed(&mut of_card(case)[5 * BLOCK..], 9, 0x20),
    ];
    table.in_order(
        changing(CardRelease { n: 4 }),
        &[
            (14, &unreadable),
            (12 + 256, &FLIPPED),
            (8, &[|case| interval(case, 3, 0), |case| interval(case, 0, 0)]),
            (9, &[|case| case.lent.answer.clear()]),
            (18, &unformed()),
            (1, &OUT_OF_RANGE),
        ],
    );
}

/// Finding tests its answer last, behind the blocks.
fn without_an_answer(table: &mut Table) {
    let mut base = finding_two();
    base.lent.answer.clear();
    table.refused(&base, 9);
    let faults: [(Fault, u64); 4] =
        [(FLIPPED[0], 12 + 256), (written_short, 9), (UNFORMED[0], 18), (OUT_OF_RANGE[0], 1)];
    for (fault, code) in faults {
        let mut case = base.clone();
        fault(&mut case);
        table.refused(&case, code);
    }
}

/// There is then room for any image, and an answer is needed even so.
fn with_no_store_left(table: &mut Table) {
    for made in [3, 4, u64::MAX] {
        let mut case = storing_two(made);
        interval(&mut case, 0, 4);
        assert_eq!(table.accepted(&case).answer, [0, 7]);
        no_answer(&mut case);
        assert_eq!(table.accepted(&case).answer, [0]);
        no_answer(&mut case);
        table.refused(&case, 9);
    }
    let mut case = changing(CardStore { n: 4, made: 0 });
    interval(&mut case, 0, 4);
    assert_eq!(table.accepted(&case).answer, [0, 7]);
}
