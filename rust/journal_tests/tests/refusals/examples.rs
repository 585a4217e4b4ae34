//! The example in each row of the table, and the document's two cases that need whole calls.
use crate::{smallest, weighing, Case, Table};
use journal_tests::call::{Call, Call::*};
use journal_tests::memory::Lent;
use journal_tests::model::block::BLOCK;
use journal_tests::model::record::WORDS;
use journal_tests::model::writing::{self, Entry};

pub fn run(table: &mut Table) {
    examples(table);
    a_full_region(table);
    the_largest_entry(table);
    two_freezes(table);
    one_taken_back(table);
    waiting_clones(table);
}

/// What a call does to a record, where it is lent these bytes.
struct Session<'a> {
    table: &'a mut Table,
    words: Vec<u64>,
    ring: Vec<u8>,
}

impl<'a> Session<'a> {
    fn open(table: &'a mut Table, n: u64, r: u64) -> Self {
        let words = vec![7; WORDS];
        let lent = Lent { words, ..Lent::default() };
        let Lent { words, .. } = table.accepted(&Case { call: Open { n, r }, lent });
        Session { table, words, ring: vec![0xA5; r as usize] }
    }

    /// What the call gives and, where it is accepted, leaves in the bytes that it writes.
    fn call(&mut self, call: Call, read: [&[u8]; 2], written: &[u8]) -> (u64, Vec<u8>) {
        let read = read.map(<[u8]>::to_vec);
        let lent =
            Lent { words: self.words.clone(), read, written: written.into(), answer: vec![] };
        let code = self.table.gives(&Case { call, lent });
        let Lent { words, written, .. } = self.table.memory.lent();
        self.words = words;
        (code, written)
    }

    /// What a call gives that is lent the record alone.
    fn alone(&mut self, call: Call) -> u64 {
        self.call(call, [&[]; 2], &[]).0
    }

    fn append(&mut self, Entry { is_clone, first, second }: &Entry) -> u64 {
        let call = if *is_clone { AppendClone } else { AppendInsert };
        let (code, ring) = self.call(call, [first, second], &self.ring.clone());
        self.ring = ring;
        code
    }

    fn waiting(&mut self) -> u64 {
        let lent = Lent { words: self.words.clone(), answer: vec![7], ..Lent::default() };
        self.table.accepted(&Case { call: WaitingClones, lent }).answer[0]
    }

    fn package(&mut self, call: Call, room: usize) -> u64 {
        self.call(call, [&self.ring.clone(), &[]], &vec![0xA5; room]).0
    }
}

/// The example in each row, and what is just within the limit.
fn examples(table: &mut Table) {
    table.refused(&Case { call: Open { n: 0, r: 0 }, lent: Lent::default() }, 1);
    let clone = |second| Entry { is_clone: true, first: vec![], second: vec![0; second] };
    let insert = |first| Entry { is_clone: false, first: vec![0; first], second: vec![] };

    let mut session = Session::open(table, 1, 10);
    assert_eq!(session.append(&weighing(11)), 6);
    assert_eq!(session.append(&weighing(10)), 0);

    let mut session = Session::open(table, 10, 40_640);
    assert_eq!([513, 512].map(|n| session.append(&insert(n))), [3, 0]);
    assert_eq!([513, 512].map(|n| session.append(&clone(n))), [4, 0]);
    assert_eq!([Thaw, Freeze, Thaw, Freeze].map(|call| session.alone(call)), [17, 0, 0, 0]);
    assert_eq!([insert(0), insert(1), smallest()].map(|entry| session.append(&entry)), [22, 0, 0]);
    assert_eq!(session.package(PackageInMemory, BLOCK), 7);
    let right = session.ring.clone();
    session.ring[1] = 0x20;
    assert_eq!(session.package(PackageFrozen, BLOCK), 15);
    session.ring = right;
    assert_eq!([4_095, 4_096].map(|n| session.package(PackageFrozen, n)), [9, 0]);
    assert_eq!([4_095, 4_096].map(|n| session.package(PackageInMemory, n)), [9, 0]);
    assert_eq!(session.alone(Pop), 8);
    assert_eq!([11, 10].map(|n| session.alone(SetWritten(n))), [10, 0]);
    session.words[8] = 11;
    assert_eq!([Freeze, Thaw].map(|call| session.alone(call)), [2, 2]);

    let mut payload = writing::batch(&[weighing(100)], 0);
    let mut image = writing::image(&payload);
    let mut session = Session::open(table, 10, 0);
    assert_eq!(session.call(Strip, [&[&image[..], &[0]].concat(), &[]], &[0; 4_096]).0, 11);
    image[100] ^= 1;
    assert_eq!(session.call(Strip, [&image, &[]], &[0; 4_096]).0, 12);
    let lent = [0; 4_064];
    assert_eq!(session.call(SetFront, [&payload[..4_063], &[]], &lent).0, 13);
    payload[4] = 0;
    assert_eq!(session.call(SetFront, [&payload, &[]], &lent).0, 0);
    assert_eq!(session.call(Load, [&payload, &[]], &lent).0, 14);
}

/// In a region of one block: 1544, 1544 and 968 fill it. Then any append is refused, as is 969 last.
fn a_full_region(table: &mut Table) {
    for last in [968, 969] {
        let mut session = Session::open(table, 1, 4_064);
        assert_eq!([1_544, 1_544].map(|n| session.append(&weighing(n))), [0, 0]);
        assert_eq!(session.append(&weighing(last)), if last == 968 { 0 } else { 5 });
        if last == 968 {
            assert_eq!(session.words[6..8], [3, 4_056]);
            assert_eq!(session.append(&smallest()), 5);
        }
    }
}

/// In a region of five blocks: a value of 16,385 bytes is refused, and the largest entry and 3408 fill it.
fn the_largest_entry(table: &mut Table) {
    let mut session = Session::open(table, 5, 20_320);
    let value = |n| Entry { is_clone: false, first: vec![0; 512], second: vec![0; n] };
    assert_eq!([16_385, 16_384].map(|n| session.append(&value(n))), [4, 0]);
    assert_eq!([3_409, 3_408].map(|n| session.append(&weighing(n))), [5, 0]);
    assert_eq!(session.append(&smallest()), 5);
    assert_eq!(session.words[6..8], [2, 20_312]);
}

/// Two entries of weight 16, frozen one by one: two blocks.
fn two_freezes(table: &mut Table) {
    let mut session = Session::open(table, 2, 32);
    for _ in 0..2 {
        assert_eq!(session.append(&weighing(16)), 0);
        assert_eq!(session.alone(Freeze), 0);
    }
    assert_eq!(session.words[4..10], [2, 32, 0, 0, 0, 2]);
    assert_eq!([8_191, 8_192].map(|n| session.package(PackageFrozen, n)), [9, 0]);
    assert_eq!(session.words[4..10], [0, 0, 0, 0, 2, 0]);
}

/// Of the same two, the last is taken back with its block, and then no freeze is remembered. A freeze of
/// nothing forgets none; what is packaged is forgotten.
fn one_taken_back(table: &mut Table) {
    let mut session = Session::open(table, 2, 48);
    assert_eq!([Freeze, Thaw].map(|call| session.alone(call)), [0, 17]);
    for _ in 0..2 {
        assert_eq!(session.append(&weighing(16)), 0);
        assert_eq!([Freeze, Freeze].map(|call| session.alone(call)), [0, 0]);
        assert_eq!(session.words[18..], [1, 16, 1]);
    }
    assert_eq!([Thaw, Thaw].map(|call| session.alone(call)), [0, 17]);
    assert_eq!(session.words[4..10], [1, 16, 1, 16, 0, 1]);
    assert_eq!(session.words[18..], [0; 3]);
    assert_eq!(session.append(&weighing(16)), 0);
    assert_eq!(session.alone(Freeze), 0);
    assert_eq!(session.words[4..10], [3, 48, 0, 0, 0, 2]);
    assert_eq!(session.words[18..], [2, 32, 1]);
    assert_eq!(session.package(PackageFrozen, 2 * BLOCK), 0);
    assert_eq!(session.words[18..], [0; 3]);
    assert_eq!(session.alone(Thaw), 17);
}

/// The total over both lists: clones alone count, a packaging takes off those of its list, and any ring
/// with another number of them is refused by both packagings.
fn waiting_clones(table: &mut Table) {
    let clone = Entry { is_clone: true, ..weighing(16) };
    let mut session = Session::open(table, 4, 200);
    assert_eq!(session.waiting(), 0);
    let totals = [weighing(16), clone.clone(), clone.clone()].map(|entry| {
        assert_eq!(session.append(&entry), 0);
        session.waiting()
    });
    assert_eq!(totals, [0, 1, 2]);
    assert_eq!(session.alone(Freeze), 0);
    assert_eq!(session.waiting(), 2);
    assert_eq!([&clone, &weighing(16)].map(|entry| session.append(entry)), [0, 0]);
    assert_eq!(session.append(&Entry { first: vec![0; 513], ..clone }), 3);
    assert_eq!(session.waiting(), 3);

    let right = session.ring.clone();
    for entry in 0..5 {
        session.ring[16 * entry + 1] ^= 0x10;
        assert_eq!(session.package(PackageFrozen, BLOCK), 15);
        session.ring.clone_from(&right);
    }
    assert_eq!(session.waiting(), 3);
    assert_eq!(session.package(PackageFrozen, BLOCK), 0);
    assert_eq!(session.waiting(), 1);
    for entry in 3..5 {
        session.ring[16 * entry + 1] ^= 0x10;
        assert_eq!(session.package(PackageInMemory, BLOCK), 15);
        session.ring.clone_from(&right);
    }
    assert_eq!(session.package(PackageInMemory, BLOCK), 0);
    assert_eq!(session.waiting(), 0);
}
