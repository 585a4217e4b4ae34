//! The replica's calls: on a table of few rows, of very many and of the largest.
use crate::calls::{filled, lent, record, row, Call, Row};
use journal_tests::model::replica::{table, weight, Map};
use journal_tests::model::writing::Entry;
use nungakes_replica::raw;

/// A table with room for some steps, which change it and are made again.
struct Table {
    what: &'static str,
    rows: [u64; 1],
    table: Vec<u8>,
    work: Vec<u8>,
}

impl Table {
    fn new(what: &'static str, map: Map) -> Self {
        let table = table(&map, 2 * weight(&map) + 20_000);
        Table { what, rows: [map.len() as u64], work: vec![7; table.len()], table }
    }

    fn call(&mut self, record: Option<[u64; nungakes::WORDS]>, read: &[&[u8]]) -> Call {
        let own = [filled(&mut self.rows), filled(&mut self.table), filled(&mut self.work)];
        let read: Vec<u64> = read.iter().flat_map(|s| lent(s)).collect();
        // of a replay, the bytes that are read stand before the table
        let others = if record.is_some() {
            [&read, own.as_flattened()].concat()
        } else {
            [own.as_flattened(), &read].concat()
        };
        Call { what: self.what.into(), record, others }
    }
}

fn tables() -> [Table; 3] {
    let few = [&b""[..], b"a", b"ab", b"b"].map(|key| (key.to_vec(), b"value".to_vec()));
    // half of them under "a", which a clone copies, and half under "b"
    let key = |k: usize| format!("{}{k}", ["a", "b"][k % 2]).into_bytes();
    let many = (0..300_000).map(|k| (key(k), vec![7]));
    let largest = (0..100).map(|k| (vec![k; 512], vec![k; 16_384]));
    [
        Table::new("four rows", few.into()),
        Table::new("300000 rows", many.collect()),
        Table::new("100 of the largest rows", largest.collect()),
    ]
}

pub fn each(measure: &mut dyn FnMut(Row)) {
    let tables = &mut tables();
    let mut answer = [0_u64; 2];
    let answer = filled(&mut answer);
    measure(row!(
        replica_insert,
        tables.iter_mut().map(|table| table.call(None, &[b"ab", &[7; 300]]))
    ));
    measure(row!(replica_clone, tables.iter_mut().map(|table| table.call(None, &[b"a", b"b"]))));
    let lookup = |table: &mut Table| {
        let [rows, own] = [filled(&mut table.rows), filled(&mut table.table)];
        let others = [rows, own, lent(b"ab"), answer].concat();
        Call { what: table.what.into(), record: None, others }
    };
    measure(row!(replica_lookup, tables.iter_mut().map(lookup)));
    for (what, is_clone) in [("an insert", false), ("a clone", true)] {
        let [first, second] = [b"a", b"b"].map(Vec::from);
        let entry = Entry { is_clone, first, second }.wire_form();
        let one = record(1, 0, &[(11, entry.len()), (12, 1)]);
        let replay = |table: &mut Table| {
            let call = table.call(one, &[&entry]);
            Call { what: format!("{what}, {}", call.what), ..call }
        };
        measure(row!(replica_replay, tables.iter_mut().map(replay)));
    }
}
