//! How many bytes of stack each exported call uses, at little and at very much. The return address and
//! the words passed on the stack are in the figure; what is reserved and never written is not.
//!
//! `stack` fails where a call of c/journal.h or c/replica.h is not measured. `stack --check` fails also where one uses
//! more than 2,048 bytes, or not the same at very much as at little.
mod calls;
mod depth;
mod replica;

use calls::{Call, Row};
use std::collections::BTreeSet;
use std::process::ExitCode;

const LIMIT: usize = 2_048;

/// The calls that the headers declare: their types start lines.
fn declared() -> BTreeSet<&'static str> {
    let [journal, replica] =
        [include_str!("../../../../../c/journal.h"), include_str!("../../../../../c/replica.h")];
    let lines = journal.lines().chain(replica.lines());
    let prototypes = lines.filter(|line| line.starts_with("uint"));
    let name = |line: &'static str| line.split('(').next()?.split(' ').next_back();
    prototypes.filter_map(name).collect()
}

/// Measures a row's calls: whether they are within the limit, and use the same, where there is a limit.
fn measured(Row { name, function, calls }: Row, limit: Option<usize>) -> bool {
    let mut within = true;
    let mut figures = BTreeSet::new();
    for Call { what, record, others } in calls {
        let mut words = record;
        let (bytes, answer) = depth::used(function, || {
            words = record;
            let lent = words.iter_mut().flat_map(|words| calls::filled(words));
            lent.chain(others.iter().copied()).collect()
        });
        assert!(answer == 0 || name == "journal_crc32c", "{name} of {what} gives {answer}");
        println!("stack: {bytes:5} bytes, {name} of {what}");
        if limit.is_some_and(|limit| bytes > limit) {
            println!("stack: more than {LIMIT}");
            within = false;
        }
        figures.insert(bytes);
    }
    if limit.is_some() && figures.len() > 1 {
        println!("stack: {name} differs with the size");
        within = false;
    }
    within
}

fn main() -> ExitCode {
    let words: Vec<String> = std::env::args().skip(1).collect();
    let limit = match words.iter().map(String::as_str).collect::<Vec<_>>()[..] {
        [] => None,
        ["--check"] => Some(LIMIT),
        _ => panic!("usage: stack [--check]"),
    };
    depth::check_itself();
    let mut unmeasured = declared();
    assert!(!unmeasured.is_empty(), "the headers declare nothing");
    let mut within = true;
    let mut measure = |row: Row| {
        unmeasured.remove(row.name);
        within &= measured(row, limit);
    };
    calls::each(&mut measure);
    replica::each(&mut measure);
    for name in &unmeasured {
        println!("stack: {name} is not measured");
    }
    ExitCode::from(u8::from(!within || !unmeasured.is_empty()))
}
