//! Calls whose work is the same whatever the journal holds.
use crate::{mixed, record, timed, Case, Timed, Way, Words};
use journal_tests::model::plain;
use nungakes::calls;
use std::cell::RefCell;
use std::hint::black_box;

/// The records of a round: a call is made of each.
const RECORDS: usize = 2_000;

pub struct Small {
    records: RefCell<Vec<Words>>,
}

type Work = fn(&mut Words, &mut [u64]) -> u64;

impl Small {
    pub fn new() -> Self {
        Small { records: RefCell::new(vec![record(0, &[]); RECORDS]) }
    }

    fn round(&self, before: Words, work: Work) -> Timed {
        let records = &mut *self.records.borrow_mut();
        records.fill(before);
        let mut answer = [0];
        let timed = timed(|| {
            let records = black_box(&mut *records).iter_mut();
            records.map(|words| work(words, &mut answer)).sum()
        });
        timed.and(mixed(records)).and(answer[0])
    }

    fn case(&self, name: &str, before: Words, rattle: Work, rust: Work) -> Case<'_> {
        Case {
            name: name.into(),
            calls: RECORDS,
            bytes: size_of::<Words>() * RECORDS,
            often: 20,
            ways: vec![
                Way::new("rattle", move || self.round(before, rattle)),
                Way::new("rust", move || self.round(before, rust)),
            ],
        }
    }

    pub fn cases(&self) -> Vec<Case<'_>> {
        let lists = [(3, 100), (4, 3), (5, 300), (6, 5), (7, 10_000), (8, 7), (9, 9), (17, 4)];
        // of what is frozen, the last freeze moved two entries
        let last = [(18, 2), (19, 200), (20, 4)];
        let pending = record(1 << 20, &[&lists[..], &last].concat());
        let empty = record(1 << 20, &[(8, 7)]);
        let case = |name, before, rattle, rust| self.case(name, before, rattle, rust);
        macro_rules! query {
            ($name:literal, $of:ident) => {
                case($name, pending, |w, a| calls::$of(w, a), |w, a| plain::$of(w, a))
            };
        }
        vec![
            case("open", empty, |w, _| calls::open(w, 9, 99), |w, _| plain::open(w, 9, 99)),
            case("freeze", pending, |w, _| calls::freeze(w), |w, _| plain::freeze(w)),
            case("thaw", pending, |w, _| calls::thaw(w), |w, _| plain::thaw(w)),
            case(
                "set written",
                empty,
                |w, _| calls::set_written(w, 5),
                |w, _| plain::set_written(w, 5),
            ),
            case(
                "update written",
                pending,
                |w, _| calls::update_written(w, 5),
                |w, _| plain::update_written(w, 5),
            ),
            query!("has frozen", has_frozen),
            query!("has in memory", has_in_memory),
            query!("get written", get_written),
            query!("waiting clones", waiting_clones),
            query!("replay empty", is_replay_empty),
            query!("has front", has_front),
            query!("has back", has_back),
        ]
    }
}
