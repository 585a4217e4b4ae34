//! A call on the record or on a card, strip or range, as a value: it is made of the library, of the model or of
//! the plain Rust implementation.
use crate::memory::{Lent, Memory, Slices};
use crate::model::plain;
use nungakes::calls;

/// The model's calls by the library's names.
mod model {
    pub use crate::model::block::strip;
    pub use crate::model::card::{
        find as card_find, format as card_format, release as card_release, store as card_store,
    };
    pub use crate::model::journalist::*;
    pub use crate::model::reading::range;
}

#[derive(Clone, Copy, Debug, PartialEq, Eq, PartialOrd, Ord)]
pub enum Call {
    Open {
        n: u64,
        r: u64,
    },
    /// The ring is written, first and second bytes are read.
    AppendInsert,
    AppendClone,
    Freeze,
    Thaw,
    /// The ring is read, and the image is written.
    PackageFrozen,
    PackageInMemory,
    SetWritten(u64),
    UpdateWritten(u64),
    /// The image is read, and its payload is written.
    Strip,
    /// Front and back are read, and their totals are the answer.
    Range,
    /// The payload is read, and front or back is written.
    SetFront,
    SetBack,
    /// Front and back are read, and the replay is written.
    Load,
    /// The replay is read.
    Top,
    Pop,
    HasFrozen,
    HasInMemory,
    GetWritten,
    WaitingClones,
    IsReplayEmpty,
    HasFront,
    HasBack,
    /// The card is written.
    CardFormat {
        n: u64,
    },
    /// The card is read, and its live payload is written.
    CardFind {
        n: u64,
    },
    /// The image is read, and the card is written.
    CardStore {
        n: u64,
        made: u64,
    },
    /// The card is written.
    CardRelease {
        n: u64,
    },
}

use Call::*;

/// Those that take no number and do more than ask.
pub const NUMBERLESS: [Call; 12] = [
    AppendInsert,
    AppendClone,
    Freeze,
    Thaw,
    PackageFrozen,
    PackageInMemory,
    Strip,
    SetFront,
    SetBack,
    Load,
    Top,
    Pop,
];

/// Those that only ask.
pub const QUERIES: [Call; 7] =
    [HasFrozen, HasInMemory, GetWritten, WaitingClones, IsReplayEmpty, HasFront, HasBack];

/// Makes a call by the functions of a module.
macro_rules! made {
    ($call:expr, $lent:expr, $of:path) => {{
        use $of as of;
        let Slices { read: [a, b], written, words, answer } = $lent;
        match $call {
            Open { n, r } => of::open(words, n, r),
            AppendInsert => of::append_insert(words, written, a, b),
            AppendClone => of::append_clone(words, written, a, b),
            Freeze => of::freeze(words),
            Thaw => of::thaw(words),
            PackageFrozen => of::package_frozen(words, a, written),
            PackageInMemory => of::package_in_memory(words, a, written),
            SetWritten(len) => of::set_written(words, len),
            UpdateWritten(len) => of::update_written(words, len),
            Strip => of::strip(a, written),
            Range => of::range(a, b, answer),
            SetFront => of::set_front(words, a, written),
            SetBack => of::set_back(words, a, written),
            Load => of::load(words, a, b, written),
            Top => of::top(words, a, answer),
            Pop => of::pop(words, a),
            HasFrozen => of::has_frozen(words, answer),
            HasInMemory => of::has_in_memory(words, answer),
            GetWritten => of::get_written(words, answer),
            WaitingClones => of::waiting_clones(words, answer),
            IsReplayEmpty => of::is_replay_empty(words, answer),
            HasFront => of::has_front(words, answer),
            HasBack => of::has_back(words, answer),
            CardFormat { n } => of::card_format(n, written),
            CardFind { n } => of::card_find(n, a, written, answer),
            CardStore { n, made } => of::card_store(n, written, a, made, answer),
            CardRelease { n } => of::card_release(n, written, answer),
        }
    }};
}

impl Call {
    pub fn of_library(self, lent: Slices) -> u64 {
        made!(self, lent, calls)
    }

    pub fn of_model(self, lent: Slices) -> u64 {
        made!(self, lent, model)
    }

    pub fn of_plain(self, lent: Slices) -> u64 {
        made!(self, lent, plain)
    }

    /// The numbers that it may refuse with, in the order of its tests. (Nothing pending forbids to
    /// package what is frozen. Where the document's row has no 9, it is given last, for words or an
    /// answer that are too short.)
    pub fn numbers(self) -> &'static [u64] {
        match self {
            Open { .. } => &[1, 9],
            AppendInsert => &[2, 3, 4, 22, 5, 6],
            AppendClone => &[2, 3, 4, 5, 6],
            Freeze => &[2],
            Thaw => &[2, 17],
            PackageFrozen => &[2, 8, 15, 9],
            PackageInMemory => &[2, 7, 8, 15, 9],
            SetWritten(_) => &[2, 7, 10],
            UpdateWritten(_) => &[2, 10],
            Strip => &[11, 9, 12],
            Range => &[14, 9],
            SetFront | SetBack => &[2, 13, 9],
            Load => &[2, 14, 9],
            Top => &[2, 8, 14, 9],
            Pop => &[2, 8, 14],
            HasFrozen | HasInMemory | GetWritten | WaitingClones | IsReplayEmpty | HasFront
            | HasBack => &[2, 9],
            CardFormat { .. } => &[1, 18],
            CardFind { .. } => &[1, 18, 9, 12],
            CardStore { .. } => &[1, 18, 11, 12, 14, 19, 9],
            CardRelease { .. } => &[1, 18, 8, 12, 14, 9],
        }
    }

    /// Its name alone.
    pub fn name(self) -> String {
        let whole = format!("{self:?}");
        whole.split([' ', '(']).next().unwrap().into()
    }
}

/// How a call may be made, as `Call::of_library`.
pub type Made<'a> = &'a dyn Fn(Call, Slices) -> u64;

/// The model's answer, if each of these ways gives it and leaves the same in all that it is lent.
pub fn compared(
    memory: &mut Memory,
    call: Call,
    lent: &Lent,
    ways: &[Made],
) -> Result<u64, String> {
    let mut wanted = lent.clone();
    let right = call.of_model(wanted.slices());
    assert!(right == 0 || wanted == *lent, "{call:?}: the model's refusal changes something");
    for (k, way) in ways.iter().enumerate() {
        memory.hold(lent);
        let code = way(call, memory.slices());
        let different = memory.different(&wanted);
        if code != right || !different.is_empty() {
            let Lent { read: [a, b], written, words, answer } = lent;
            let lens = [a.len(), b.len(), written.len(), answer.len()];
            return Err(format!(
                "{call:?}, way {k}, gives {code} for {right}, {different:?} differ: \
                 {words:?}, {lens:?}"
            ));
        }
    }
    Ok(right)
}
