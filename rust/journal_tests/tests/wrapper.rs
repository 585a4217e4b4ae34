//! The safe wrapper says what the calls on words say: the journal's through the tests histories and lives, the others
//! here.
use journal_tests::model::block::{BLOCK, HEAD, PAYLOAD};
use journal_tests::model::record::WORDS;
use journal_tests::model::writing;
use journal_tests::random::Random;
use nungakes::places::{self, Interval, Location};
use nungakes::{
    calls, card, Entry, Journal, Kind, Piece, Refusal, Top, Totals, CARD_LENGTH, CARD_START,
};

/// A record goes to words and back, whatever they are; damaged ones are refused by each call.
#[test]
fn records() {
    let journal = Journal::open(4, 600).unwrap();
    let words: [u64; WORDS] = journal.clone().into();
    assert_eq!(words, *journal.words());
    assert_eq!(Journal::from(words), journal);
    assert_eq!(Journal::open(0, 600), Err(Refusal::SizeOutOfRange));
    assert_eq!(journal.clone().thaw(), Err(Refusal::NoFreeze));

    let mut damaged = Journal::from([7; WORDS]);
    assert_eq!(damaged.freeze(), Err(Refusal::CountsDisagree));
    assert_eq!(damaged.thaw(), Err(Refusal::CountsDisagree));
    assert_eq!(damaged.get_written(), Err(Refusal::CountsDisagree));
    assert_eq!(damaged.waiting_clones(), Err(Refusal::CountsDisagree));
    assert_eq!(*damaged.words(), [7; WORDS]);
}

#[test]
fn tops() {
    let replay = b"..keyvalue";
    let pieces = [Piece { place: 2, len: 3 }, Piece { place: 5, len: 5 }];
    let top = |kind| Top { kind, first: pieces[0], second: pieces[1] };
    let [first, second] = [&replay[2..5], &replay[5..]];
    assert_eq!(top(Kind::Insert).entry(replay), Entry::Insert { key: first, value: second });
    assert_eq!(top(Kind::Clone).entry(replay), Entry::Clone { from: first, to: second });
}

#[test]
fn images() {
    let payload = Random(7).bytes(300 * PAYLOAD);
    let mut image = writing::image(&payload);
    let mut out = vec![0; payload.len()];
    assert_eq!(nungakes::strip(&image, &mut out), Ok(300));
    assert!(out == payload);
    assert_eq!(nungakes::strip(&image, &mut out[1..]), Err(Refusal::OutputTooShort));
    assert_eq!(nungakes::strip(&image[1..], &mut out), Err(Refusal::ImageNotWhole));
    for block in [299, 257, 0] {
        image[block * BLOCK + 9] ^= 1;
        let block = block as u64;
        assert_eq!(nungakes::strip(&image, &mut out), Err(Refusal::ChecksumDiffers { block }));
    }

    let mut head = [7; HEAD];
    assert_eq!(nungakes::checksum(&payload, &mut head), Ok(()));
    assert_eq!(head[..4], nungakes::crc32c(&payload).to_le_bytes());
    assert_eq!(head[4..], [0; HEAD - 4]);
    assert_eq!(nungakes::checksum(&payload, &mut head[1..]), Err(Refusal::OutputTooShort));

    let mut range = vec![0; PAYLOAD];
    range[..24].copy_from_slice(b"\x01\0\0\0\x01\0\0\0\x03\0\0\0key\x05\0\0\0value");
    assert_eq!(nungakes::range(&range, &[]), Ok(Totals { entries: 1, bytes: 16 }));
    assert_eq!(nungakes::range(&range, &range), Ok(Totals { entries: 2, bytes: 32 }));
    assert_eq!(nungakes::range(&range[1..], &[]), Err(Refusal::Unreadable));
}

/// From an empty card to one on which a batch was stored, found and released; and each of the refusals.
#[test]
fn on_a_card() {
    let whole = writing::batch(&writing::weighing(&mut Random(5), 5_000), 0);
    let image = writing::image(&whole);
    let mut unit = vec![0; 5 * BLOCK];
    let mut out = vec![7; 3 * PAYLOAD];
    assert_eq!(card::find(3, &unit, &mut out), Err(Refusal::CardUnformed));
    assert_eq!(card::format(2, &mut unit), Err(Refusal::CardUnformed));
    assert_eq!(card::format(0, &mut unit), Err(Refusal::SizeOutOfRange));
    assert_eq!(card::format(3, &mut unit), Ok(()));
    assert_eq!(card::release(3, &mut unit), Err(Refusal::NothingThere));
    assert_eq!(card::find(3, &unit, &mut []), Ok(0));
    let told = [0, 1, 2, 3].map(|made| card::store(3, &mut unit, &image, made));
    assert_eq!(told, [Ok(true), Ok(true), Ok(true), Ok(false)]);
    assert_eq!(unit[CARD_START..CARD_START + 8], [0, 0, 0, 0, 2, 0, 0, 0]);
    assert_eq!(card::store(3, &mut unit, &image, 0), Err(Refusal::CardFull));
    assert_eq!(card::store(3, &mut unit, &image[1..], 0), Err(Refusal::ImageNotWhole));
    assert_eq!(card::store(3, &mut unit, &image[..BLOCK], 0), Err(Refusal::Unreadable));
    assert_eq!(card::find(3, &unit, &mut out[..PAYLOAD]), Err(Refusal::OutputTooShort));
    assert_eq!(card::find(3, &unit, &mut out), Ok(2));
    assert!(out[..2 * PAYLOAD] == whole && out[2 * PAYLOAD..] == [7; PAYLOAD]);

    unit[3 * BLOCK + 9] ^= 1;
    let differs = Err(Refusal::ChecksumDiffers { block: 1 });
    assert_eq!([card::find(3, &unit, &mut out), card::release(3, &mut unit)], [differs; 2]);
    unit[3 * BLOCK + 9] ^= 1;
    assert_eq!(card::release(3, &mut unit), Ok(2));
    assert_eq!(unit[CARD_LENGTH - 4..CARD_LENGTH + 4], [2, 0, 0, 0, 0, 0, 0, 0]);
    assert_eq!(card::find(3, &unit, &mut out), Ok(0));
}

/// The words of a call's answer, or its refusal.
fn answer<const K: usize>(call: impl FnOnce(&mut [u64]) -> u64) -> Result<[u64; K], Refusal> {
    let mut words = [7; K];
    match call(&mut words) {
        0 => Ok(words),
        code => Err(Refusal::of_code(code).unwrap()),
    }
}

/// As the calls have it: whether it is there, its start and its length.
fn three(part: Option<Interval>) -> [u64; 3] {
    part.map_or([0; 3], |Interval { start, len }| [1, start, len])
}

#[test]
fn in_the_region() {
    let random = &mut Random(11);
    let mut refused = 0;
    for _ in 0..20_000 {
        let n = random.below(12) as u64;
        let [s, k, t, l] = [(); 4].map(|()| random.below(13) as u64);
        let (a, b) = (Interval { start: s, len: k }, Interval { start: t, len: l });
        let address = (2 + s) * BLOCK as u64 + random.one_of(&[0, 0, 0, 1]);
        let at = Location { address, len: k * BLOCK as u64 };
        let two = |(x, y): (u64, u64)| [x, y];
        let one = |x: u64| [x];
        assert_eq!(places::of_block(n, s).map(one), answer(|w| calls::place_of_block(n, s, w)));
        assert_eq!(places::front(n, a).map(three), answer(|w| calls::place_front(n, s, k, w)));
        assert_eq!(places::back(n, a).map(three), answer(|w| calls::place_back(n, s, k, w)));
        assert_eq!(
            places::next_start(n, a).map(one),
            answer(|w| calls::place_next_start(n, s, k, w))
        );
        let contained = places::contained(n, a, b).map(u64::from).map(one);
        assert_eq!(contained, answer(|w| calls::place_contained(n, s, k, t, l, w)));
        let overlap = places::overlap(n, a, b).map(u64::from).map(one);
        assert_eq!(overlap, answer(|w| calls::place_overlap(n, s, k, t, l, w)));
        let shares = places::shares_block(n, a, b).map(u64::from).map(one);
        assert_eq!(shares, answer(|w| calls::place_shares_block(n, s, k, t, l, w)));
        let location = places::location(n, a).map(|l| two((l.address, l.len)));
        assert_eq!(location, answer(|w| calls::place_location(n, s, k, w)));
        let interval = places::interval(n, at).map(|i| two((i.start, i.len)));
        assert_eq!(interval, answer(|w| calls::place_interval(n, address, at.len, w)));
        refused += [overlap.is_err(), location.is_err(), interval.is_err()]
            .map(usize::from)
            .iter()
            .sum::<usize>();
    }
    assert!((1_000..59_000).contains(&refused), "{refused}");
}
