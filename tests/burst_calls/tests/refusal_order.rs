//! Every set of conditions that can hold together gives the number of the
//! first in the scope paper's order, with request N1's 15, and a refused call
//! writes nothing.

use std::collections::HashSet;

use burst_calls::lent::Lent;
use burst_calls::list::{bytes, file_of, keep, shots_of, KEY};
use burst_calls::reading::{
    check_check, check_fetch, check_record, CHECK_INFO, FETCH_INFO, WIDE_PLACES,
};
use burst_calls::recording::Recording;
use burst_calls::script::script_of;
use reference::burst::reader::RecordPart;
use reference::burst::{Call, Edition, EDITIONS, EDITION_1, EDITION_2};

/// Every choice of one number below each limit.
fn choices<const N: usize>(limits: [usize; N]) -> impl Iterator<Item = [usize; N]> {
    (0..limits.iter().product()).map(move |mut number| {
        limits.map(|limit| {
            let digit = number % limit;
            number /= limit;
            digit
        })
    })
}

/// A number with its mark, and whether its condition holds.
type Condition = ((u32, u32), bool);

/// The first in the order whose condition holds, or 0.
fn first_to_hold(order: &[Condition]) -> (u32, u32) {
    let first = order.iter().find(|(_, holds)| *holds);
    first.map_or((0, 0), |(number, _)| *number)
}

/// The right length first, then wrong ones.
const KEYS: [usize; 5] = [16, 15, 17, 0, 32];

fn key(length: usize) -> Vec<u8> {
    let mut key = KEY.to_vec();
    key.resize(length, 1);
    key
}

/// Shots 2 and 4 of 4 are kept, of 3 and 5 bytes. Behind the header, records are
/// at 0 and 35, the index is at 72, the closing seal at 96, and the end at 128.
const LENGTHS: [usize; 4] = [0, 3, 0, 5];
const PICTURES: [usize; 2] = [3, 5];

/// What becomes of a file's front.
#[derive(Clone, Copy, Debug, PartialEq)]
enum Change {
    None,
    OtherEdition,
    ByteMore,
    Zeros,
    BelowTheShortest,
    /// Edition 2 alone has these.
    NoCamera,
    HeaderZeros,
}

type FrontChange = (Edition, Change);

const FRONTS: [FrontChange; 12] = [
    (EDITION_1, Change::None),
    (EDITION_1, Change::OtherEdition),
    (EDITION_1, Change::ByteMore),
    (EDITION_1, Change::Zeros),
    (EDITION_1, Change::BelowTheShortest),
    (EDITION_2, Change::None),
    (EDITION_2, Change::OtherEdition),
    (EDITION_2, Change::ByteMore),
    (EDITION_2, Change::Zeros),
    (EDITION_2, Change::BelowTheShortest),
    (EDITION_2, Change::NoCamera),
    (EDITION_2, Change::HeaderZeros),
];

/// The file with its front, closing seal and records broken or not.
fn file((edition, change): FrontChange, seals: [usize; 3]) -> Vec<u8> {
    let mut file = file_of(edition, 70, &LENGTHS);
    let start = edition.header_bytes;
    assert_eq!(file.len(), start + 128);
    for (at, broken) in [98, 18, 71].into_iter().zip(seals) {
        file[start + at] ^= broken as u8;
    }
    match change {
        Change::None => {}
        Change::OtherEdition => file[0] = 3 - file[0],
        Change::ByteMore => file.push(0),
        Change::Zeros => file[start + 74] = 1,
        Change::BelowTheShortest => file.truncate(start + 31),
        Change::NoCamera => file[32..36].fill(0),
        Change::HeaderZeros => file[39] = 1,
    }
    file
}

/// What check looks at, in its order: the seals are the closing seal's and those
/// of the two records.
fn check_order(key: usize, front: FrontChange, seals: [usize; 3]) -> [Condition; 5] {
    [
        ((1, 0), key != 16),
        ((12, 0), front.1 != Change::None),
        ((7, 0), seals[0] == 1),
        ((7, 2), seals[1] == 1),
        ((7, 4), seals[2] == 1),
    ]
}

#[test]
fn check_in_the_order_1_12_7_5() {
    let infos = [CHECK_INFO, CHECK_INFO + 1, CHECK_INFO - 1, 0];
    let mut subsets = HashSet::new();
    let limits = [KEYS.len(), FRONTS.len(), 2, 2, 2, infos.len()];
    for [k, f, c, r, s, i] in choices(limits) {
        let (front, seals) = (FRONTS[f], [c, r, s]);
        let mut order = check_order(KEYS[k], front, seals).to_vec();
        order.push(((5, 0), infos[i] < CHECK_INFO));
        let what = || format!("{front:?}, seals {seals:?}, info {}", infos[i]);
        let given = check_check(&key(KEYS[k]), &file(front, seals), infos[i], &what);
        assert_eq!(given, first_to_hold(&order), "{}", what());
        subsets.insert((front.0.number, order));
    }
    assert_eq!(subsets.len(), EDITIONS.len() << 6);
}

#[test]
fn fetch_in_the_order_of_check_13_5() {
    let places = [0, 1, 2, 3, 65_535, 65_536, (1 << 32) + 1, usize::MAX];
    let infos = [FETCH_INFO, FETCH_INFO + 1, FETCH_INFO - 1, 0];
    let mut subsets = HashSet::new();
    let limits = [
        KEYS.len(),
        FRONTS.len(),
        2,
        2,
        2,
        places.len(),
        4,
        infos.len(),
    ];
    for [k, f, c, r, s, p, o, i] in choices(limits) {
        // Without the picture's place, an output of 0 bytes stands for one
        // that is too short.
        let place = places[p];
        let picture = PICTURES.get(place).copied();
        let needed = picture.unwrap_or(1);
        let out_len = [needed, needed + 9, needed - 1, 0][o];
        let (front, seals) = (FRONTS[f], [c, r, s]);
        let mut order = check_order(KEYS[k], front, seals).to_vec();
        order.push(((13, 0), picture.is_none()));
        order.push(((5, 0), out_len < needed));
        order.push(((5, 0), infos[i] < FETCH_INFO));

        let what = || format!("{front:?}, seals {seals:?}");
        let lengths = (out_len, infos[i]);
        let file = file(front, seals);
        let given = check_fetch(&key(KEYS[k]), &file, place, lengths, &what);
        let expected = first_to_hold(&order);
        assert_eq!(given, expected, "{place}, {lengths:?}, {}", what());
        subsets.insert((front.0.number, order));
    }
    assert_eq!(subsets.len(), EDITIONS.len() << 8);
}

#[test]
fn record_in_the_order_of_check_13() {
    let mut places = vec![0, 1, 2, 3, 4, 60, 256];
    places.extend(WIDE_PLACES);
    let mut subsets = HashSet::new();
    let limits = [KEYS.len(), FRONTS.len(), 2, 2, 2, places.len()];
    for [k, f, c, r, s, p] in choices(limits) {
        let place = places[p];
        let (front, seals) = (FRONTS[f], [c, r, s]);
        let file = file(front, seals);
        let mut order = check_order(KEYS[k], front, seals).to_vec();
        order.push(((13, 0), place >= 2));
        let what = || format!("{front:?}, seals {seals:?}");
        let key = key(KEYS[k]);
        let given = check_record(&key, &file, place, &what);
        let (number, mark) = first_to_hold(&order);
        assert_eq!(given, (number, mark), "{place}, {}", what());
        if number != 0 {
            let refused = RecordPart {
                number,
                mark,
                offset: 0,
                length: 0,
            };
            assert_eq!(burst_calls::record(&key, &file, place), refused);
        }
        subsets.insert((front.0.number, order));
    }
    assert_eq!(subsets.len(), EDITIONS.len() << 6);
}

/// The numbers of a script on a buffer of that length.
fn numbers(recording: &Recording) -> Vec<u32> {
    recording.check(&|| "order".into()).numbers()
}

/// A refused begin leaves the buffer, and every later call is refused.
#[test]
fn begin_in_the_order_1_3_15_11() {
    let cameras = [1, 1 << 16, u32::MAX, 0];
    let buffers = [72, 200, 71, 64, 0];
    let script = script_of(&shots_of(&[0]));
    let mut subsets = HashSet::new();
    for [k, s, c, b] in choices([KEYS.len(), KEYS.len(), cameras.len(), buffers.len()]) {
        let mut recording = Recording::new(71, script.clone(), buffers[b], 24);
        (recording.key, recording.site_mark) = (key(KEYS[k]), bytes(1, KEYS[s]));
        recording.camera = cameras[c];
        let order = [
            ((1, 0), k > 0),
            ((3, 0), s > 0),
            ((15, 0), cameras[c] == 0),
            ((11, 0), buffers[b] < 72),
        ];
        let (number, _) = first_to_hold(&order);
        let later = if number == 0 { 0 } else { 8 };
        let performed = recording.check(&|| "order".into());
        assert_eq!(performed.numbers(), [number, later, later]);
        assert_eq!(performed.buffer == recording.buffer, number != 0);
        subsets.insert(order);
    }
    assert_eq!(subsets.len(), 1 << 4);
}

/// Why a keep finds no sound recorder: it was closed, or begin was refused, for
/// its key or for its camera number.
const CLOSED: usize = 4;

/// The begin of that way.
fn begin_of(closed: usize, recording: &mut Recording) {
    match closed {
        2 => recording.key.truncate(15),
        3 => recording.camera = 0,
        _ => {}
    }
}

/// A keep after `shots` drops, the burst being open (way 0) or not.
fn keep_after(
    closed: usize,
    shots: usize,
    stamp: usize,
    picture: usize,
    buffer: usize,
) -> Vec<u32> {
    let mut calls = vec![Call::Drop; shots];
    if closed == 1 {
        calls.push(Call::Close);
    }
    let (stamp, picture) = (bytes(1, stamp), bytes(2, picture));
    calls.push(Call::Keep { stamp, picture });
    let room = 8 * (calls.len() + 1);
    let mut recording = Recording::new(72, script_of(&calls), buffer, room);
    begin_of(closed, &mut recording);
    numbers(&recording)
}

#[test]
fn keep_in_the_order_8_3_9_10_11() {
    let mut subsets = HashSet::new();
    let stamps = [16, 0, 15, 17, 255];
    let pictures = [3, 0, 1_048_577];
    for [closed, full, s, p, b] in choices([CLOSED, 2, stamps.len(), pictures.len(), 3]) {
        // Used 40, the record, one entry, the closing seal.
        let need = 40 + pictures[p] + 32 + 12 + 32;
        let buffer = [need, need - 1, 72][b];
        let order = [
            ((8, 0), closed > 0),
            ((3, 0), stamps[s] != 16),
            ((9, 0), full == 1),
            ((10, 0), pictures[p] != 3),
            ((11, 0), buffer < need),
        ];
        let shots = if full == 1 { 60 } else { 59 };
        let numbers = keep_after(closed, shots, stamps[s], pictures[p], buffer);
        let (expected, _) = first_to_hold(&order);
        let lengths = (stamps[s], pictures[p], buffer);
        assert_eq!(numbers.last(), Some(&expected), "{shots}, {lengths:?}");
        subsets.insert(order);
    }
    assert_eq!(subsets.len(), 1 << 5);
}

/// Drop: 8, 9. Close: 8; that a keep was full or turned down does not matter.
#[test]
fn drop_and_close() {
    for [closed, full] in choices([CLOSED, 2]) {
        let mut calls = vec![Call::Drop; 59 + full];
        if closed == 1 {
            calls.push(Call::Close);
        }
        calls.extend([keep(1, 0), Call::Drop, Call::Close, Call::Close, Call::Drop]);
        let room = 8 * (calls.len() + 1);
        let mut recording = Recording::new(73, script_of(&calls), 72, room);
        begin_of(closed, &mut recording);
        let numbers = numbers(&recording);
        let last = &numbers[numbers.len() - 5..];
        let expected = match (closed, full) {
            (0, 0) => [10, 0, 0, 8, 8],
            (0, _) => [9, 9, 0, 8, 8],
            _ => [8; 5],
        };
        assert_eq!(last, expected, "{closed} {full}");
    }
}

/// A damaged file is refused the same at every place there is.
#[test]
fn every_place_of_a_damaged_file() {
    for edition in EDITIONS {
        every_place_of((edition, Change::None));
    }
}

fn every_place_of(front: FrontChange) {
    let [damaged, whole] = [1, 0].map(|second| file(front, [0, 0, second]));
    for place in (0..300).chain([0x8000, 0xFF00]).chain(WIDE_PLACES) {
        let (mut out, mut info) = (Lent::of(5), Lent::of(FETCH_INFO));
        let refused = burst_calls::fetch(&KEY, &damaged, place, out.slice(), info.slice());
        assert_eq!(refused, (7, 4), "place {place}");
        out.check_untouched(&|| format!("place {place}"));
        info.check_untouched(&|| format!("place {place}"));
        let what = || format!("place {place}");
        let number = if place < 2 { 0 } else { 13 };
        let given = check_fetch(&KEY, &whole, place, (5, FETCH_INFO), &what);
        assert_eq!(given, (number, 0), "place {place}");
        let given = check_record(&KEY, &whole, place, &what);
        assert_eq!(given, (number, 0), "place {place}");
    }
}

#[test]
fn choices_are_all_different() {
    let all: HashSet<[usize; 3]> = choices([2, 3, 4]).collect();
    assert_eq!(all.len(), 24);
    assert!(all.contains(&[0, 0, 0]) && all.contains(&[1, 2, 3]));
    assert_eq!(choices([2, 3, 4]).count(), 24);
}
