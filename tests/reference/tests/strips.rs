//! Strips against whole sealing ("Afterwards: 128a, 256a, strips, a lister"),
//! and their refusals.

use reference::permutation::ZERO_STATE;
use reference::random::SplitMix64;
use reference::sealing::{bits, seal, Variant, MAXIMUM};
use reference::strips::{start, StripState};

const V128: Variant = Variant::Icepole128;

struct Input {
    key: Vec<u8>,
    nonce: Vec<u8>,
    secret: Vec<u8>,
    ad: Vec<u8>,
    msg: Vec<u8>,
}

fn input(generator: &mut SplitMix64, ad: usize, msg: usize) -> Input {
    Input {
        key: generator.next_bytes(16),
        nonce: generator.next_bytes(16),
        secret: generator.next_bytes(16),
        ad: generator.next_bytes(ad),
        msg: generator.next_bytes(msg),
    }
}

fn whole(i: &Input) -> Vec<u8> {
    let length = i.msg.len() + 32;
    seal(
        V128,
        &i.key,
        &i.nonce,
        &i.secret,
        &i.ad,
        &[],
        &i.msg,
        length,
    )
    .unwrap()
}

/// The message in strips that end at each of `cuts`, and one more to its end.
/// No output is longer than what is written to it.
fn in_strips(i: &Input, cuts: &[usize]) -> Vec<u8> {
    let (ad1, ad2) = i.ad.split_at(i.ad.len() / 3);
    let (mut state, sealed) = start(&i.key, &i.nonce, &i.secret, ad1, ad2, 16);
    let mut sealed = sealed.unwrap();
    assert_eq!(sealed.len(), 16);
    let mut from = 0;
    for to in cuts.iter().copied().chain([i.msg.len()]) {
        assert_eq!((state.count, state.finished), (from as u64, false));
        let written = state.strip(&i.msg[from..to], to - from).unwrap();
        assert_eq!(written.len(), to - from);
        sealed.extend(written);
        from = to;
    }
    let before = state.clone();
    let tag = state.end(16).unwrap();
    assert_eq!(tag.len(), 16);
    let finished = StripState {
        finished: true,
        ..before
    };
    assert_eq!(state, finished);
    sealed.extend(tag);
    sealed
}

#[test]
fn cuts_around_a_block() {
    let mut generator = SplitMix64::new(0x5712);
    let edges = [0, 1, 126, 127, 128, 129, 130, 255, 256, 257, 300];
    for msg in edges {
        let i = input(&mut generator, 12, msg);
        let expected = whole(&i);
        assert_eq!(in_strips(&i, &[]), expected, "one strip of {msg}");
        for first in edges.into_iter().filter(|cut| *cut <= msg) {
            assert_eq!(in_strips(&i, &[first]), expected, "{msg} cut at {first}");
            assert_eq!(in_strips(&i, &[first, first]), expected, "{msg}, {first}");
            for second in edges.into_iter().filter(|cut| (first..=msg).contains(cut)) {
                let made = in_strips(&i, &[first, second]);
                assert_eq!(made, expected, "{msg} cut at {first}, {second}");
            }
        }
    }
}

/// Cuts in order, often at or next to whole blocks, often twice the same.
fn random_cuts(generator: &mut SplitMix64, length: usize) -> Vec<usize> {
    let mut cuts = Vec::new();
    for _ in 0..generator.below(8) {
        let cut = match generator.below(4) {
            0 => generator.below(length + 1),
            1 => 128 * generator.below(5),
            2 => 127 + 128 * generator.below(4),
            _ => 129 + 128 * generator.below(4),
        };
        cuts.push(cut.min(length));
        if generator.below(4) == 0 {
            cuts.push(cut.min(length));
        }
    }
    cuts.sort();
    cuts
}

#[test]
fn random_cuts_equal_whole_sealing() {
    let mut generator = SplitMix64::new(0x5721);
    for _ in 0..2_500 {
        let ad = [0, 12, 127, 128, 129, 256][generator.below(6)];
        let msg = generator.below(600);
        let i = input(&mut generator, ad, msg);
        let cuts = random_cuts(&mut generator, i.msg.len());
        assert_eq!(in_strips(&i, &cuts), whole(&i), "{msg} cut at {cuts:?}");
    }
}

#[test]
fn single_bytes_equal_bit_level_sealing() {
    let mut generator = SplitMix64::new(0x5731);
    for msg in [0, 1, 128, 129, 257] {
        let i = input(&mut generator, 40, msg);
        let cuts: Vec<usize> = (0..msg).collect();
        let expected = bits::seal(V128, &i.key, &i.nonce, &i.secret, &i.ad, &i.msg);
        assert_eq!(in_strips(&i, &cuts), expected, "{msg}");
    }
}

/// No strip at all seals the empty message.
#[test]
fn no_strips() {
    let i = input(&mut SplitMix64::new(3), 5, 0);
    let (mut state, sealed) = start(&i.key, &i.nonce, &i.secret, &i.ad, &[], 100);
    let sealed = [sealed.unwrap(), state.end(100).unwrap()].concat();
    assert_eq!(sealed, whole(&i));
}

fn start_number(key: usize, nonce: usize, secret: usize, ad: [&[u8]; 2], out_len: usize) -> u32 {
    let k = &[1; 40];
    let (state, answer) = start(&k[..key], &k[..nonce], &k[..secret], ad[0], ad[1], out_len);
    match answer {
        Ok(_) => {
            assert_eq!((state.count, state.finished), (0, false));
            0
        }
        Err(number) => {
            assert_eq!((state.sponge, state.count), (ZERO_STATE, 0));
            assert!(state.finished);
            number
        }
    }
}

#[test]
fn order_of_start() {
    let none: [&[u8]; 2] = [&[], &[]];
    let long = vec![0; MAXIMUM + 1];
    for length in [0, 15, 17, 32] {
        assert_eq!(start_number(length, 16, 16, none, 16), 1);
        assert_eq!(start_number(16, length, 16, none, 16), 2);
        assert_eq!(start_number(16, 16, length, none, 16), 3);
    }
    assert_eq!(start_number(15, 12, 0, [&long, &[]], 0), 1);
    assert_eq!(start_number(16, 12, 0, [&long, &[]], 0), 2);
    assert_eq!(start_number(16, 16, 0, [&long, &[]], 0), 3);
    assert_eq!(start_number(16, 16, 16, [&long, &[]], 0), 4);
    assert_eq!(start_number(16, 16, 16, [&long[1..], &[0]], 16), 4);
    assert_eq!(start_number(16, 16, 16, [&[0], &long[1..]], 16), 4);
    assert_eq!(start_number(16, 16, 16, [&long[1..], &[]], 15), 5);
    assert_eq!(start_number(16, 16, 16, none, 15), 5);
    assert_eq!(start_number(16, 16, 16, none, 16), 0);
}

/// A started state with another count; anybody may make one.
fn state_with(count: u64, finished: bool) -> StripState {
    let (state, _) = start(&[1; 16], &[2; 16], &[3; 16], &[], &[], 16);
    StripState {
        count,
        finished,
        ..state
    }
}

/// The number of a strip; refused, the state stays.
fn strip_number(state: &StripState, length: usize, out_len: usize) -> u32 {
    let mut after = state.clone();
    match after.strip(&vec![0; length], out_len) {
        Ok(_) => {
            assert_eq!(after.count, state.count + length as u64);
            0
        }
        Err(number) => {
            assert_eq!(after, *state);
            number
        }
    }
}

fn end_number(state: &StripState, out_len: usize) -> u32 {
    let mut after = state.clone();
    match after.end(out_len) {
        Ok(_) => 0,
        Err(number) => {
            assert_eq!(after, *state);
            number
        }
    }
}

const MOST: u64 = MAXIMUM as u64;

#[test]
fn order_of_strip() {
    for over in [
        state_with(0, true),
        state_with(5, true),
        state_with(MOST + 1, false),
        state_with(u64::MAX, false),
        StripState::REFUSED,
    ] {
        for length in [0, 1, MAXIMUM + 1] {
            assert_eq!(strip_number(&over, length, 0), 14);
            assert_eq!(strip_number(&over, length, length), 14);
        }
        assert_eq!(
            [0, 15, 16].map(|out_len| end_number(&over, out_len)),
            [14; 3]
        );
    }
    assert_eq!(strip_number(&state_with(0, false), MAXIMUM + 1, 0), 4);
    assert_eq!(strip_number(&state_with(1, false), MAXIMUM, MAXIMUM), 4);
    assert_eq!(strip_number(&state_with(MOST - 2, false), 3, 0), 4);
    assert_eq!(strip_number(&state_with(MOST - 2, false), 3, 3), 4);
    assert_eq!(strip_number(&state_with(MOST, false), 1, 1), 4);
    assert_eq!(strip_number(&state_with(MOST - 2, false), 2, 1), 5);
    assert_eq!(strip_number(&state_with(0, false), 3, 2), 5);
    assert_eq!(strip_number(&state_with(MOST - 2, false), 2, 2), 0);
    assert_eq!(strip_number(&state_with(MOST, false), 0, 0), 0);
    assert_eq!(strip_number(&state_with(0, false), 0, 0), 0);
}

#[test]
fn order_of_end() {
    for count in [0, 1, 128, MOST] {
        let state = state_with(count, false);
        assert_eq!([0, 15].map(|out_len| end_number(&state, out_len)), [5; 2]);
        assert_eq!([16, 17].map(|out_len| end_number(&state, out_len)), [0; 2]);
    }
    let mut state = state_with(0, false);
    state.end(16).unwrap();
    assert_eq!(strip_number(&state, 0, 0), 14);
    assert_eq!(end_number(&state, 0), 14);
}

/// Calls turned down in between do not change what is sealed.
#[test]
fn refused_calls_change_nothing() {
    let i = input(&mut SplitMix64::new(77), 12, 300);
    let (mut state, sealed) = start(&i.key, &i.nonce, &i.secret, &i.ad, &[], 16);
    let mut sealed = sealed.unwrap();
    let long = vec![0; MAXIMUM];
    for strip in i.msg.chunks(64) {
        assert_eq!(state.strip(strip, strip.len() - 1), Err(5));
        assert_eq!(state.end(15), Err(5));
        sealed.extend(state.strip(strip, strip.len()).unwrap());
        assert_eq!(state.strip(&long, MAXIMUM), Err(4));
    }
    sealed.extend(state.end(16).unwrap());
    assert_eq!(state.end(16), Err(14));
    assert_eq!(sealed, whole(&i));
}
