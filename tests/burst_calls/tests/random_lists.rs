//! Random lists of calls, with refused ones among them, through burst_replay:
//! answer by answer and byte by byte as the reference's recorder and its plain
//! burst have it. The files that come out are read by both readers.

use std::collections::BTreeMap;

use burst_calls::random_list::{
    check_recording, random_camera, random_recording, recording_of_any_bytes, recording_with,
};
use burst_calls::recording::{Performed, Recording};
use burst_calls::script::{calls_of, KEEP};
use reference::burst::Call;
use reference::random::SplitMix64;

/// List `n` of a test has the seed of the test plus `n`.
const LISTS: u64 = 24_000;
const LISTS_SEED: u64 = 0xB025_7000_0000;
const SCRIPTS: u64 = 8_000;
const SCRIPTS_SEED: u64 = 0x5C21_9000_0000;

/// How often each call was answered with each number.
type Tally = BTreeMap<(&'static str, u32), usize>;

fn name(call: &Call) -> &'static str {
    match call {
        Call::Begin { .. } => "begin",
        Call::Keep { .. } => "keep",
        Call::Drop => "drop",
        Call::Close => "close",
    }
}

/// What the lists of a test have come to.
#[derive(Default)]
struct Seen {
    answers: Tally,
    files: usize,
    /// Lists that are not closed: the header is left zero.
    open: usize,
    nothing_performed: usize,
    /// The script has more calls than there is room for answers.
    room_ran_out: usize,
    /// The script goes on after the last call that it holds whole: with a keep
    /// that its end cuts, or with a byte that is no call.
    cut: usize,
    no_call: usize,
    /// The whole script was performed.
    whole: usize,
}

impl Seen {
    fn add(&mut self, recording: &Recording, performed: &Performed) {
        for (call, answer) in performed.calls.iter().zip(&performed.answers) {
            let answer = (name(call), answer.number);
            *self.answers.entry(answer).or_default() += 1;
        }
        let Some(plain) = &performed.plain else {
            self.nothing_performed += 1;
            return;
        };
        self.files += usize::from(plain.file.is_some());
        self.open += usize::from(!plain.burst.closed);
        let (all, rest) = calls_of(&recording.script, usize::MAX);
        self.room_ran_out += usize::from(all.len() + 1 > performed.calls.len());
        match rest.first() {
            None => {}
            Some(&KEEP) => self.cut += 1,
            Some(_) => self.no_call += 1,
        }
        self.whole += usize::from(performed.whole);
    }

    /// Every number that a call can be answered with came up. With one buffer
    /// for the whole list close is never answered 11: begin and every keep
    /// leave room for it.
    fn check(&self, least: usize) {
        let mut expected = Vec::new();
        for (call, numbers) in [
            ("begin", &[0, 1, 3, 11, 15][..]),
            ("close", &[0, 8]),
            ("drop", &[0, 8, 9]),
            ("keep", &[0, 3, 8, 9, 10, 11]),
        ] {
            expected.extend(numbers.iter().map(|number| (call, *number)));
        }
        let seen: Vec<_> = self.answers.keys().copied().collect();
        assert_eq!(seen, expected);
        for (answer, count) in &self.answers {
            assert!(*count >= least, "{answer:?} came {count} times");
        }
        let [files, open] = [self.files, self.open];
        let [nothing, room] = [self.nothing_performed, self.room_ran_out];
        let [cut, no_call, whole] = [self.cut, self.no_call, self.whole];
        let counts = [files, open, nothing, room, cut, no_call, whole];
        assert!(counts.iter().all(|count| *count >= least), "{counts:?}");
    }
}

fn try_recording(recording: &Recording, seen: &mut Seen, what: &dyn Fn() -> String) {
    seen.add(recording, &check_recording(recording, what));
}

#[test]
fn random_lists_of_calls() {
    let mut seen = Seen::default();
    for number in 0..LISTS {
        let seed = LISTS_SEED + number;
        let recording = random_recording(&mut SplitMix64::new(seed));
        let what = || format!("list {number}, seed {seed:#x}");
        try_recording(&recording, &mut seen, &what);
    }
    seen.check(100);
}

/// Scripts of bytes that no list was turned into.
#[test]
fn scripts_of_any_bytes() {
    let mut seen = Seen::default();
    for number in 0..SCRIPTS {
        let seed = SCRIPTS_SEED + number;
        let mut generator = SplitMix64::new(seed);
        let recording = recording_of_any_bytes(&mut generator);
        let what = || format!("script {number}, seed {seed:#x}");
        try_recording(&recording, &mut seen, &what);
    }
    let mut least = vec![seen.files, seen.open, seen.nothing_performed];
    least.extend([seen.cut, seen.no_call, seen.whole]);
    assert!(least.iter().all(|count| *count > 100), "{least:?}");
}

/// Long lists around the 60th shot, with no call that closes too early.
#[test]
fn long_lists() {
    let mut seen = Seen::default();
    for number in 0..300 {
        let seed = LISTS_SEED + LISTS + number;
        let mut generator = SplitMix64::new(seed);
        let mut calls = Vec::new();
        for _ in 0..58 + generator.below(6) {
            let length = 1 + generator.below(30);
            calls.push(match generator.below(4) {
                0 => Call::Drop,
                _ => Call::Keep {
                    stamp: generator.next_bytes(16),
                    picture: generator.next_bytes(length),
                },
            });
        }
        calls.push(Call::Close);
        let (key, site_mark) = (generator.next_bytes(16), generator.next_bytes(16));
        let camera = random_camera(&mut generator);
        let recording = recording_with(&mut generator, key, number, camera, site_mark, &calls);
        let what = || format!("long list {number}, seed {seed:#x}");
        try_recording(&recording, &mut seen, &what);
    }
    assert!(seen.answers[&("keep", 9)] > 20 && seen.answers[&("drop", 9)] > 20);
    assert!(seen.files > 100);
}
