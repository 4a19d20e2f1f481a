//! Random lists of calls, with calls turned down among them: the plain burst of
//! edition 2 and the recorder agree answer by answer and byte by byte, and the
//! reader gives the list back. The plain burst of edition 1 goes along.

mod help;

use std::collections::BTreeMap;

use help::{assert_gives_back, record_call, with_camera, ROOM};
use reference::burst::layout::{seal_shot, Entry};
use reference::burst::plain::{run, Call, PlainBurst};
use reference::burst::{Answer, Recorder, EDITION_1, EDITION_2};
use reference::random::SplitMix64;

const LISTS: usize = 2_400;

/// How often each call was answered with each number.
type Tally = BTreeMap<(&'static str, u32), usize>;

fn name(call: &Call) -> &'static str {
    match call {
        Call::Begin { .. } => "begin",
        Call::Keep { .. } => "keep",
        Call::Drop => "drop",
        Call::Close => "close",
    }
}

fn one_of<T: Copy>(generator: &mut SplitMix64, values: &[T]) -> T {
    values[generator.below(values.len())]
}

/// 16 bytes, but another length once in `often` times.
fn sixteen(generator: &mut SplitMix64, often: usize) -> Vec<u8> {
    let length = match generator.below(often) {
        0 => one_of(generator, &[0, 1, 15, 17, 32]),
        _ => 16,
    };
    generator.next_bytes(length)
}

fn random_begin(generator: &mut SplitMix64) -> Call {
    Call::Begin {
        key: sixteen(generator, 12),
        burst_number: generator.next_word() >> generator.below(64),
        camera: match generator.below(12) {
            0 => 0,
            _ => generator.next_word() as u32 >> generator.below(32),
        },
        site_mark: sixteen(generator, 12),
    }
}

fn random_keep(generator: &mut SplitMix64) -> Call {
    const EDGES: [usize; 10] = [1, 2, 3, 126, 127, 128, 129, 255, 256, 257];
    let length = match generator.below(100) {
        0..5 => 0,
        5..30 => one_of(generator, &EDGES),
        _ => 1 + generator.below(80),
    };
    let picture = match generator.below(400) {
        0 => vec![0; 1_048_577],
        _ => generator.next_bytes(length),
    };
    Call::Keep {
        stamp: sixteen(generator, 20),
        picture,
    }
}

fn random_call(generator: &mut SplitMix64) -> Call {
    match generator.below(40) {
        0 => Call::Close,
        1..12 => Call::Drop,
        _ => random_keep(generator),
    }
}

/// Most lists are short; some reach the 61st shot. Most are closed at the end,
/// and some have calls after that.
fn random_list(generator: &mut SplitMix64) -> Vec<Call> {
    let count = match generator.below(30) {
        0 => 58 + generator.below(20),
        _ => generator.below(12),
    };
    let mut calls = vec![random_begin(generator)];
    for _ in 0..count {
        let call = match random_call(generator) {
            // A long list would hardly ever stay open.
            Call::Close if count > 12 => Call::Drop,
            call => call,
        };
        calls.push(call);
    }
    if generator.below(10) > 0 {
        calls.push(Call::Close);
    }
    if generator.below(3) == 0 {
        for _ in 0..=generator.below(3) {
            calls.push(random_call(generator));
        }
    }
    calls
}

/// Exactly what the list needs, one byte less, or something else. What it
/// needs is taken from a run with all the room there is.
fn random_buffer_len(generator: &mut SplitMix64, calls: &[Call]) -> usize {
    let need = run(EDITION_2, calls, ROOM).burst.total();
    match generator.below(10) {
        0..3 => need,
        3..5 => need - 1,
        5 => generator.below(need + 1),
        6 => one_of(generator, &[0, 64, 71, 72, 73]),
        _ => need + generator.below(40),
    }
}

/// Recorder and buffer, the plain burst, and the bytes the buffer must have.
struct Pair {
    recorder: Recorder,
    buffer: Vec<u8>,
    plain: PlainBurst,
    expected: Vec<u8>,
}

impl Pair {
    fn new(buffer: Vec<u8>) -> Self {
        Pair {
            recorder: Recorder::REFUSED,
            expected: buffer.clone(),
            buffer,
            plain: PlainBurst::at_first(EDITION_2),
        }
    }

    /// One call on the first `lent` bytes of the buffer, done by both.
    fn call(&mut self, call: &Call, lent: usize) -> Answer {
        let before = (self.recorder.clone(), self.plain.clone());
        let answer = self.plain.answer(call, lent);
        let recorded = record_call(&mut self.recorder, call, &mut self.buffer[..lent]);
        assert_eq!(recorded, answer, "{call:?}");
        if answer.number == 0 {
            self.expect(call, before.1.used());
        } else {
            assert_eq!(answer, Answer::refused(answer.number));
            assert_eq!((&self.recorder, &self.plain), (&before.0, &before.1));
        }
        assert_eq!(self.buffer, self.expected, "after {call:?}");
        self.assert_same_burst();
        answer
    }

    /// What an accepted call writes; keep's record goes to `at`.
    fn expect(&mut self, call: &Call, at: usize) {
        match call {
            Call::Begin { .. } => self.expected[..40].fill(0),
            Call::Keep { stamp, picture } => {
                let entry = Entry {
                    shot: self.plain.taken() as u16,
                    zero: 0,
                    offset: at as u32,
                    length: picture.len() as u32,
                };
                let p = &self.plain;
                let ad: [&[u8]; 2] = [&entry.to_bytes(), &[]];
                let (burst, shot) = (p.burst_number, entry.shot);
                let record = seal_shot(&p.key, burst, shot, p.camera, stamp, ad, picture);
                self.expected[at..at + record.len()].copy_from_slice(&record);
            }
            Call::Drop => {}
            Call::Close => {
                let file = self.plain.file();
                self.expected[..file.len()].copy_from_slice(&file);
            }
        }
    }

    /// Unless begin was refused: then the recorder is zero, with used 0.
    fn assert_same_burst(&self) {
        let (r, p) = (&self.recorder, &self.plain);
        assert_eq!((r.key, r.burst_number), (p.key, p.burst_number));
        assert_eq!((r.camera, r.site_mark), (p.camera, p.site_mark));
        assert_eq!(r.closed, p.closed);
        let counts = [r.taken, r.kept].map(|count| count as usize);
        assert_eq!(counts, [p.taken(), p.kept()]);
        if *r != Recorder::REFUSED {
            assert_eq!(r.used, p.used() as u64);
        }
    }
}

/// A list on one buffer, or with a front part of it lent to each call.
fn try_list(generator: &mut SplitMix64, calls: &[Call], parts: bool, tally: &mut Tally) {
    let length = random_buffer_len(generator, calls);
    let mut pair = Pair::new(generator.next_bytes(length));
    let mut begun = false;
    for call in calls {
        let lent = match parts && generator.below(3) == 0 {
            true => generator.below(length + 1),
            false => length,
        };
        let answer = pair.call(call, lent);
        begun |= name(call) == "begin" && answer.number == 0;
        assert!(begun || answer.number != 0, "{call:?} before begin");
        *tally.entry((name(call), answer.number)).or_default() += 1;
    }
    if begun && pair.plain.closed {
        let file = &pair.buffer[..pair.plain.total()];
        assert_gives_back(&pair.plain, file);
    }
    if !parts {
        assert_eq!(run(EDITION_2, calls, length).burst, pair.plain);
        try_edition_1(calls, length);
    }
}

/// On 8 bytes less the plain burst of edition 1 takes the same list for the
/// same shots, and its file is read back too. It does not ask for a camera
/// number, so edition 2 is given one here.
fn try_edition_1(calls: &[Call], length: usize) {
    let first = run(EDITION_1, calls, length.saturating_sub(8));
    let second = run(EDITION_2, &with_camera(calls.to_vec(), 1), length);
    for ((call, answer), expected) in calls.iter().zip(&first.answers).zip(&second.answers) {
        let header = match (call, answer.number) {
            (Call::Close, 0) => 8,
            _ => 0,
        };
        let shot_or_total = answer.shot_or_total + header;
        assert_eq!(answer.number, expected.number, "{call:?}");
        assert_eq!(shot_or_total, expected.shot_or_total, "{call:?}");
    }
    let expected = PlainBurst {
        edition: EDITION_1,
        camera: 0,
        ..second.burst
    };
    assert_eq!(first.burst, expected);
    assert_eq!(first.file.is_some(), second.file.is_some());
    if let Some(file) = first.file {
        assert_gives_back(&first.burst, &file);
    }
}

/// Every number that a call can be answered with comes up.
fn assert_all_seen(tally: &Tally) {
    for (call, numbers) in [
        ("begin", &[0, 1, 3, 15, 11][..]),
        ("keep", &[0, 8, 3, 9, 10, 11]),
        ("drop", &[0, 8, 9]),
        ("close", &[0, 8, 11]),
    ] {
        for number in numbers {
            let seen = tally.get(&(call, *number)).copied().unwrap_or(0);
            assert!(seen >= 20, "{call} {number} was seen {seen} times");
        }
    }
    assert_eq!(tally.len(), 17);
}

#[test]
fn random_lists_agree() {
    let mut generator = SplitMix64::new(0xB0257);
    let mut tally = Tally::new();
    for number in 0..LISTS {
        let calls = random_list(&mut generator);
        try_list(&mut generator, &calls, number % 6 == 0, &mut tally);
    }
    assert_all_seen(&tally);
}

/// With one buffer for the whole list, close is never refused with 11: begin
/// and every keep leave room for it.
#[test]
fn close_fits_when_the_calls_before_it_did() {
    let mut generator = SplitMix64::new(0xC105E);
    let mut tally = Tally::new();
    for _ in 0..200 {
        let calls = random_list(&mut generator);
        try_list(&mut generator, &calls, false, &mut tally);
    }
    assert!(tally[&("close", 0)] > 50);
    assert_eq!(tally.get(&("close", 11)), None);
}
