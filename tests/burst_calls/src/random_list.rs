//! Random lists of calls, with refused ones among them, and scripts of any
//! bytes, for burst_replay.

use crate::list::{begin, ROOM};
use crate::listing::{check_list, LIST_BYTES};
use crate::reading::{check_gives_back, check_reference_gives_back};
use crate::recording::{Performed, Recording};
use crate::script::{push_call, CLOSE, DROP, KEEP};
use reference::burst::plain::run;
use reference::burst::{Call, EDITION_2};
use reference::random::SplitMix64;

pub fn one_of<T: Copy>(generator: &mut SplitMix64, values: &[T]) -> T {
    values[generator.below(values.len())]
}

/// 16 bytes, but another length once in `often` times.
fn sixteen(generator: &mut SplitMix64, often: usize) -> Vec<u8> {
    let length = match generator.below(often) {
        0 => one_of(generator, &[0, 1, 8, 15, 17, 24, 32, 255]),
        _ => 16,
    };
    generator.next_bytes(length)
}

/// Any camera number but 0, often a small one.
pub fn random_camera(generator: &mut SplitMix64) -> u32 {
    let camera = generator.next_word() as u32 >> generator.below(32);
    camera.max(1)
}

/// The same, but 0 once in `often` times.
pub fn camera_or_0(generator: &mut SplitMix64, often: usize) -> u32 {
    match generator.below(often) {
        0 => 0,
        _ => random_camera(generator),
    }
}

/// None, small ones, some around a block, some to a few thousand bytes, and
/// once in a while one byte above the maximum.
fn random_picture(generator: &mut SplitMix64) -> Vec<u8> {
    let length = match generator.below(200) {
        0..10 => 0,
        10..50 => one_of(generator, &[1, 2, 126, 127, 128, 129, 130, 255, 256, 257]),
        50..54 => 300 + generator.below(4_000),
        54 if generator.below(10) == 0 => 1_048_577,
        _ => 1 + generator.below(80),
    };
    generator.next_bytes(length)
}

fn random_call(generator: &mut SplitMix64) -> Call {
    match generator.below(40) {
        0 => Call::Close,
        1..12 => Call::Drop,
        _ => Call::Keep {
            stamp: sixteen(generator, 20),
            picture: random_picture(generator),
        },
    }
}

/// Most lists are short; some reach the 61st shot. Most are closed at the end,
/// and some have calls after that.
fn random_calls(generator: &mut SplitMix64) -> Vec<Call> {
    let count = match generator.below(40) {
        0 => 58 + generator.below(20),
        _ => generator.below(12),
    };
    let mut calls = Vec::new();
    for _ in 0..count {
        calls.push(match random_call(generator) {
            // A long list would hardly ever stay open.
            Call::Close if count > 12 => Call::Drop,
            call => call,
        });
    }
    if generator.below(10) > 0 {
        calls.push(Call::Close);
    }
    if generator.below(3) == 0 {
        for _ in 0..=generator.below(3) {
            calls.push(random_call(generator));
        }
    }
    calls
}

/// A byte that is no call.
fn no_call(generator: &mut SplitMix64) -> u8 {
    match generator.below(2) {
        0 => 3 + generator.below(253) as u8,
        _ => one_of(generator, &[3, 4, 128, 130, 254, 255]),
    }
}

/// The calls as a script. One in eight is cut, one in sixteen goes on with
/// bytes of any kind, and one in sixteen has a byte that is no call in front of
/// a call or instead of its own.
fn random_script(generator: &mut SplitMix64, calls: &[Call]) -> Vec<u8> {
    let mut script = Vec::new();
    let mut starts = Vec::new();
    for call in calls {
        starts.push(script.len());
        push_call(&mut script, call);
    }
    match generator.below(16) {
        3 if !starts.is_empty() => {
            let at = one_of(generator, &starts);
            let byte = no_call(generator);
            match generator.below(2) {
                0 => script[at] = byte,
                _ => script.insert(at, byte),
            }
        }
        0 => script.truncate(generator.below(script.len() + 1)),
        1 => {
            let cut = generator.below(script.len().min(40) + 1);
            script.truncate(script.len() - cut);
        }
        2 => {
            let count = generator.below(30);
            script.extend(generator.next_bytes(count));
        }
        _ => {}
    }
    script
}

/// Exactly what the list needs with all the room there is, one byte less, or
/// something else.
fn random_buffer(generator: &mut SplitMix64, need: usize) -> Vec<u8> {
    let length = match generator.below(10) {
        0..3 => need,
        3 => need - 1,
        4 => need - 1 - generator.below(40),
        5 => generator.below(need + 1),
        6 => one_of(generator, &[0, 39, 40, 64, 71, 72, 73]),
        _ => need + generator.below(300),
    };
    generator.next_bytes(length)
}

/// Room for all answers and perhaps more, or for fewer.
fn random_answers(generator: &mut SplitMix64, calls: usize) -> Vec<u8> {
    let all = 8 * (calls + 1);
    let length = match generator.below(12) {
        0 => generator.below(all + 1),
        1 => all - 1 - generator.below(8),
        2 => generator.below(24),
        3..6 => all,
        _ => all + generator.below(50),
    };
    generator.next_bytes(length)
}

/// A list of calls with all that is lent to it.
pub fn random_recording(generator: &mut SplitMix64) -> Recording {
    let key = sixteen(generator, 14);
    let burst_number = generator.next_word() >> generator.below(64);
    let camera = camera_or_0(generator, 14);
    let site_mark = sixteen(generator, 14);
    let calls = random_calls(generator);
    recording_with(generator, key, burst_number, camera, site_mark, &calls)
}

/// These calls with a random script, buffer and answers.
pub fn recording_with(
    generator: &mut SplitMix64,
    key: Vec<u8>,
    burst_number: u64,
    camera: u32,
    site_mark: Vec<u8>,
    calls: &[Call],
) -> Recording {
    let script = random_script(generator, calls);
    let need = needed(&[&[begin(burst_number)], calls].concat());
    Recording {
        key,
        burst_number,
        camera,
        site_mark,
        script,
        buffer: random_buffer(generator, need),
        answers: random_answers(generator, calls.len()),
    }
}

/// What a list needs with all the room there is.
fn needed(calls: &[Call]) -> usize {
    let calls_without_close = |call: &&Call| !matches!(call, Call::Close);
    let open: Vec<Call> = calls.iter().filter(calls_without_close).cloned().collect();
    run(EDITION_2, &open, ROOM).burst.total()
}

/// Bytes that are often calls, and often lengths that fit.
fn random_script_bytes(generator: &mut SplitMix64) -> Vec<u8> {
    let mut script = Vec::new();
    for _ in 0..generator.below(60) {
        match generator.below(12) {
            0..3 => script.push(DROP),
            3 => script.push(one_of(generator, &[CLOSE, CLOSE, DROP, KEEP])),
            4..6 => script.push(generator.next_word() as u8),
            _ => {
                let stamp = one_of(generator, &[16, 16, 16, 16, 0, 15, 17, 255]);
                let picture: u32 = match generator.below(8) {
                    0 => generator.next_word() as u32,
                    1 => u32::MAX - generator.below(40) as u32,
                    2 => 1 << (8 * generator.below(4)),
                    _ => generator.below(40) as u32,
                };
                let first = match generator.below(20) {
                    0 => no_call(generator),
                    _ => KEEP,
                };
                script.extend([first, stamp]);
                script.extend(picture.to_le_bytes());
                let present = usize::from(stamp) + generator.below(40);
                script.extend(generator.next_bytes(present));
            }
        }
    }
    script
}

/// What is lent with a script that no list was turned into.
pub fn recording_of_any_bytes(generator: &mut SplitMix64) -> Recording {
    let script = random_script_bytes(generator);
    let (buffer, answers) = (generator.below(1_500), generator.below(200));
    Recording {
        key: sixteen(generator, 20),
        burst_number: generator.next_word(),
        camera: camera_or_0(generator, 20),
        site_mark: sixteen(generator, 20),
        script,
        buffer: generator.next_bytes(buffer),
        answers: generator.next_bytes(answers),
    }
}

/// One list against the reference; its file, if there is one, is read and
/// listed by both.
pub fn check_recording(recording: &Recording, what: &dyn Fn() -> String) -> Performed {
    let performed = recording.check(what);
    if let (Some(file), Some(plain)) = (performed.file(), &performed.plain) {
        check_gives_back(&plain.burst, file, what);
        check_reference_gives_back(&plain.burst, file, what);
        check_list(file, LIST_BYTES, what);
    }
    performed
}
