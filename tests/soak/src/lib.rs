//! Random cases without end: the proved calls against the reference. A case is
//! worked out from its seed alone, so one that differs is repeated by its seed.

use std::collections::BTreeMap;
use std::panic::{catch_unwind, AssertUnwindSafe};

use burst_calls::random_card::card_call;
use burst_calls::random_front::front_call;
use burst_calls::random_list::{check_recording, random_recording, recording_of_any_bytes};
use burst_calls::random_read::read_call;
use burst_calls::random_size::size_call;
use burst_calls::recording::Recording;
use c_calls::random::{good_case, open_call, open_in_place_call, seal_call};
use c_calls::random_strips::{calls_on_state, random_list, random_state};
use core_calls::numbers;
use core_calls::random_log::log_call;
use core_calls::random_rounds::rounds_call;
use reference::burst::Call;
use reference::random::SplitMix64;
use reference::sealing::Variant;

/// How often each call gave each number.
#[derive(Default)]
pub struct Tally {
    counts: BTreeMap<(&'static str, u32), u64>,
}

impl Tally {
    fn add(&mut self, call: &'static str, number: u32) {
        *self.counts.entry((call, number)).or_default() += 1;
    }

    /// The calls and the numbers that they gave.
    pub fn seen(&self) -> Vec<(&'static str, u32)> {
        self.counts.keys().copied().collect()
    }

    /// A line for each call: how often it gave each number.
    pub fn lines(&self) -> Vec<String> {
        let mut lines = BTreeMap::<&str, String>::new();
        for ((call, number), count) in &self.counts {
            let line = lines.entry(call).or_insert(format!("{call}:"));
            line.push_str(&format!("  {number} x {count}"));
        }
        lines.into_values().collect()
    }
}

fn try_recording(recording: &Recording, what: &dyn Fn() -> String, tally: &mut Tally) {
    let performed = check_recording(recording, what);
    for (call, answer) in performed.calls.iter().zip(&performed.answers) {
        let name = match call {
            Call::Begin { .. } => "begin",
            Call::Keep { .. } => "keep",
            Call::Drop => "drop",
            Call::Close => "close",
        };
        tally.add(name, answer.number);
    }
    tally.add("whole", u32::from(performed.whole));
}

/// A list of strip calls, or calls on a state that anybody may make.
fn try_strips(generator: &mut SplitMix64, what: &dyn Fn() -> String, tally: &mut Tally) {
    let told = if generator.below(3) > 0 {
        random_list(generator).check(what)
    } else {
        let state = random_state(generator);
        calls_on_state(generator, &state, what)
    };
    for (call, number) in told {
        tally.add(call, number);
    }
}

/// A round log. Whether it agrees is told of those that are not refused.
fn try_log(generator: &mut SplitMix64, what: &dyn Fn() -> String, tally: &mut Tally) {
    let (number, agrees, _) = numbers(log_call(generator, what));
    tally.add("check_log", number);
    if number == 0 {
        tally.add("agrees", agrees);
    }
}

/// Rounds of a state, back or forward.
fn try_rounds(generator: &mut SplitMix64, what: &dyn Fn() -> String, tally: &mut Tally) {
    let (call, number) = rounds_call(generator, what);
    tally.add(call, number);
}

/// The case of a seed. It panics where a proved call and the reference differ.
pub fn try_case(seed: u64, tally: &mut Tally) {
    let mut generator = SplitMix64::new(seed);
    let generator = &mut generator;
    let variant = Variant::ALL[generator.below(3)];
    let what = || format!("seed {seed}");
    let read = match generator.below(30) {
        0..4 => {
            good_case(generator, variant);
            tally.add("seal", 0);
            tally.add("open", 0);
            return tally.add("open_in_place", 0);
        }
        4..8 => return tally.add("seal", seal_call(generator, variant)),
        8..13 => return tally.add("open", open_call(generator, variant)),
        13..15 => return try_recording(&random_recording(generator), &what, tally),
        15 => return try_recording(&recording_of_any_bytes(generator), &what, tally),
        16..20 => return try_strips(generator, &what, tally),
        20 => return try_log(generator, &what, tally),
        21 => return try_rounds(generator, &what, tally),
        22..25 => return tally.add("open_in_place", open_in_place_call(generator, variant)),
        25 => return tally.add("size_up", size_call(generator, &what)),
        26..29 => read_call(generator, &what),
        _ => front_call(generator, &what),
    };
    let names = ["check", "fetch", "record", "list", "edition"];
    for (name, number) in names.into_iter().zip(read) {
        tally.add(name, number);
    }
}

/// The case of a seed for the card line alone. It panics where the call and the
/// reference differ.
pub fn try_card(seed: u64, tally: &mut Tally) {
    let mut generator = SplitMix64::new(seed);
    let what = || format!("card of seed {seed}");
    tally.add("card_line", card_call(&mut generator, &what));
}

/// Tries `count` cases, the first with this seed and each next with one more.
/// Gives the seed of the first that panics.
pub fn run(seed: u64, count: u64, case: impl Fn(u64, &mut Tally)) -> Result<Tally, u64> {
    let mut tally = Tally::default();
    for number in 0..count {
        let seed = seed.wrapping_add(number);
        // After a panic the tally is let go.
        let tried = catch_unwind(AssertUnwindSafe(|| case(seed, &mut tally)));
        tried.map_err(|_| seed)?;
    }
    Ok(tally)
}
