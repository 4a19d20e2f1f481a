//! Many random calls, good and bad, against the reference.

use c_calls::for_each_variant;
use c_calls::random::{good_case, open_call, open_in_place_call, seal_call};
use reference::random::SplitMix64;
use reference::sealing::Variant;

/// For each variant; there are three.
const GOOD_CASES: usize = 40_000;
const CALLS_OF_EITHER_KIND: usize = 40_000;

fn good_cases(variant: Variant) {
    let mut generator = SplitMix64::new(0x900D);
    for _ in 0..GOOD_CASES {
        good_case(&mut generator, variant);
    }
}

/// The expected numbers came, each at least once, and no others.
fn check_numbers_seen(seen: &[usize; 8], expected: &[usize]) {
    for number in 0..8 {
        let came = seen[number] > 0;
        assert_eq!(
            came,
            expected.contains(&number),
            "number {number}: {seen:?}"
        );
    }
}

fn seal_calls_good_and_bad(variant: Variant) {
    let mut generator = SplitMix64::new(0xBAD5EA1);
    let mut seen = [0; 8];
    for _ in 0..CALLS_OF_EITHER_KIND {
        seen[seal_call(&mut generator, variant) as usize] += 1;
    }
    check_numbers_seen(&seen, &[0, 1, 2, 3, 5]);
}

fn open_calls_good_and_bad(variant: Variant) {
    let mut generator = SplitMix64::new(0xBAD09E4);
    let mut seen = [0; 8];
    for _ in 0..CALLS_OF_EITHER_KIND {
        seen[open_call(&mut generator, variant) as usize] += 1;
    }
    check_numbers_seen(&seen, &[0, 1, 2, 5, 6, 7]);
}

fn open_in_place_calls_good_and_bad(variant: Variant) {
    let mut generator = SplitMix64::new(0xBAD916C);
    let mut seen = [0; 8];
    for _ in 0..CALLS_OF_EITHER_KIND {
        seen[open_in_place_call(&mut generator, variant) as usize] += 1;
    }
    check_numbers_seen(&seen, &[0, 1, 2, 5, 6, 7]);
}

for_each_variant!(
    good_cases,
    seal_calls_good_and_bad,
    open_calls_good_and_bad,
    open_in_place_calls_good_and_bad,
);
