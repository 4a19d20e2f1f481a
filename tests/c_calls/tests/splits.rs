//! Associated data in two parts means their joining, wherever it is cut.

use c_calls::case::Case;
use c_calls::for_each_variant;
use reference::random::SplitMix64;
use reference::sealing::Variant;

fn every_split_of_every_length_to_260(variant: Variant) {
    let mut generator = SplitMix64::new(0x5911);
    for length in 0..=260 {
        let whole = Case::random(&mut generator, variant, length, 0, 5);
        let sealed = whole.reference_seal(1000).unwrap();
        for first in 0..=length {
            let mut split = whole.clone();
            split.ad2 = split.ad1.split_off(first);
            split.check_seals_as(&sealed, 0);
            split.check_opens(&sealed, 0, 0);
        }
    }
}

for_each_variant!(every_split_of_every_length_to_260);
