//! Lists of calls on one message, refused ones among them: a start, then
//! strips and ends in any order.

use std::collections::BTreeSet;

use c_calls::case::Case;
use c_calls::random_strips::random_list;
use c_calls::strip_list::{StripCall, StripList};
use reference::random::SplitMix64;
use reference::sealing::Variant;

const LISTS: usize = 20_000;

fn strip(msg: &[u8], out_len: usize) -> StripCall {
    let msg = msg.to_vec();
    StripCall::Strip { msg, out_len }
}

fn end(out_len: usize) -> StripCall {
    StripCall::End { out_len }
}

/// A list whose start is right.
fn list_of(calls: Vec<StripCall>) -> StripList {
    let mut generator = SplitMix64::new(0x1157);
    StripList {
        case: Case::random(&mut generator, Variant::Icepole128, 12, 3, 0),
        out_len: 16,
        state_len: 169,
        calls,
    }
}

/// The numbers of a list, start's first.
fn numbers(list: &StripList) -> Vec<u32> {
    let told = list.check(&|| "list by hand".to_string());
    told.into_iter().map(|(_, number)| number).collect()
}

#[test]
fn refused_calls_among_good_ones() {
    let list = list_of(vec![
        strip(b"abc", 2),
        strip(b"abc", 3),
        end(15),
        strip(&[5; 200], 199),
        strip(&[6; 200], 200),
        strip(b"", 0),
        end(0),
        end(16),
        strip(b"", 0),
        strip(b"x", 0),
        end(16),
        end(0),
    ]);
    assert_eq!(numbers(&list), [0, 5, 0, 5, 5, 0, 0, 5, 0, 14, 14, 14, 14]);
}

#[test]
fn list_without_an_end() {
    let list = list_of(vec![strip(&[5; 128], 128), strip(&[5; 3], 9), end(1)]);
    assert_eq!(numbers(&list), [0, 0, 0, 5]);
    assert_eq!(numbers(&list_of(vec![])), [0]);
}

#[test]
fn after_a_refused_start() {
    let calls = || vec![strip(b"abc", 3), strip(b"", 0), end(16)];
    let mut short_out = list_of(calls());
    short_out.out_len = 15;
    assert_eq!(numbers(&short_out), [5, 14, 14, 14]);
    let mut short_state = list_of(calls());
    short_state.state_len = 168;
    assert_eq!(numbers(&short_state), [5, 5, 5, 5]);
    let mut short_key = list_of(calls());
    short_key.case.key.pop();
    assert_eq!(numbers(&short_key), [1, 14, 14, 14]);
}

/// Every number that needs no message of 67,108,865 bytes comes, and no other.
#[test]
fn random_lists() {
    let mut generator = SplitMix64::new(0x1158);
    let mut seen = BTreeSet::new();
    for number in 0..LISTS {
        let list = random_list(&mut generator);
        seen.extend(list.check(&|| format!("list {number}")));
    }
    let ends = [0, 5, 14].map(|number| ("end", number));
    let starts = [0, 1, 2, 3, 5].map(|number| ("start", number));
    let strips = [0, 5, 14].map(|number| ("strip", number));
    let expected = ends.into_iter().chain(starts).chain(strips);
    assert!(seen.into_iter().eq(expected));
}
