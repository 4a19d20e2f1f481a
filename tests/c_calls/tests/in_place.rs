//! Opening in place against the reference and the opening with two buffers:
//! lengths, info, addresses, little stack, and the buffer of a message that is
//! opened already.
//! What is changed is tried in `changes`, strips in `strips`, and the order of
//! refusals in `in_place_order`.

use c_calls::case::{info_written, Case};
use c_calls::for_each_variant;
use c_calls::lent::Lent;
use reference::random::SplitMix64;
use reference::sealing::{Variant, MAXIMUM};

/// A case with associated data of 3 and 6 bytes, and its sealed message.
fn sealed_case(generator: &mut SplitMix64, variant: Variant, msg: usize) -> (Case, Vec<u8>) {
    let case = Case::random(generator, variant, 3, 6, msg);
    let sealed = case.reference_seal(usize::MAX).unwrap();
    (case, sealed)
}

/// The buffer after opening it, which the reference and the opening with two
/// buffers agree on: the message, then bytes of the sealed message.
fn opened(case: &Case, sealed: &[u8], info_len: usize) -> Vec<u8> {
    let (number, buffer) = case.check_open_in_place(sealed, info_len);
    assert_eq!(number, 0, "{}", case.describe());
    let (message, later) = buffer.split_at(case.msg.len());
    assert!(message == case.msg, "{}", case.describe());
    assert!(later == &sealed[case.msg.len()..], "{}", case.describe());
    buffer
}

fn every_message_to_1000(variant: Variant) {
    let mut generator = SplitMix64::new(0x6_1000);
    for msg in 0..=1000 {
        let (case, sealed) = sealed_case(&mut generator, variant, msg);
        opened(&case, &sealed, variant.info_bytes());
        opened(&case, &sealed, variant.info_bytes() + 7);
    }
}

fn long_ones(variant: Variant) {
    let mut generator = SplitMix64::new(0x6_10A6);
    for msg in [65_535, 65_536, 65_537, 1_048_576] {
        let (case, sealed) = sealed_case(&mut generator, variant, msg);
        opened(&case, &sealed, variant.info_bytes());
    }
}

/// The longest message opens; with a byte before or after it, it is too long.
fn the_longest(variant: Variant) {
    let mut generator = SplitMix64::new(0x6_03A8);
    let (case, mut sealed) = sealed_case(&mut generator, variant, MAXIMUM);
    opened(&case, &sealed, variant.info_bytes());
    sealed.push(0);
    case.check_refused_in_place(&sealed, 4, "one byte above the maximum");
}

/// An info of any length: too short or just long enough, and longer ones, whose
/// later bytes stay.
fn every_info_to_60(variant: Variant) {
    let mut generator = SplitMix64::new(0x6_0060);
    for msg in [0, 1, 16, 200] {
        let (case, sealed) = sealed_case(&mut generator, variant, msg);
        let mut changed = sealed.clone();
        changed[0] ^= 1;
        for info_len in 0..60 {
            let is_short = info_len < variant.info_bytes();
            let number = case.check_open_in_place(&sealed, info_len).0;
            assert_eq!(number, if is_short { 5 } else { 0 }, "info {info_len}");
            let number = case.check_open_in_place(&changed, info_len).0;
            assert_eq!(number, if is_short { 5 } else { 7 }, "info {info_len}");
        }
    }
}

/// A buffer of any length, none of them too short as an output: 6 below the least
/// length of a sealed message, else 7.
fn every_buffer_to_300(variant: Variant) {
    let mut generator = SplitMix64::new(0x6_0300);
    let case = Case::random(&mut generator, variant, 3, 6, 0);
    for length in 0..=300 {
        let bytes = generator.next_bytes(length);
        let expected = if length < variant.overhead() { 6 } else { 7 };
        let number = case.check_open_in_place(&bytes, variant.info_bytes()).0;
        assert_eq!(number, expected, "buffer {length}");
    }
}

/// A refused call leaves the sealed message whole: after all of these the same
/// buffer still opens.
fn refused_and_then_opened(variant: Variant) {
    let mut generator = SplitMix64::new(0x6_0012);
    let (case, sealed) = sealed_case(&mut generator, variant, 300);
    let mut buffer = Lent::holding(&sealed);
    let mut info = Lent::new(variant.info_bytes());
    let mut refuse = |number, spoil: fn(&mut Case)| {
        let mut other = case.clone();
        spoil(&mut other);
        let given = other.open_in_place(buffer.slice(), info.slice());
        assert_eq!(given, number, "{}", other.describe());
    };
    refuse(1, |case| case.key.truncate(15));
    refuse(2, |case| case.nonce.push(0));
    refuse(4, |case| case.ad1 = vec![0; MAXIMUM]);
    refuse(7, |case| case.key[0] ^= 1);
    refuse(7, |case| case.nonce[11] ^= 1);
    refuse(7, |case| case.ad1[0] ^= 1);
    refuse(7, |case| case.ad2.clear());
    assert_eq!(case.open_in_place(buffer.slice(), &mut []), 5);

    let number = case.open_in_place(buffer.slice(), info.slice());
    assert_eq!(number, 0, "{}", case.describe());
    buffer.check_written(&case.msg, &|| case.describe());
    let written = info_written(300, &case.secret);
    info.check_written(&written, &|| case.describe());
}

/// The buffer of an opened message, opened again: refused, unless nothing was
/// written, as for an empty message.
fn opened_a_second_time(variant: Variant) {
    let mut generator = SplitMix64::new(0x6_0002);
    for msg in [0, 16, 17, 119, 120, 121, 127, 128, 129, 300] {
        let (case, sealed) = sealed_case(&mut generator, variant, msg);
        let buffer = opened(&case, &sealed, 24);
        let (number, again) = case.check_open_in_place(&buffer, 24);
        assert_eq!(number, if msg == 0 { 0 } else { 7 }, "msg {msg}");
        assert!(again == buffer, "msg {msg}");
    }
}

/// One nonce in 256 seals a byte so that what is written stood there before. Such
/// a buffer opens as often as one likes, and no other of one byte does.
fn written_as_it_was(variant: Variant) {
    let mut generator = SplitMix64::new(0x6_0256);
    let mut count = 0;
    for _ in 0..5_000 {
        let (case, sealed) = sealed_case(&mut generator, variant, 1);
        let buffer = opened(&case, &sealed, 24);
        let (number, _) = case.check_open_in_place(&buffer, 24);
        assert_eq!(number, if buffer == sealed { 0 } else { 7 });
        count += usize::from(buffer == sealed);
    }
    assert!((1..100).contains(&count), "{count} of 5,000");
}

/// A thread with little stack opens a long message: there is no copy of it. What
/// a thread takes for itself is in these 32 KiB too.
fn with_little_stack(variant: Variant) {
    let mut generator = SplitMix64::new(0x6_0032);
    let (case, mut buffer) = sealed_case(&mut generator, variant, 1_048_576);
    let message = case.msg.clone();
    let mut info = vec![0; variant.info_bytes()];
    let thread = std::thread::Builder::new().stack_size(32 << 10);
    let opening = thread.spawn(move || (case.open_in_place(&mut buffer, &mut info), buffer));
    let (number, buffer) = opening.unwrap().join().unwrap();
    assert_eq!(number, 0);
    assert!(buffer.starts_with(&message));
}

/// Buffer and info at any address, and the bytes beside them stay.
fn at_any_address(variant: Variant) {
    let mut generator = SplitMix64::new(0x6_0016);
    for msg in [0, 5, 128, 300] {
        let (case, sealed) = sealed_case(&mut generator, variant, msg);
        let needed = variant.info_bytes();
        for shift in 0..16 {
            let before = vec![0xEE; shift];
            let mut whole = [&before, &sealed[..], &[0xDD; 20]].concat();
            let mut infos = vec![0xCC; shift + needed + 20];
            let buffer = &mut whole[shift..shift + sealed.len()];
            let info = &mut infos[shift..shift + needed];
            assert_eq!(case.open_in_place(buffer, info), 0, "shift {shift}");
            let later = &sealed[msg..];
            let left = [&before, &case.msg[..], later, &[0xDD; 20]].concat();
            assert!(whole == left, "shift {shift}, msg {msg}");
            let written = info_written(msg, &case.secret);
            let left = [&vec![0xCC; shift], &written[..], &[0xCC; 20]].concat();
            assert_eq!(infos, left, "shift {shift}, msg {msg}");
        }
    }
}

for_each_variant!(
    every_message_to_1000,
    long_ones,
    the_longest,
    every_info_to_60,
    every_buffer_to_300,
    refused_and_then_opened,
    opened_a_second_time,
    written_as_it_was,
    with_little_stack,
    at_any_address,
);
