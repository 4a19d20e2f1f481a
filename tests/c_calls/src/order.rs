//! What tests of the order of refusals share: lengths that are right or wrong,
//! every choice of them, the first condition that holds, and sealed messages
//! good and bad.

use std::sync::LazyLock;

use reference::sealing::{words, Variant, MAXIMUM};

/// One byte above the maximum.
pub const OVER: usize = MAXIMUM + 1;

/// Zero bytes, lent as data above its maximum.
pub static ZEROS: LazyLock<Vec<u8>> = LazyLock::new(|| vec![0; OVER]);

/// Short bytes, lent as keys, nonces, secret numbers and short data.
pub static BYTES: LazyLock<Vec<u8>> = LazyLock::new(|| (0..60).map(|n| 3 * n + 1).collect());

/// The two parts of associated data: first a short one, then the ways in
/// which both together are above the maximum.
pub fn associated_data() -> Vec<(&'static [u8], &'static [u8])> {
    vec![
        BYTES[20..27].split_at(3),
        ZEROS.split_at(MAXIMUM / 2),
        ZEROS.split_at(OVER),
        ZEROS.split_at(0),
        ZEROS.split_at(MAXIMUM),
        ZEROS.split_at(1),
    ]
}

/// The right length, and after it wrong ones.
pub fn lengths(right: usize) -> Vec<usize> {
    let mut lengths = vec![right];
    let beside = [right.saturating_sub(1), right + 1];
    for length in beside.into_iter().chain([0, 1, 12, 16, 32, 48]) {
        if !lengths.contains(&length) {
            lengths.push(length);
        }
    }
    lengths
}

/// Every choice of one number below each limit.
pub fn choices<const N: usize>(limits: [usize; N]) -> impl Iterator<Item = [usize; N]> {
    (0..limits.iter().product()).map(move |mut number| {
        limits.map(|limit| {
            let digit = number % limit;
            number /= limit;
            digit
        })
    })
}

/// The first number in the order whose condition holds, or 0.
pub fn first_to_hold(order: &[(u32, bool)]) -> u32 {
    let first = order.iter().find(|(_, holds)| *holds);
    first.map_or(0, |(number, _)| *number)
}

/// An output longer than this is looked at whole after the call, which takes
/// time. It is then as long as needed and no longer, way 0, and the other
/// conditions hold in one way only, way 1.
pub const LARGE: usize = 64;

pub fn is_left_out(out_len: usize, out_way: usize, other_ways: &[usize]) -> bool {
    out_len > LARGE && (out_way != 0 || other_ways.iter().any(|way| *way > 1))
}

/// A message, short or above the maximum.
pub fn message(over: bool) -> &'static [u8] {
    if over {
        &ZEROS
    } else {
        &BYTES[..10]
    }
}

/// A sealed message as it is lent to opening.
pub struct Sealed {
    pub bytes: Vec<u8>,
    /// Its tag was changed.
    pub changed: bool,
    /// It was sealed with associated data above the maximum.
    pub ad_over: bool,
}

/// Sealed messages: with a short message and with one above the maximum, each
/// with its right tag and with a changed one; and some that are too short.
pub fn sealed_messages(variant: Variant) -> Vec<Sealed> {
    let sizes = variant.sizes();
    let key = &BYTES[..sizes.key];
    let nonce = &BYTES[..sizes.nonce];
    let secret = &BYTES[..sizes.secret];
    let mut all = Vec::new();
    for ad_over in [false, true] {
        let (ad1, ad2) = associated_data()[usize::from(ad_over)];
        let ad = [ad1, ad2].concat();
        let mut add = |bytes, changed| {
            all.push(Sealed {
                bytes,
                changed,
                ad_over,
            })
        };
        for msg_over in [false, true] {
            let right = words::seal(variant, key, nonce, secret, &ad, message(msg_over));
            let mut wrong = right.clone();
            *wrong.last_mut().unwrap() ^= 0x80;
            add(right, false);
            add(wrong, true);
        }
        for length in [0, 1, variant.overhead() - 1] {
            add(BYTES[..length].to_vec(), false);
        }
    }
    all
}
