//! The C calls of the proved code, and what its tests share.

pub mod case;
pub mod in_place;
pub mod lent;
pub mod order;
pub mod random;
pub mod random_strips;
pub mod strip_list;
pub mod strip_pair;
pub mod strips;

use proved_calls::icepole::{icepole128, icepole128a, icepole256a};
use reference::sealing::Variant;

/// The sealing call of the variant: its refusal number, 0 when done.
pub fn seal(
    variant: Variant,
    key: &[u8],
    nonce: &[u8],
    secret: &[u8],
    ad1: &[u8],
    ad2: &[u8],
    msg: &[u8],
    out: &mut [u8],
) -> u32 {
    let call = match variant {
        Variant::Icepole128 => icepole128::seal,
        Variant::Icepole128a => icepole128a::seal,
        Variant::Icepole256a => icepole256a::seal,
    };
    call(key, nonce, secret, ad1, ad2, msg, out)
}

/// The opening call of the variant: its refusal number, 0 when done.
pub fn open(
    variant: Variant,
    key: &[u8],
    nonce: &[u8],
    ad1: &[u8],
    ad2: &[u8],
    sealed: &[u8],
    out: &mut [u8],
    info: &mut [u8],
) -> u32 {
    let call = match variant {
        Variant::Icepole128 => icepole128::open,
        Variant::Icepole128a => icepole128a::open,
        Variant::Icepole256a => icepole256a::open,
    };
    call(key, nonce, ad1, ad2, sealed, out, info)
}

/// The variant's call of opening in place: its refusal number, 0 when done.
pub fn open_in_place(
    variant: Variant,
    key: &[u8],
    nonce: &[u8],
    ad1: &[u8],
    ad2: &[u8],
    buffer: &mut [u8],
    info: &mut [u8],
) -> u32 {
    let call = match variant {
        Variant::Icepole128 => icepole128::open_in_place,
        Variant::Icepole128a => icepole128a::open_in_place,
        Variant::Icepole256a => icepole256a::open_in_place,
    };
    call(key, nonce, ad1, ad2, buffer, info)
}
