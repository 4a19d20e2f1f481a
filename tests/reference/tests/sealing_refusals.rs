//! The reference's refusals, by the examples of the scope paper and around
//! each limit, and what opening refuses with 7.

use reference::sealing::{open, seal, Variant, MAXIMUM};

const V128: Variant = Variant::Icepole128;

fn seal_number(key: usize, nonce: usize, secret: usize, msg: usize, out_len: usize) -> u32 {
    let bytes = vec![0; msg];
    let k = &[0; 40];
    seal(
        V128,
        &k[..key],
        &k[..nonce],
        &k[..secret],
        &[],
        &[],
        &bytes,
        out_len,
    )
    .err()
    .unwrap_or(0)
}

#[test]
fn examples_of_sealing() {
    assert_eq!(seal_number(16, 16, 16, 3, 35), 0);
    assert_eq!(seal_number(15, 16, 16, 3, 35), 1);
    assert_eq!(seal_number(16, 12, 16, 3, 35), 2);
    assert_eq!(seal_number(16, 16, 0, 3, 35), 3);
    assert_eq!(seal_number(16, 16, 16, 67_108_865, usize::MAX), 4);
    assert_eq!(seal_number(16, 16, 16, 3, 34), 5);
}

#[test]
fn order_of_sealing() {
    assert_eq!(seal_number(15, 12, 0, 67_108_865, 0), 1);
    assert_eq!(seal_number(16, 12, 0, 67_108_865, 0), 2);
    assert_eq!(seal_number(16, 16, 0, 67_108_865, 0), 3);
    assert_eq!(seal_number(16, 16, 16, 67_108_865, 0), 4);
    assert_eq!(seal_number(16, 16, 16, 0, 31), 5);
}

#[test]
fn both_parts_together_have_one_maximum() {
    let half = vec![0; MAXIMUM / 2];
    let more = vec![0; MAXIMUM / 2 + 1];
    let number = |first: &[u8], second: &[u8]| {
        let secret = [0; 16];
        seal(V128, &[0; 16], &[0; 16], &secret, first, second, &[], 32)
            .err()
            .unwrap_or(0)
    };
    assert_eq!(number(&half, &half), 0);
    assert_eq!(number(&half, &more), 4);
    assert_eq!(number(&more, &half), 4);
}

fn open_number(sealed: &[u8], ad: &[u8], out_len: usize, info_len: usize) -> u32 {
    open(V128, &[0; 16], &[0; 16], ad, &[], sealed, out_len, info_len)
        .err()
        .unwrap_or(0)
}

#[test]
fn examples_and_order_of_opening() {
    let sealed = seal(V128, &[0; 16], &[0; 16], &[1; 16], b"ad", &[], b"msg", 35).unwrap();
    let long = vec![0; MAXIMUM + 33];
    assert_eq!(open_number(&sealed, b"ad", 3, 24), 0);
    assert_eq!(open_number(&sealed[..31], b"ad", 3, 24), 6);
    assert_eq!(open_number(&sealed[..31], b"ad", 3, 23), 6);
    assert_eq!(open_number(&sealed[..31], &long, 0, 0), 4);
    assert_eq!(open_number(&long, b"ad", 0, 0), 4);
    assert_eq!(open_number(&sealed, b"ad", 2, 24), 5);
    assert_eq!(open_number(&sealed, b"ad", 3, 23), 5);
    assert_eq!(open_number(&sealed, b"da", 3, 23), 5);
    assert_eq!(open_number(&sealed, b"da", 3, 24), 7);
    // The longest message implied: not 4, so the short output shows.
    assert_eq!(open_number(&long[1..], b"ad", 0, 24), 5);
}

#[test]
fn every_bit_is_under_the_tag() {
    for variant in Variant::ALL {
        let sizes = variant.sizes();
        let key: Vec<u8> = (0..sizes.key as u8).collect();
        let nonce: Vec<u8> = (50..50 + sizes.nonce as u8).collect();
        let secret = vec![7; sizes.secret];
        let msg: Vec<u8> = (0..=sizes.block as u8).collect();
        let sealed = reference::sealing::words::seal(variant, &key, &nonce, &secret, b"ad", &msg);
        for number in 0..8 * sealed.len() {
            let mut changed = sealed.clone();
            changed[number / 8] ^= 1 << (number % 8);
            let opened = open(variant, &key, &nonce, b"a", b"d", &changed, 1000, 24);
            assert_eq!(opened, Err(7), "{variant:?}, bit {number}");
        }
        let opened = open(variant, &key, &nonce, b"a", b"d", &sealed, 1000, 24);
        assert_eq!(opened, Ok((msg, secret)));
    }
}
