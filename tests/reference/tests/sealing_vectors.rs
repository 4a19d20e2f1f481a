//! One sealed message for each variant. The values were worked out once with
//! a separate program in another language, written from the same documents.

use reference::sealing::{bits, seal, Variant};

/// Key 00 01 .., nonce 10 11 .., secret number 20 21 .., associated data
/// "associated", message 00 01 .. 81: the first 32 bytes and the tag.
fn check(variant: Variant, front: &str, tag: &str) {
    let sizes = variant.sizes();
    let counting = |from: usize, count: usize| -> Vec<u8> {
        (from..from + count).map(|value| value as u8).collect()
    };
    let key = counting(0, sizes.key);
    let nonce = counting(0x10, sizes.nonce);
    let secret = counting(0x20, sizes.secret);
    let msg = counting(0, 130);

    let length = msg.len() + variant.overhead();
    let sealed = seal(
        variant, &key, &nonce, &secret, b"asso", b"ciated", &msg, length,
    )
    .unwrap();
    assert_eq!(sealed.len(), length);
    assert_eq!(hex(&sealed[..32]), front);
    assert_eq!(hex(&sealed[length - 16..]), tag);

    let of_bits = bits::seal(variant, &key, &nonce, &secret, b"associated", &msg);
    assert_eq!(of_bits, sealed);
}

fn hex(bytes: &[u8]) -> String {
    bytes.iter().map(|byte| format!("{byte:02x}")).collect()
}

#[test]
fn vector_of_128() {
    check(
        Variant::Icepole128,
        "8c676b871eda5a3249418f43a221e9c17d01a44ba63a00d397f1e8cee0709d60",
        "4949949339182c56a6f16c151d6055d0",
    );
}

#[test]
fn vector_of_128a() {
    check(
        Variant::Icepole128a,
        "7409534e7aa1f3c3ef0687d732028c79778281fa16a72ac7afbc0d961558f438",
        "0a3cf1953bde87d2970f997fb58b93bd",
    );
}

#[test]
fn vector_of_256a() {
    check(
        Variant::Icepole256a,
        "8af20b4cce7febbd01c57f87506581ab7fce17723f4031eaea6777f2158545ef",
        "8c440d34ceeb7d0af146f1d1566d6466",
    );
}
