//! The examples of the scope paper, numbers 1 to 7, and what stands directly
//! beside each of them.

use c_calls::case::Case;
use c_calls::lent::Lent;
use reference::random::SplitMix64;
use reference::sealing::Variant;

/// 3 bytes under 128.
fn example() -> Case {
    let mut generator = SplitMix64::new(128);
    Case::random(&mut generator, Variant::Icepole128, 4, 5, 3)
}

/// The number of sealing into an output of that length; a refusal writes nothing.
fn seal_number(case: &Case, out_len: usize) -> u32 {
    let mut out = Lent::new(out_len);
    let number = case.seal(out.slice());
    match case.reference_seal(out_len) {
        Ok(sealed) => out.check_written(&sealed, &|| case.describe()),
        Err(_) => out.check_untouched(&|| case.describe()),
    }
    number
}

#[test]
fn number_1_key_of_15_bytes() {
    let mut case = example();
    assert_eq!(seal_number(&case, 35), 0);
    let sealed = case.reference_seal(35).unwrap();
    case.key.pop();
    assert_eq!(seal_number(&case, 35), 1);
    case.check_refused(&sealed, 1, "key of 15 bytes");
}

#[test]
fn number_2_nonce_of_12_bytes_to_128() {
    let mut case = example();
    let sealed = case.reference_seal(35).unwrap();
    case.nonce.truncate(12);
    assert_eq!(seal_number(&case, 35), 2);
    case.check_refused(&sealed, 2, "nonce of 12 bytes");

    // The same nonce is right for 128a.
    case.variant = Variant::Icepole128a;
    case.secret.clear();
    assert_eq!(seal_number(&case, 35), 0);
}

#[test]
fn number_3_empty_secret_number() {
    let mut case = example();
    case.secret.clear();
    assert_eq!(seal_number(&case, 35), 3);

    // The variants without secret number want it empty.
    let mut generator = SplitMix64::new(3);
    for variant in [Variant::Icepole128a, Variant::Icepole256a] {
        let mut case = Case::random(&mut generator, variant, 4, 5, 3);
        assert_eq!(seal_number(&case, 35), 0);
        case.secret = vec![0; 16];
        assert_eq!(seal_number(&case, 35), 3);
    }
}

#[test]
fn number_4_one_byte_above_67_108_864() {
    let mut case = example();
    case.msg = vec![0; 67_108_865];
    assert_eq!(seal_number(&case, 67_108_865 + 32), 4);
    let mut case = example();
    case.ad1 = vec![0; 67_108_864];
    case.ad2 = vec![0; 1];
    assert_eq!(seal_number(&case, 35), 4);
    case.check_refused(&[0; 35], 4, "associated data above its maximum");
    let case = example();
    let mut out = Lent::new(10);
    let mut info = Lent::new(24);
    let sealed = vec![0; 67_108_865 + 32];
    assert_eq!(case.open(&sealed, out.slice(), info.slice()), 4);
    out.check_untouched(&|| case.describe());
    info.check_untouched(&|| case.describe());
}

#[test]
fn number_5_34_bytes_to_seal_3_under_128() {
    let case = example();
    assert_eq!(seal_number(&case, 34), 5);
    assert_eq!(seal_number(&case, 35), 0);
}

#[test]
fn number_5_the_further_slice_of_opening() {
    let mut generator = SplitMix64::new(5);
    for (variant, needed) in [
        (Variant::Icepole128, 24),
        (Variant::Icepole128a, 8),
        (Variant::Icepole256a, 8),
    ] {
        let case = Case::random(&mut generator, variant, 4, 5, 3);
        let sealed = case.reference_seal(35).unwrap();
        for (out_len, info_len, expected) in [
            (3, needed, 0),
            (3, needed - 1, 5),
            (2, needed, 5),
            (2, needed - 1, 5),
            (1000, 0, 5),
            (0, 1000, 5),
        ] {
            let (mut out, mut info) = (Lent::new(out_len), Lent::new(info_len));
            let number = case.open(&sealed, out.slice(), info.slice());
            assert_eq!(number, expected, "out {out_len}, info {info_len}");
            if expected == 5 {
                out.check_untouched(&|| case.describe());
                info.check_untouched(&|| case.describe());
            }
        }
    }
}

#[test]
fn number_6_31_bytes() {
    let case = example();
    let sealed = case.reference_seal(35).unwrap();
    case.check_refused(&sealed[..31], 6, "31 bytes");
    case.check_refused(&sealed[..32], 7, "32 bytes");

    let mut generator = SplitMix64::new(6);
    for variant in [Variant::Icepole128a, Variant::Icepole256a] {
        let case = Case::random(&mut generator, variant, 4, 5, 3);
        let sealed = case.reference_seal(19).unwrap();
        case.check_refused(&sealed[..15], 6, "15 bytes");
        case.check_refused(&sealed[..16], 7, "16 bytes");
    }
}

#[test]
fn number_7_one_tag_bit_changed() {
    let case = example();
    let mut sealed = case.reference_seal(35).unwrap();
    case.check_opens(&sealed, 0, 0);
    sealed[34] ^= 1;
    case.check_refused(&sealed, 7, "a tag bit");
}

/// An empty slice need not point anywhere: Rust's empty slices do not.
#[test]
fn everything_empty_that_can_be() {
    let mut generator = SplitMix64::new(0);
    for variant in Variant::ALL {
        let case = Case::random(&mut generator, variant, 0, 0, 0);
        case.check_both(0, 0);
        let sealed = case.reference_seal(32).unwrap();
        assert_eq!(sealed.len(), variant.overhead());
        let mut info = [0; 24];
        assert_eq!(
            case.open(&sealed, &mut [], &mut info[..variant.info_bytes()]),
            0
        );
        assert_eq!(case.open(&sealed, &mut [], &mut []), 5);
        assert_eq!(case.seal(&mut []), 5);
        assert_eq!(case.open(&[], &mut [], &mut []), 6);
        assert_eq!(case.open_in_place(&mut [], &mut []), 6);
        assert_eq!(
            c_calls::seal(variant, &[], &[], &[], &[], &[], &[], &mut []),
            1
        );
        assert_eq!(
            c_calls::open(variant, &[], &[], &[], &[], &[], &mut [], &mut []),
            1
        );
        assert_eq!(
            c_calls::open_in_place(variant, &[], &[], &[], &[], &mut [], &mut []),
            1
        );
    }
}
