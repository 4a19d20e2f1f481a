//! Opening in place (request N6): it agrees with `open` into a long enough output
//! on every input, the message stands at the buffer's front, and every other byte
//! stays.

use reference::random::SplitMix64;
use reference::sealing::{bits, open, open_in_place, words, Variant, MAXIMUM};

/// What a sealed message is opened under.
#[derive(Clone)]
struct Under {
    variant: Variant,
    key: Vec<u8>,
    nonce: Vec<u8>,
    ad1: Vec<u8>,
    ad2: Vec<u8>,
}

/// The lengths of key and nonce are right.
fn under(generator: &mut SplitMix64, variant: Variant, ad1: usize, ad2: usize) -> Under {
    Under {
        variant,
        key: generator.next_bytes(variant.sizes().key),
        nonce: generator.next_bytes(variant.sizes().nonce),
        ad1: generator.next_bytes(ad1),
        ad2: generator.next_bytes(ad2),
    }
}

impl Under {
    fn seal(&self, secret: &[u8], msg: &[u8]) -> Vec<u8> {
        let ad = [&self.ad1[..], &self.ad2].concat();
        words::seal(self.variant, &self.key, &self.nonce, secret, &ad, msg)
    }

    fn seal_random(&self, generator: &mut SplitMix64, msg: usize) -> Vec<u8> {
        let secret = generator.next_bytes(self.variant.sizes().secret);
        self.seal(&secret, &generator.next_bytes(msg))
    }

    /// The number of opening in place, which agrees with `open`, and the buffer
    /// afterwards, of which every byte is looked at.
    fn check(&self, sealed: &[u8], info_len: usize) -> (u32, Vec<u8>) {
        let Under {
            variant,
            key,
            nonce,
            ad1,
            ad2,
        } = self;
        let (length, ads) = (sealed.len(), [ad1.len(), ad2.len()]);
        let what = format!("{variant:?}, sealed {length}, ad {ads:?}, info {info_len}");
        let mut buffer = sealed.to_vec();
        let answer = open_in_place(*variant, key, nonce, ad1, ad2, &mut buffer, info_len);
        let opened = open(*variant, key, nonce, ad1, ad2, sealed, usize::MAX, info_len);
        let number = match opened {
            Ok((message, secret)) => {
                assert_eq!(answer, Ok((message.len(), secret)), "{what}");
                let later = &sealed[message.len()..];
                assert!(buffer == [&message, later].concat(), "{what}");
                0
            }
            Err(refusal) => {
                assert_eq!(answer, Err(refusal), "{what}");
                assert!(buffer == sealed, "{what}");
                refusal
            }
        };
        (number, buffer)
    }

    fn number(&self, sealed: &[u8], info_len: usize) -> u32 {
        self.check(sealed, info_len).0
    }
}

#[test]
fn every_message_to_600() {
    let mut generator = SplitMix64::new(0x6_0600);
    for variant in Variant::ALL {
        for msg in 0..=600 {
            let under = under(&mut generator, variant, msg % 7, msg % 5);
            let sealed = under.seal_random(&mut generator, msg);
            assert_eq!(under.number(&sealed, variant.info_bytes()), 0);
        }
    }
}

/// Every length to more than two blocks, cut in two anywhere.
#[test]
fn every_associated_data_to_260() {
    let mut generator = SplitMix64::new(0x6_0260);
    for variant in Variant::ALL {
        for ad in 0..=260 {
            let first = generator.below(ad + 1);
            let under = under(&mut generator, variant, first, ad - first);
            let sealed = under.seal_random(&mut generator, 130);
            assert_eq!(under.number(&sealed, 100), 0);
        }
    }
}

#[test]
fn long_messages() {
    let mut generator = SplitMix64::new(0x6_1048);
    for variant in Variant::ALL {
        for msg in [65_536, 1_048_575, 1_048_576] {
            let under = under(&mut generator, variant, 3, msg);
            let sealed = under.seal_random(&mut generator, msg);
            assert_eq!(under.number(&sealed, 24), 0);
        }
    }
}

/// What the bit-level sealing made, which shares nothing with opening in place.
#[test]
fn messages_sealed_bit_by_bit() {
    let mut generator = SplitMix64::new(0x6_0B17);
    for variant in Variant::ALL {
        for msg in [
            0, 1, 15, 16, 17, 119, 120, 121, 127, 128, 129, 240, 256, 257,
        ] {
            let under = under(&mut generator, variant, 100, 28);
            let secret = generator.next_bytes(variant.sizes().secret);
            let msg = generator.next_bytes(msg);
            let ad = [&under.ad1[..], &under.ad2].concat();
            let sealed = bits::seal(variant, &under.key, &under.nonce, &secret, &ad, &msg);
            let (number, buffer) = under.check(&sealed, 24);
            assert_eq!(number, 0);
            assert_eq!(buffer[..msg.len()], msg);
            assert_eq!(buffer[msg.len()..], sealed[msg.len()..]);
        }
    }
}

/// Three bytes under 128, byte by byte: they stand where the sealed secret number
/// began, and its other 13 bytes, the ciphertext and the tag stay.
#[test]
fn where_the_bytes_stand() {
    let under = under(&mut SplitMix64::new(3), Variant::Icepole128, 2, 2);
    let sealed = under.seal(&[0x51; 16], b"owl");
    assert_eq!(sealed.len(), 35);
    let (number, buffer) = under.check(&sealed, 24);
    assert_eq!((number, &buffer[..3]), (0, &b"owl"[..]));
    assert_eq!(buffer[3..], sealed[3..]);
}

/// Everything wrong at first, then one thing after another put right.
#[test]
fn order_1_2_4_6_5_7() {
    let mut generator = SplitMix64::new(0x6_0124);
    let long = vec![0; MAXIMUM + 33];
    for variant in Variant::ALL {
        let right = under(&mut generator, variant, 2, 3);
        let mut sealed = right.seal_random(&mut generator, 3);
        let too_long = &long[..MAXIMUM + 1 + variant.overhead()];
        let too_short = &sealed[..variant.overhead() - 1];
        let needed = variant.info_bytes();

        let mut wrong = right.clone();
        wrong.key.pop();
        wrong.nonce.push(0);
        wrong.ad2 = long[..MAXIMUM].to_vec();
        for buffer in [too_long, too_short, &sealed] {
            assert_eq!(wrong.number(buffer, 0), 1);
        }
        wrong.key.clone_from(&right.key);
        for buffer in [too_long, too_short, &sealed] {
            assert_eq!(wrong.number(buffer, 0), 2);
        }
        wrong.nonce.clone_from(&right.nonce);
        for buffer in [too_long, too_short, &sealed] {
            assert_eq!(wrong.number(buffer, 0), 4);
        }
        assert_eq!(right.number(too_long, 0), 4);
        // The longest there is: not 4, so that the next number shows.
        assert_eq!(right.number(&too_long[1..], needed - 1), 5);
        assert_eq!(right.number(too_short, 0), 6);
        assert_eq!(right.number(&[], 0), 6);
        assert_eq!(right.number(&sealed, 0), 5);
        assert_eq!(right.number(&sealed, needed - 1), 5);
        assert_eq!(right.number(&sealed, needed), 0);
        sealed[0] ^= 1;
        assert_eq!(right.number(&sealed, needed - 1), 5);
        assert_eq!(right.number(&sealed, needed), 7);
    }
}

#[test]
fn every_bit_is_under_the_tag() {
    let mut generator = SplitMix64::new(0x6_0007);
    for variant in Variant::ALL {
        let under = under(&mut generator, variant, 1, 1);
        let sealed = under.seal_random(&mut generator, variant.sizes().block + 1);
        for number in 0..8 * sealed.len() {
            let mut changed = sealed.clone();
            changed[number / 8] ^= 1 << (number % 8);
            assert_eq!(under.number(&changed, 24), 7, "{variant:?}, bit {number}");
        }
    }
}

/// The buffer of an opened message is not a sealed message any more, unless
/// nothing was written, or nothing but what stood there.
#[test]
fn opening_a_second_time() {
    let mut generator = SplitMix64::new(0x6_0002);
    for variant in Variant::ALL {
        for msg in [0, 16, 17, 128, 300] {
            let under = under(&mut generator, variant, 4, 0);
            let sealed = under.seal_random(&mut generator, msg);
            let (_, buffer) = under.check(&sealed, 24);
            let expected = if msg == 0 { 0 } else { 7 };
            assert_eq!(under.number(&buffer, 24), expected, "{variant:?}, {msg}");
        }
        // One nonce in 256 gives the byte that stood there.
        let mut under = under(&mut generator, variant, 4, 0);
        let secret = vec![1; variant.sizes().secret];
        let sealed = loop {
            let sealed = under.seal(&secret, &[0x33]);
            if sealed[0] == 0x33 {
                break sealed;
            }
            under.nonce = generator.next_bytes(under.nonce.len());
        };
        for _ in 0..3 {
            assert_eq!(under.check(&sealed, 24), (0, sealed.clone()));
        }
    }
}
