//! Every set of conditions that can hold together gives the number of the
//! first in the scope paper's order, and a refused call writes nothing.

use std::collections::HashSet;

use c_calls::case::info_written;
use c_calls::for_each_variant;
use c_calls::lent::Lent;
use c_calls::order::{
    associated_data, choices, first_to_hold, is_left_out, lengths, message, sealed_messages, BYTES,
    LARGE, OVER, ZEROS,
};
use reference::sealing::{words, Variant, MAXIMUM};

fn seal_in_the_order_1_2_3_4_5(variant: Variant) {
    let sizes = variant.sizes();
    let keys = lengths(sizes.key);
    let nonces = lengths(sizes.nonce);
    let secrets = lengths(sizes.secret);
    let ads = associated_data();
    let mut small = Lent::new(LARGE);
    let mut large = Lent::new(OVER + 40);
    let mut subsets = HashSet::new();

    let limits = [keys.len(), nonces.len(), secrets.len(), ads.len(), 2, 4];
    for [k, n, s, a, m, o] in choices(limits) {
        let (key, nonce, secret) = (keys[k], nonces[n], secrets[s]);
        let (ad1, ad2) = ads[a];
        let msg = message(m == 1);
        let needed = msg.len() + variant.overhead();
        let out_len = [needed, needed - 1, needed + 3, 0][o];
        if is_left_out(out_len, o, &[k, n, s, a]) {
            continue;
        }

        let order = [
            (1, key != sizes.key),
            (2, nonce != sizes.nonce),
            (3, secret != sizes.secret),
            (4, ad1.len() + ad2.len() > MAXIMUM),
            (4, msg.len() > MAXIMUM),
            (5, out_len < needed),
        ];
        subsets.insert(order);
        let what = || {
            let (ad1, ad2, msg) = (ad1.len(), ad2.len(), msg.len());
            format!(
                "{variant:?}, key {key}, nonce {nonce}, secret {secret}, \
                 ad {ad1} + {ad2}, msg {msg}, out {out_len}"
            )
        };

        let (key, nonce, secret) = (&BYTES[..key], &BYTES[..nonce], &BYTES[..secret]);
        let out = if out_len > LARGE {
            &mut large
        } else {
            &mut small
        };
        let lent = out.first(out_len);
        let number = c_calls::seal(variant, key, nonce, secret, ad1, ad2, msg, lent);
        assert_eq!(number, first_to_hold(&order), "{}", what());
        if number == 0 {
            let ad = [ad1, ad2].concat();
            let sealed = words::seal(variant, key, nonce, secret, &ad, msg);
            out.check_written(&sealed, &what);
            *out = Lent::new(LARGE);
        } else {
            out.check_untouched(&what);
        }
    }
    // All six are free of each other.
    assert_eq!(subsets.len(), 1 << 6);
}

fn open_in_the_order_1_2_4_6_5_7(variant: Variant) {
    let sizes = variant.sizes();
    let keys = lengths(sizes.key);
    let nonces = lengths(sizes.nonce);
    let ads = associated_data();
    let sealed_messages = sealed_messages(variant);
    let needed_info = variant.info_bytes();
    let infos = [needed_info, needed_info - 1, needed_info + 3, 0];
    let mut small = Lent::new(LARGE);
    let mut large = Lent::new(OVER + 3);
    let mut info = Lent::new(LARGE);
    let mut subsets = HashSet::new();

    let limits = [
        keys.len(),
        nonces.len(),
        ads.len(),
        sealed_messages.len(),
        4,
        4,
    ];
    for [k, n, a, s, o, i] in choices(limits) {
        let (key, nonce, info_len) = (keys[k], nonces[n], infos[i]);
        let (ad1, ad2) = ads[a];
        let ad_over = ad1.len() + ad2.len() > MAXIMUM;
        let sealed = &sealed_messages[s];
        // A sealed message that is too short implies no message; the output
        // then has any length.
        let implied = sealed.bytes.len().checked_sub(variant.overhead());
        let out_len = match implied {
            Some(msg_len) => [msg_len, msg_len - 1, msg_len + 3, 0][o],
            None => [0, 1, 10, 60][o],
        };
        // The tag is right or wrong with the associated data it was made with.
        if ad_over != sealed.ad_over || is_left_out(out_len, o, &[k, n, a, i]) {
            continue;
        }

        let order = [
            (1, key != sizes.key),
            (2, nonce != sizes.nonce),
            (4, ad_over),
            (4, implied.is_some_and(|msg_len| msg_len > MAXIMUM)),
            (6, implied.is_none()),
            (5, implied.is_some_and(|msg_len| out_len < msg_len)),
            (5, info_len < needed_info),
            (7, sealed.changed),
        ];
        subsets.insert(order);
        let what = || {
            let (ad1, ad2) = (ad1.len(), ad2.len());
            let (sealed, changed) = (sealed.bytes.len(), sealed.changed);
            format!(
                "{variant:?}, key {key}, nonce {nonce}, ad {ad1} + {ad2}, \
                 sealed {sealed} (changed {changed}), out {out_len}, info {info_len}"
            )
        };

        let (key, nonce) = (&BYTES[..key], &BYTES[..nonce]);
        let out = if out_len > LARGE {
            &mut large
        } else {
            &mut small
        };
        let (lent, lent_info) = (out.first(out_len), info.first(info_len));
        let number = c_calls::open(
            variant,
            key,
            nonce,
            ad1,
            ad2,
            &sealed.bytes,
            lent,
            lent_info,
        );
        assert_eq!(number, first_to_hold(&order), "{}", what());
        if number == 0 {
            out.check_written(message(false), &what);
            let secret = &BYTES[..sizes.secret];
            info.check_written(&info_written(message(false).len(), secret), &what);
            *out = Lent::new(LARGE);
            info = Lent::new(LARGE);
        } else {
            out.check_untouched(&what);
            info.check_untouched(&what);
        }
    }
    // Key, nonce, associated data, message above the maximum, output, info and
    // tag are free of each other. A sealed message that is too short has no
    // message above the maximum, no output too short for it, and no tag.
    assert_eq!(subsets.len(), (1 << 7) + (1 << 4));
}

/// Data of the maximum itself is not refused with 4, so that the next number
/// in the order shows, without long work.
fn the_maximum_itself_is_not_4(variant: Variant) {
    let sizes = variant.sizes();
    let key = &BYTES[..sizes.key];
    let nonce = &BYTES[..sizes.nonce];
    let secret = &BYTES[..sizes.secret];
    let most = &ZEROS[..MAXIMUM];
    let few = &BYTES[..3];
    for (ad1, ad2) in [few.split_at(1), most.split_at(MAXIMUM), most.split_at(5)] {
        for msg in [few, most] {
            let (ads, length) = (ad1.len() + ad2.len(), msg.len());
            let what = || format!("{variant:?}, ad {ads}, msg {length}");
            let mut out = Lent::new(2);
            let lent = out.slice();
            let number = c_calls::seal(variant, key, nonce, secret, ad1, ad2, msg, lent);
            assert_eq!(number, 5, "{}", what());
            out.check_untouched(&what);

            let sealed = vec![0; length + variant.overhead()];
            let mut info = Lent::new(variant.info_bytes());
            let (lent, lent_info) = (out.slice(), info.slice());
            let number = c_calls::open(variant, key, nonce, ad1, ad2, &sealed, lent, lent_info);
            assert_eq!(number, 5, "{}", what());

            let below = &sealed[..variant.overhead() - 1];
            let (lent, lent_info) = (out.slice(), info.slice());
            let number = c_calls::open(variant, key, nonce, ad1, ad2, below, lent, lent_info);
            assert_eq!(number, 6, "{}", what());
            out.check_untouched(&what);
            info.check_untouched(&what);
        }
    }
}

for_each_variant!(
    seal_in_the_order_1_2_3_4_5,
    open_in_the_order_1_2_4_6_5_7,
    the_maximum_itself_is_not_4,
);

#[test]
fn choices_are_all_different() {
    let all: HashSet<[usize; 3]> = choices([2, 3, 4]).collect();
    assert_eq!(all.len(), 24);
    assert!(all.contains(&[0, 0, 0]) && all.contains(&[1, 2, 3]));
    assert_eq!(choices([2, 3, 4]).count(), 24);
}
