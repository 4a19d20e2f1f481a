//! Opening in place: every set of conditions that can hold together gives the
//! number of the first in the order, and a refused call leaves the sealed message
//! and writes nothing to info.

use std::collections::HashSet;

use c_calls::case::info_written;
use c_calls::for_each_variant;
use c_calls::lent::Lent;
use c_calls::order::{
    associated_data, choices, first_to_hold, is_left_out, lengths, message, sealed_messages, BYTES,
    LARGE, ZEROS,
};
use reference::sealing::{Variant, MAXIMUM};

fn in_place_in_the_order_1_2_4_6_5_7(variant: Variant) {
    let sizes = variant.sizes();
    let keys = lengths(sizes.key);
    let nonces = lengths(sizes.nonce);
    let ads = associated_data();
    let needed_info = variant.info_bytes();
    let infos = [needed_info, needed_info - 1, needed_info + 3, 0];
    let mut info = Lent::new(LARGE);
    let mut subsets = HashSet::new();

    for sealed in sealed_messages(variant) {
        let implied = sealed.bytes.len().checked_sub(variant.overhead());
        let mut buffer = Lent::holding(&sealed.bytes);
        for [k, n, a, i] in choices([keys.len(), nonces.len(), ads.len(), infos.len()]) {
            let (key, nonce, info_len) = (keys[k], nonces[n], infos[i]);
            let (ad1, ad2) = ads[a];
            let ad_over = ad1.len() + ad2.len() > MAXIMUM;
            // The tag is right or wrong with the associated data it was made with.
            if ad_over != sealed.ad_over || is_left_out(sealed.bytes.len(), 0, &[k, n, a, i]) {
                continue;
            }

            let order = [
                (1, key != sizes.key),
                (2, nonce != sizes.nonce),
                (4, ad_over),
                (4, implied.is_some_and(|msg_len| msg_len > MAXIMUM)),
                (6, implied.is_none()),
                (5, info_len < needed_info),
                (7, sealed.changed),
            ];
            subsets.insert(order);
            let what = || {
                let (ad1, ad2) = (ad1.len(), ad2.len());
                let (sealed, changed) = (sealed.bytes.len(), sealed.changed);
                format!(
                    "{variant:?}, key {key}, nonce {nonce}, ad {ad1} + {ad2}, \
                     sealed {sealed} (changed {changed}), info {info_len}"
                )
            };

            let (key, nonce) = (&BYTES[..key], &BYTES[..nonce]);
            let (lent, lent_info) = (buffer.slice(), info.first(info_len));
            let number = c_calls::open_in_place(variant, key, nonce, ad1, ad2, lent, lent_info);
            assert_eq!(number, first_to_hold(&order), "{}", what());
            if number == 0 {
                buffer.check_written(message(false), &what);
                let secret = &BYTES[..sizes.secret];
                info.check_written(&info_written(message(false).len(), secret), &what);
                buffer = Lent::holding(&sealed.bytes);
                info = Lent::new(LARGE);
            } else {
                buffer.check_untouched(&what);
                info.check_untouched(&what);
            }
        }
    }
    // Key, nonce, associated data, message above the maximum, info and tag are
    // free of each other. A sealed message that is too short has no message above
    // the maximum, and no tag.
    assert_eq!(subsets.len(), (1 << 6) + (1 << 4));
}

/// Data of the maximum itself is not refused with 4, so that the next number in
/// the order shows, without long work; one byte more is.
fn maximum_and_one_byte_more(variant: Variant) {
    let sizes = variant.sizes();
    let (key, nonce) = (&BYTES[..sizes.key], &BYTES[..sizes.nonce]);
    let few = &BYTES[..3];
    let most = &ZEROS[..MAXIMUM];
    let overhead = variant.overhead();
    for (buffer_len, expected) in [
        (overhead - 1, 6),
        (overhead, 5),
        (MAXIMUM + overhead, 5),
        (MAXIMUM + overhead + 1, 4),
    ] {
        let mut buffer = Lent::new(buffer_len);
        let mut info = Lent::new(variant.info_bytes() - 1);
        for (ad1, ad2) in [few.split_at(1), most.split_at(MAXIMUM), most.split_at(5)] {
            let ads = ad1.len() + ad2.len();
            let what = || format!("{variant:?}, ad {ads}, buffer {buffer_len}");
            let (lent, lent_info) = (buffer.slice(), info.slice());
            let number = c_calls::open_in_place(variant, key, nonce, ad1, ad2, lent, lent_info);
            assert_eq!(number, expected, "{}", what());
            buffer.check_untouched(&what);
            info.check_untouched(&what);
        }
    }
}

for_each_variant!(in_place_in_the_order_1_2_4_6_5_7, maximum_and_one_byte_more);
