//! The proved sealing and opening of the vectors of docs/FORMAT.md, and of the
//! parts of its first worked file in both editions.

use c_calls::case::Case;
use reference::page::{self, counting, WORKED};
use reference::sealing::Variant;

#[test]
fn vectors_and_parts() {
    let worked = WORKED.iter().flat_map(|worked| worked.parts());
    for part in page::vectors().into_iter().chain(worked) {
        let case = Case {
            variant: Variant::Icepole128,
            key: counting(0x00, 16),
            nonce: part.nonce.to_vec(),
            secret: part.secret,
            ad1: part.ad,
            ad2: vec![],
            msg: part.message,
        };
        case.check_seals_as(&part.sealed, 0);
        case.check_opens(&part.sealed, 0, 0);
    }
}
