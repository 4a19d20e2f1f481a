//! The cards of docs/CARDS.md hold what it says, by the proved call.

use burst_calls::cards::{asked, check_answer};
use reference::page;

/// Number, bursts and left of the table of cards.
#[test]
fn cards() {
    for row in page::cards() {
        let asked = asked(row.card, row.shots, row.picture);
        check_answer(asked, row.line, &|| format!("card, {}", row.what));
    }
}
