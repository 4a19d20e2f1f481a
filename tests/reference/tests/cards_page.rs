//! What docs/CARDS.md shows is what request N2 says: its table of cards and what
//! they hold, the words beside it, and the rule.

mod help;

use std::collections::BTreeSet;

use help::file_of;
use reference::burst::layout::{EDITION_2, ENTRY_BYTES, LONGEST_PICTURE, MOST_SHOTS, SEAL_BYTES};
use reference::burst::{card_line, size_up, CardLine};
use reference::page;
use reference::random::SplitMix64;

/// What a card holds by the page's rule, in its order.
fn card_by_rule(card: u64, shots: u64, picture: u64) -> Result<CardLine, u32> {
    if shots == 0 || shots > 60 {
        return Err(16);
    }
    if picture == 0 || picture > 1_048_576 {
        return Err(10);
    }
    let length = 72 + shots * (picture + 44);
    let (bursts, left) = (card / length, card % length);
    Ok(CardLine { bursts, left })
}

#[test]
fn no_other_tables_and_no_blocks() {
    assert_eq!(page::card_tables(), ["Cards"]);
    assert!(!page::cards_say("\n```"));
}

#[test]
fn every_card() {
    let cards = page::cards();
    assert_eq!(cards.len(), 20);
    for row in &cards {
        let given = card_line(row.card, row.shots, row.picture);
        assert_eq!(given, row.line, "{row:?}");
        let by_rule = card_by_rule(row.card, row.shots, row.picture);
        assert_eq!(by_rule, row.line, "rule, {row:?}");
    }
    let numbers: BTreeSet<u32> = cards.iter().filter_map(|row| row.line.err()).collect();
    assert_eq!(numbers, BTreeSet::from([10, 16]));
}

/// The longest file.
fn longest_file() -> usize {
    let shortest = file_of(EDITION_2, 1, &[]).len();
    shortest + MOST_SHOTS * (LONGEST_PICTURE + SEAL_BYTES + ENTRY_BYTES)
}

/// What the words beside the table say of file lengths is what sizing up says,
/// and so is the sum in the text. A card of no bytes has its answer there too.
#[test]
fn remarks_on_cards() {
    let mut lengths = Vec::new();
    for row in page::cards() {
        let words = row.what.strip_prefix("a file has ");
        if let Some(length) = words.and_then(|words| words.strip_suffix(" bytes")) {
            let size = size_up(&vec![row.picture; row.shots as usize]).unwrap();
            assert_eq!(length, size.file_length.to_string(), "{row:?}");
            let sum = 72 + row.shots * (row.picture + 44);
            assert_eq!(sum, size.file_length, "{row:?}");
            lengths.push(sum as usize);
        }
    }
    assert_eq!(lengths, [117, 416, longest_file(), 750_204]);
    assert!(page::cards_say(
        "\n    72 + shots * (picture length + 44)\n"
    ));
    let CardLine { bursts, left } = card_line(0, 1, 1).unwrap();
    let words = format!("one of 0 bytes has an answer, bursts {bursts} and left {left}.");
    assert!(page::cards_say(&words), "{words}");
}

/// The page's rule, on cards of every magnitude, some of them refused.
#[test]
fn cards_at_random() {
    let mut generator = SplitMix64::new(16);
    let mut met = BTreeSet::new();
    for _ in 0..10_000 {
        let card = generator.next_word() >> generator.below(64);
        let shots = generator.below(63) as u64;
        let picture = (generator.next_word() % 1_100_000) >> generator.below(20);
        let line = card_by_rule(card, shots, picture);
        let given = card_line(card, shots, picture);
        assert_eq!(given, line, "{card}, {shots} of {picture}");
        met.insert(line.err());
    }
    assert_eq!(met, BTreeSet::from([None, Some(10), Some(16)]));
}
