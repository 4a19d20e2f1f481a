//! The soak of the card line meets every number that the call can give, and runs
//! beside the other cases.

use std::process::Command;

use soak::{run, try_card};

#[test]
fn every_number_of_a_card_comes() {
    let tally = run(7_000_000, 300, try_card).unwrap();
    let expected = [0, 10, 16].map(|number| ("card_line", number));
    assert_eq!(tally.seen(), expected);
}

#[test]
fn cards_are_tried_beside() {
    let program = env!("CARGO_BIN_EXE_soak");
    for (count, cards) in [("0", 0), ("1", 1), ("30", 1), ("31", 2), ("3000", 100)] {
        let output = Command::new(program).args([count, "12"]).output().unwrap();
        let text = String::from_utf8(output.stdout).unwrap();
        let line = text
            .lines()
            .find_map(|line| line.strip_prefix("card_line:"));
        let words = line.unwrap_or_default().split_whitespace();
        // `0 x 3` is the number 0 three times.
        let times = words.skip(2).step_by(3).map(|times| times.parse::<u32>());
        assert_eq!(times.map(Result::unwrap).sum::<u32>(), cards, "{text}");
    }
}
