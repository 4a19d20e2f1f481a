//! The call that Rust has is that of include/card.h, and the header has no other.

use std::path::Path;

/// The text of a file of the repository.
fn text(name: &str) -> String {
    let root = Path::new(env!("CARGO_MANIFEST_DIR")).join("../..");
    std::fs::read_to_string(root.join(name)).unwrap()
}

/// One blank where the text has several, or a new line.
fn in_one_line(text: &str) -> String {
    text.split_whitespace().collect::<Vec<_>>().join(" ")
}

/// The code of the header, without its comments.
fn header() -> String {
    let text = text("include/card.h");
    let parts = text.split("*/");
    let code: String = parts.map(|part| part.split("/*").next().unwrap()).collect();
    in_one_line(&code)
}

const IN_C: &str = "uint32_t burst_card_line(uint64_t card, uint64_t shots, uint64_t picture, \
                    uint64_t *bursts, uint64_t *left);";

const IN_RUST: &str = "extern \"C\" { fn burst_card_line( card: u64, shots: u64, picture: u64, \
                       bursts: *mut u64, left: *mut u64, ) -> u32; }";

#[test]
fn call_is_that_of_the_header() {
    let header = header();
    let (before, after) = header.split_once(IN_C).unwrap();
    assert!(!before.contains('(') && !after.contains('('), "{header}");
    let code = in_one_line(&text("tools/proved_calls/src/card.rs"));
    assert_eq!(code.matches("extern").count(), 1);
    assert!(code.contains(IN_RUST), "{code}");
}

/// The number of the refusal that burst.h does not have.
#[test]
fn number_of_the_header() {
    let header = header();
    let numbers = "enum burst_card_refusal { BURST_SHOT_COUNT = 16 };";
    assert!(header.contains(numbers), "{header}");
    assert_eq!(header.matches('=').count(), 1);
}
