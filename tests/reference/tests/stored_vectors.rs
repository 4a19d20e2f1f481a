//! The vectors' text: its form, and its equality with the stored file; the same
//! equality of the printed constants, of the round log and its verdict, and of
//! the starts in a C program. The round and the lanes that the definitions are
//! held to.

use std::fs;
use std::path::Path;

use reference::generators;
use reference::permutation::{bits, words, State, STARTING_WORDS, ZERO_STATE};
use reference::round_log::{check_log_by, state_bytes, state_of, stored_log};
use reference::rounds_back;
use reference::sealing::{open, Variant};
use reference::vectors::{permutation_vectors, sealing_vectors, vector_state};

/// The folder of the crates, among them the proved programs whose output is
/// compared with a stored file.
const CRATES: &str = concat!(env!("CARGO_MANIFEST_DIR"), "/../../crates");

/// The C program that drives rounds back and forward.
const DRIVE_ROUNDS: &str = concat!(
    env!("CARGO_MANIFEST_DIR"),
    "/../core_calls/c/drive_rounds.c"
);

fn text_of(path: &Path) -> String {
    fs::read_to_string(path)
        .unwrap_or_else(|error| panic!("cannot read {}: {error}", path.display()))
}

/// What differs first between two texts, or nothing when they are equal.
fn first_difference(stored: &str, made: &str) -> Option<String> {
    if stored == made {
        return None;
    }
    let stored: Vec<&str> = stored.split('\n').collect();
    let made: Vec<&str> = made.split('\n').collect();
    let at = (0..).find(|&i| stored.get(i) != made.get(i)).unwrap();
    let show = |line: Option<&&str>| line.map_or("nothing".into(), |text| format!("{text:?}"));
    Some(format!(
        "line {}: stored {}, made {}",
        at + 1,
        show(stored.get(at)),
        show(made.get(at))
    ))
}

/// A program's stored output is the text made anew.
fn check_stored(program: &str, made: &str) {
    let path = Path::new(CRATES).join(program).join("stdout");
    if let Some(difference) = first_difference(&text_of(&path), made) {
        panic!("{} differs, {difference}", path.display());
    }
}

#[test]
fn vectors_equal_the_stored_file() {
    check_stored("permutation_vectors", &permutation_vectors());
}

#[test]
fn sealing_vectors_equal_the_stored_file() {
    check_stored("sealing_vectors", &sealing_vectors());
}

#[test]
fn printed_constants_equal_the_stored_file() {
    check_stored("print_constants", &generators::text());
}

/// The log that is stored as the program's input is the one made anew, and the
/// stored output is the line of its verdict.
#[test]
fn the_round_log_and_its_verdict_equal_the_stored_files() {
    let path = Path::new(CRATES).join("check_round_log/stdin");
    let stored =
        fs::read(&path).unwrap_or_else(|error| panic!("cannot read {}: {error}", path.display()));
    assert!(stored == stored_log(), "{} differs", path.display());
    let verdict = check_log_by(bits::round, &stored);
    assert_eq!(verdict.line(), "agrees, 12 rounds\n");
    check_stored("check_round_log", &verdict.line());
}

/// The numbers of a text, which writes each as 0x and so many digits.
fn numbers_of(text: &str, digits: usize) -> Vec<u64> {
    let number = |rest: &str| u64::from_str_radix(rest.get(..digits)?, 16).ok();
    text.split("0x")
        .skip(1)
        .map(|rest| number(rest).unwrap())
        .collect()
}

/// The words of a definition's file.
fn words_of(definition: &str) -> Vec<u64> {
    numbers_of(&text_of(&Path::new(CRATES).join(definition)), 16)
}

/// Round 0 of the starting words, step by step: the prover holds the
/// definitions to these numbers, and they are the reference's.
#[test]
fn the_worked_round_is_the_references() {
    let worked = bits::steps(STARTING_WORDS, 0);
    assert_eq!(
        words_of("permutation/specs/WorkedRound.antt"),
        worked.as_flattened().as_flattened()
    );
}

/// The state from which two rounds reach zeros: the prover computes it too, and
/// holds the definitions to these numbers.
#[test]
fn the_worked_rounds_back_are_the_references() {
    assert_eq!(
        words_of("rounds_back/specs/WorkedBack.antt"),
        rounds_back::bits::inverse_rounds(ZERO_STATE, 2).as_flattened()
    );
}

/// The lanes of Keccak-f[1600] of the zero state that no starting word is: the
/// prover computes them too, and holds them to these numbers.
#[test]
fn the_other_lanes_are_the_references() {
    let lanes = generators::bits::keccak_f([0; 25]);
    assert_eq!(words_of("constants/specs/KnownLanes.antt"), lanes[..5]);
}

/// The starts of 12 rounds that the C program has, in both versions.
#[test]
fn the_stored_starts_are_the_references() {
    let text = text_of(Path::new(DRIVE_ROUNDS));
    let stored = |name: &str| {
        let (_, array) = text.split_once(&format!("{name}[STATE] = {{")).unwrap();
        let (bytes, _) = array.split_once('}').unwrap();
        numbers_of(bytes, 2)
    };
    let counting: Vec<u8> = (0..160).collect();
    for (name, wanted) in [
        ("START_OF_COUNTING", state_of(&counting)),
        ("START_OF_ZEROS", ZERO_STATE),
    ] {
        let start = rounds_back::bits::inverse_rounds(wanted, 12);
        assert_eq!(stored(name), state_bytes(&start).map(u64::from), "{name}");
        assert_eq!(rounds_back::words::inverse_rounds(wanted, 12), start);
        assert_eq!(bits::p12(start), wanted, "{name}");
    }
}

#[test]
fn first_difference_names_the_line() {
    assert_eq!(first_difference("a\nb\n", "a\nb\n"), None);
    let changed = first_difference("a\nb\n", "a\nc\n").unwrap();
    assert_eq!(changed, "line 2: stored \"b\", made \"c\"");
    let longer = first_difference("a\n", "a\nb\n").unwrap();
    assert_eq!(longer, "line 2: stored \"\", made \"b\"");
    let unended = first_difference("a", "a\n").unwrap();
    assert_eq!(unended, "line 2: stored nothing, made \"\"");
}

/// Reads a vector's five lines back into a state.
fn parse_state(lines: &[&str]) -> State {
    let mut state = ZERO_STATE;
    for (y, line) in lines.iter().enumerate() {
        let fields: Vec<&str> = line.split(' ').collect();
        assert_eq!(fields.len(), 4, "{line:?}");
        for (x, field) in fields.iter().enumerate() {
            assert_eq!(field.len(), 16, "{line:?}");
            assert!(
                !field.contains(|c: char| c.is_ascii_uppercase()),
                "{line:?}"
            );
            state[x][y] = u64::from_str_radix(field, 16).unwrap();
        }
    }
    state
}

// The text comes from the bit-level version; here the word-level one is used.
#[test]
fn vectors_hold_the_word_level_states() {
    let text = permutation_vectors();
    assert!(text.ends_with('\n'));
    let lines: Vec<&str> = text.lines().collect();
    assert_eq!(lines.len(), 14 * 2 * 6);
    for (number, vector) in lines.chunks(6).enumerate() {
        let (k, r) = (number / 2, [6, 12][number % 2]);
        assert_eq!(vector[0], format!("state {k} rounds {r}"));
        let expected = words::rounds(vector_state(k as u64), r);
        assert_eq!(parse_state(&vector[1..]), expected, "{}", vector[0]);
    }
}

// Worked out by hand from the description of the states.
#[test]
fn vector_states_are_as_described() {
    let alternating = vector_state(5);
    assert_eq!(alternating[0], [0x5555555555555555; 5]);
    assert_eq!(alternating[1], [0xAAAAAAAAAAAAAAAA; 5]);
    assert_eq!(alternating[2], alternating[0]);
    assert_eq!(alternating[3], alternating[1]);
    // Seed 6: 6 ^ 6 << 13 is C006; ^ >> 7 gives C186; ^ << 17 gives 1830CC186.
    assert_eq!(vector_state(6)[0][0], 0x1830CC186);
    // Word 1 is S[1][0], one step on.
    let mut v: u64 = 0x1830CC186;
    v ^= v << 13;
    v ^= v >> 7;
    v ^= v << 17;
    assert_eq!(vector_state(6)[1][0], v);
}

fn bytes_of_hex(text: &str) -> Vec<u8> {
    let digits = |i: usize| u8::from_str_radix(&text[2 * i..2 * i + 2], 16).unwrap();
    (0..text.len() / 2).map(digits).collect()
}

// The text comes from the bit-level version; here the word-level one opens each
// line. The run of bytes is made step by step: 31 more each time, and every
// seventh time one more.
#[test]
fn sealing_vectors_are_opened() {
    let mut run: Vec<u8> = vec![0];
    for i in 1..576 {
        let last = run[i - 1];
        run.push(last.wrapping_add(if i % 7 == 0 { 32 } else { 31 }));
    }
    let text = sealing_vectors();
    assert_eq!(text.lines().count(), 300);
    let mut parts = [0; 3];
    for line in text.lines() {
        let words: Vec<&str> = line.split(' ').collect();
        let [name, "message", m, "associated", first, "+", second, sealed, "opened"] = words[..]
        else {
            panic!("{line:?}");
        };
        let number = ["128", "128a", "256a"].iter().position(|&n| n == name);
        let variant = Variant::ALL[number.unwrap()];
        let m: usize = m.parse().unwrap();
        let first: usize = first.parse().unwrap();
        let second: usize = second.strip_suffix(':').unwrap().parse().unwrap();
        parts[usize::from(first > 0) + usize::from(second > 0)] += 1;
        let sizes = variant.sizes();
        let ad = &run[64..64 + first + second];
        let (message, secret) = open(
            variant,
            &run[..sizes.key],
            &run[32..32 + sizes.nonce],
            &ad[..first],
            &ad[first..],
            &bytes_of_hex(sealed),
            m,
            variant.info_bytes(),
        )
        .unwrap();
        assert_eq!(message, run[320..320 + m], "{line:?}");
        assert_eq!(secret, run[48..48 + sizes.secret], "{line:?}");
    }
    // No associated data, one part empty, both parts with bytes.
    assert!(parts.iter().all(|&count| count > 20), "{parts:?}");
}
