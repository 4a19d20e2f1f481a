//! The sizes, call bytes and calls that Rust has are those of include/burst.h.

use proved_calls::burst;
use std::collections::BTreeMap;
use std::path::Path;

const NUMBERS: [(&str, usize); 15] = [
    ("CALL_DROP", burst::CALL_DROP as usize),
    ("CALL_CLOSE", burst::CALL_CLOSE as usize),
    ("CALL_KEEP", burst::CALL_KEEP as usize),
    ("KEY_BYTES", burst::KEY_BYTES),
    ("SITE_MARK_BYTES", burst::SITE_MARK_BYTES),
    ("STAMP_BYTES", burst::STAMP_BYTES),
    ("MAX_PICTURE_BYTES", burst::MAX_PICTURE_BYTES),
    ("MAX_SHOTS", burst::MAX_SHOTS),
    ("MIN_WRITTEN_BYTES", burst::MIN_WRITTEN_BYTES),
    ("MIN_READ_BYTES", burst::MIN_READ_BYTES),
    ("CHECK_INFO_BYTES", burst::CHECK_INFO_BYTES),
    ("FETCH_INFO_BYTES", burst::FETCH_INFO_BYTES),
    ("LIST_BYTES", burst::LIST_BYTES),
    ("MAX_LISTED_BYTES", burst::MAX_LISTED_BYTES),
    ("ANSWER_BYTES", burst::ANSWER_BYTES),
];

/// The number that the header gives a name, as `BURST_name = number`.
fn in_header(header: &str, name: &str) -> usize {
    let front = format!("BURST_{name} = ");
    let found = header
        .split_once(&front)
        .unwrap_or_else(|| panic!("{name}"));
    let end = found.1.find(|digit: char| !digit.is_ascii_digit());
    found.1[..end.unwrap()].parse().unwrap()
}

/// The text of a file of the repository.
fn text(name: &str) -> String {
    let root = Path::new(env!("CARGO_MANIFEST_DIR")).join("../..");
    std::fs::read_to_string(root.join(name)).unwrap()
}

#[test]
fn numbers_are_those_of_the_header() {
    let header = text("include/burst.h");
    for (name, number) in NUMBERS {
        assert_eq!(in_header(&header, name), number, "{name}");
    }
}

/// The calls, and what each takes and returns, as Rust writes it.
type Calls = BTreeMap<String, String>;

/// Rust's type for one of C.
fn rust_type(c_type: &str) -> &'static str {
    match c_type {
        "size_t" => "usize",
        "uint32_t" => "u32",
        "uint64_t" => "u64",
        "const uint8_t *" => "*const u8",
        "const uint64_t *" => "*const u64",
        "uint8_t *" => "*mut u8",
        "uint32_t *" => "*mut u32",
        "uint64_t *" => "*mut u64",
        other => panic!("{other}"),
    }
}

/// A type and a name, such as `const uint8_t *key`.
fn type_and_name(declared: &str) -> (&'static str, &str) {
    let name = declared.rfind([' ', '*']).unwrap() + 1;
    (rust_type(declared[..name].trim()), &declared[name..])
}

/// The calls of a C header.
fn c_calls(header: &str) -> Calls {
    let mut code = String::new();
    for part in header.split("*/") {
        code += part.split("/*").next().unwrap();
    }
    let mut calls = Calls::new();
    for declared in code.split(';') {
        let Some((call, lent)) = declared.split_once('(') else {
            continue;
        };
        let (returned, name) = type_and_name(call.trim());
        let lent = lent.trim_end_matches(')').split(',').map(|one| {
            let (rust_type, name) = type_and_name(one.trim());
            format!("{name}: {rust_type}")
        });
        let lent = lent.collect::<Vec<_>>().join(", ");
        calls.insert(name.into(), format!("({lent}) -> {returned}"));
    }
    calls
}

/// The calls that a Rust file declares as C's, in one block.
fn rust_calls(code: &str) -> Calls {
    let (_, block) = code.split_once("extern \"C\" {").unwrap();
    let (block, _) = block.split_once("\n}").unwrap();
    let mut calls = Calls::new();
    for declared in block.split("fn ").skip(1) {
        let (name, lent) = declared.split_once('(').unwrap();
        let lent: Vec<&str> = lent.split_whitespace().collect();
        let lent = lent.join(" ").replace(", )", ")");
        calls.insert(name.into(), format!("({}", lent.trim_end_matches(';')));
    }
    calls
}

#[test]
fn calls_are_those_of_the_header() {
    let in_header = c_calls(&text("include/burst.h"));
    let in_rust = rust_calls(&text("tools/proved_calls/src/burst.rs"));
    assert_eq!(in_rust, in_header);
    let names = ["check", "fetch", "list", "record", "replay", "size_up"];
    let names = names.map(|name| format!("burst_{name}"));
    assert!(in_header.into_keys().eq(names));
}
