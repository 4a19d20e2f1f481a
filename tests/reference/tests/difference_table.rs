//! The S-box's difference distribution table against Table 4 of 003, Appendix C.
//!
//! The index of the table has M_0 as its lowest bit, as in the scope paper.
//!
//! In the text of 003 at hand most rows of Table 4 are garbled: dashes are lost
//! or doubled, so that entries stand some places off.
//! - Rows 08 09 0d 0e 12 13 17 1b 1c 1e cannot be rows of such a table: their
//!   entries do not sum to 32, or are not 32. They are left out.
//! - Sixteen rows have 32 entries that sum to 32, but at shifted places. That
//!   they are shifted shows where the S-box's symmetry gives the row: row 02 must
//!   be row 01 with both differences rotated by one, and is not. Of these
//!   sixteen only the order of the entries other than 0 is compared.
//! - Six rows are intact and are compared whole.

use reference::permutation::bits::sbox;

/// Intact rows: input difference, and the entries for output differences 00 to 1f.
#[rustfmt::skip]
const INTACT_ROWS: [(u8, &str); 6] = [
    (0x00, "32 - - - - - - - - - - - - - - - - - - - - - - - - - - - - - - -"),
    (0x01, "- 8 - - - - - - - 6 - - - - 2 - - 6 - - - - 2 - - 8 - - - - - -"),
    (0x07, "- - - - 2 - 2 2 - - - - 2 2 2 - 2 - - - 2 2 2 2 - - 2 - 2 2 2 2"),
    (0x16, "- - 2 6 4 4 - - - - - - - - - - - - - - - - - - - - 4 4 2 6 - -"),
    (0x19, "- 2 - 2 2 2 - 2 - - - 2 - 2 - 2 - 2 - 2 - 2 2 2 - 2 - - - 2 - 2"),
    (0x1F, "- 2 2 - 2 - - 2 2 - - 2 - 2 2 - 2 - - 2 - 2 2 - - 2 2 - 2 - - 2"),
];

/// Rows whose entries stand at shifted places, as the text has them.
#[rustfmt::skip]
const SHIFTED_ROWS: [(u8, &str); 16] = [
    (0x02, "- - 8 6 - - - - - - - - - 2 - - - 6 8 - - - - - - - - 2 - - - -"),
    (0x03, "- - 2 4 - - - - - - 4 2 - - - - - 4 4 2 - - - - - - 4 4 - 2 - -"),
    (0x04, "- - - - 8 6 6 8 - - - - - - - - - - - - - - - - 2 2 - - - - - -"),
    (0x05, "- - - - 4 - 4 - 2 - - - 2 - 4 - - - 2 - 4 - 2 - - - - - - 4 - 4"),
    (0x06, "- - - - 2 4 4 4 - 2 - - - - - - - - 4 4 2 4 - - - - 2 - - - - -"),
    (0x0A, "- - - - - - 2 4 - - 4 4 - - 2 2 - - - - - - - - 2 - - 4 4 - - 4"),
    (0x0B, "- 2 4 - - - - - - - - - 4 2 - - 6 4 - - - - - - - - - - - 4 6 -"),
    (0x0C, "- - - - - - - 2 4 4 4 4 2 4 4 - - 2 - - - - 2 - - - - - - - - -"),
    (0x0F, "- - - - 2 2 2 - 2 2 2 - - - - - - - - 4 2 2 2 4 2 2 2 - - - - -"),
    (0x10, "- - - - - - 2 - - - 2 - - - - 8 - - - 6 - - - 6 - - - 8 - - - -"),
    (0x11, "- 2 - - 4 - - - 4 2 - - 4 - - - 4 - - - 2 - - - 4 - - 4 2 - - -"),
    (0x14, "- 2 - - - - - - - - - - - 2 - 4 2 - - - - 4 4 4 4 - - - - 2 4 -"),
    (0x15, "- 4 - - - - 2 - 4 - - - - - 6 2 - - - - - 4 - 6 - - - - - 4 - -"),
    (0x18, "- - - - 2 - - - - - - - - - 2 2 - 4 - 4 - 4 - 4 - 2 - 4 - 4 - -"),
    (0x1A, "- - - - - - - 2 - - 4 6 - 4 4 - - 2 4 - - 6 - - - - - - - - - -"),
    (0x1D, "- 2 - 4 - 2 - 2 - 2 - 2 - - 2 2 - 4 - 2 - 2 - 2 - 2 - - - 2 - -"),
];

fn parse(row: &str) -> Vec<u32> {
    let entry = |field: &str| match field {
        "-" => 0,
        number => number.parse().unwrap(),
    };
    let entries: Vec<u32> = row.split(' ').map(entry).collect();
    assert_eq!(entries.len(), 32);
    assert_eq!(entries.iter().sum::<u32>(), 32);
    entries
}

/// How often each output difference occurs for one input difference.
fn difference_row(sbox: impl Fn(u8) -> u8, difference: u8) -> Vec<u32> {
    let mut counts = vec![0; 32];
    for input in 0..32 {
        counts[usize::from(sbox(input) ^ sbox(input ^ difference))] += 1;
    }
    counts
}

fn other_than_0(row: &[u32]) -> Vec<u32> {
    row.iter().copied().filter(|&entry| entry != 0).collect()
}

/// The five bits in the opposite order.
fn reversed(value: u8) -> u8 {
    value.reverse_bits() >> 3
}

/// The S-box read with M_0 as the highest bit.
fn sbox_reversed(input: u8) -> u8 {
    reversed(sbox(reversed(input)))
}

/// The bit k goes to k + steps mod 5.
fn rotated(value: u8, steps: usize) -> u8 {
    ((value << steps) | (value >> (5 - steps))) & 31
}

#[test]
fn intact_rows_agree() {
    for (difference, row) in INTACT_ROWS {
        let made = difference_row(sbox, difference);
        assert_eq!(made, parse(row), "row {difference:02x}");
    }
}

// The S-box formula is the same for every k, so rotating both differences
// leaves an entry as it is. The six intact rows so give 17 rows in full.
#[test]
fn rotations_of_intact_rows_agree() {
    let mut compared = std::collections::BTreeSet::new();
    for (difference, row) in INTACT_ROWS {
        let row = parse(row);
        for steps in 0..5 {
            let made = difference_row(sbox, rotated(difference, steps));
            for output in 0..32 {
                let at = usize::from(rotated(output, steps));
                let expected = row[usize::from(output)];
                assert_eq!(
                    made[at], expected,
                    "row {difference:02x} rotated by {steps}"
                );
            }
            compared.insert(rotated(difference, steps));
        }
    }
    assert_eq!(compared.len(), 17);
}

#[test]
fn shifted_rows_agree_in_order() {
    for (difference, row) in SHIFTED_ROWS {
        let made = difference_row(sbox, difference);
        let expected = other_than_0(&parse(row));
        assert_eq!(other_than_0(&made), expected, "row {difference:02x}");
    }
}

// Read with M_0 as the highest bit, the S-box misses the rows that tell the
// two bit orders apart.
#[test]
fn rows_do_not_agree_in_the_other_bit_order() {
    for (difference, row) in INTACT_ROWS {
        let agrees = difference_row(sbox_reversed, difference) == parse(row);
        assert_eq!(
            agrees,
            [0x00, 0x1F].contains(&difference),
            "row {difference:02x}"
        );
    }
    for (difference, row) in SHIFTED_ROWS {
        let made = other_than_0(&difference_row(sbox_reversed, difference));
        let agrees = made == other_than_0(&parse(row));
        assert_eq!(agrees, difference == 0x10, "row {difference:02x}");
    }
}
