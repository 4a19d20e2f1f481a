//! Counts of bytes, as they are typed.

/// The units, and how many bytes each has.
const UNITS: [(&str, u64); 12] = [
    ("K", 1 << 10),
    ("M", 1 << 20),
    ("G", 1 << 30),
    ("T", 1 << 40),
    ("KiB", 1 << 10),
    ("MiB", 1 << 20),
    ("GiB", 1 << 30),
    ("TiB", 1 << 40),
    ("KB", 1_000),
    ("MB", 1_000_000),
    ("GB", 1_000_000_000),
    ("TB", 1_000_000_000_000),
];

/// The bytes of decimal digits, alone or with a unit right after them; else what
/// is wrong with the text.
pub fn parse_bytes(typed: &str) -> Result<u64, String> {
    let unit = typed.trim_start_matches(|letter: char| letter.is_ascii_digit());
    let digits = &typed[..typed.len() - unit.len()];
    match unit_bytes(unit) {
        Some(each) if !digits.is_empty() => {
            let count = digits.parse::<u64>().ok();
            let bytes = count.and_then(|count| count.checked_mul(each));
            bytes.ok_or_else(|| format!("{typed} is above {} bytes", u64::MAX))
        }
        _ => {
            let units = UNITS.map(|(name, _)| name).join(", ");
            Err(format!(
                "wants decimal digits, alone or with one of {units} right after them, \
                 not `{typed}`"
            ))
        }
    }
}

fn unit_bytes(unit: &str) -> Option<u64> {
    if unit.is_empty() {
        return Some(1);
    }
    let found = UNITS.iter().find(|(name, _)| unit == *name);
    found.map(|(_, bytes)| *bytes)
}
