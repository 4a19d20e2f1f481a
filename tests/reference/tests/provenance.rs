//! Where the tables come from, by request N8: the starting words are lanes of
//! Keccak-f[1600], the round constants follow a step rule. The offsets are Keccak's.

use reference::generators::{bits, lanes, Lanes};
use reference::generators::{next_constant, round_constants, starting_words, text};
use reference::permutation::{State, OFFSETS, ROUND_CONSTANTS, STARTING_WORDS};
use reference::random::SplitMix64;

const ZERO_LANES: Lanes = [0; 25];

/// Keccak-f[1600] of the zero state, and of what that gives: the well-known
/// answers, by lane number.
const KNOWN: [Lanes; 2] = [
    [
        0xF1258F7940E1DDE7,
        0x84D5CCF933C0478A,
        0xD598261EA65AA9EE,
        0xBD1547306F80494D,
        0x8B284E056253D057,
        0xFF97A42D7F8E6FD4,
        0x90FEE5A0A44647C4,
        0x8C5BDA0CD6192E76,
        0xAD30A6F71B19059C,
        0x30935AB7D08FFC64,
        0xEB5AA93F2317D635,
        0xA9A6E6260D712103,
        0x81A57C16DBCF555F,
        0x43B831CD0347C826,
        0x01F22F1A11A5569F,
        0x05E5635A21D9AE61,
        0x64BEFEF28CC970F2,
        0x613670957BC46611,
        0xB87C5A554FD00ECB,
        0x8C3EE88A1CCF32C8,
        0x940C7922AE3A2614,
        0x1841F924A2C509E4,
        0x16F53526E70465C2,
        0x75F644E97F30A13B,
        0xEAF1FF7B5CECA249,
    ],
    [
        0x2D5C954DF96ECB3C,
        0x6A332CD07057B56D,
        0x093D8D1270D76B6C,
        0x8A20D9B25569D094,
        0x4F9C4F99E5E7F156,
        0xF957B9A2DA65FB38,
        0x85773DAE1275AF0D,
        0xFAF4F247C3D810F7,
        0x1F1B9EE6F79A8759,
        0xE4FECC0FEE98B425,
        0x68CE61B6B9CE68A1,
        0xDEEA66C4BA8F974F,
        0x33C43D836EAFB1F5,
        0xE00654042719DBD9,
        0x7CF8A9F009831265,
        0xFD5449A6BF174743,
        0x97DDAD33D8994B40,
        0x48EAD5FC5D0BE774,
        0xE3B8C8EE55B7B03C,
        0x91A0226E649E42E9,
        0x900E3129E7BADD7B,
        0x202A9EC5FAA3CCE8,
        0x5B3402464E1C3DB6,
        0x609F4E62A44C1059,
        0x20D06CD26A8FBF5C,
    ],
];

/// The well-known constants of Keccak's 24 rounds.
const KECCAK_CONSTANTS: [u64; 24] = [
    0x0000000000000001,
    0x0000000000008082,
    0x800000000000808A,
    0x8000000080008000,
    0x000000000000808B,
    0x0000000080000001,
    0x8000000080008081,
    0x8000000000008009,
    0x000000000000008A,
    0x0000000000000088,
    0x0000000080008009,
    0x000000008000000A,
    0x000000008000808B,
    0x800000000000008B,
    0x8000000000008089,
    0x8000000000008003,
    0x8000000000008002,
    0x8000000000000080,
    0x000000000000800A,
    0x800000008000000A,
    0x8000000080008081,
    0x8000000000008080,
    0x0000000080000001,
    0x8000000080008008,
];

#[test]
fn keccak_has_the_known_answers() {
    for keccak_f in [bits::keccak_f, lanes::keccak_f] {
        assert_eq!(keccak_f(ZERO_LANES), KNOWN[0]);
        assert_eq!(keccak_f(KNOWN[0]), KNOWN[1]);
    }
}

/// SHA3-256 of a message, as hex digits (FIPS 202, 6.1): 136 bytes a block, the
/// bits 01 and the padding behind the message.
fn sha3_256(message: &[u8], keccak_f: fn(Lanes) -> Lanes) -> String {
    let mut padded = message.to_vec();
    padded.push(0x06);
    padded.resize(padded.len().next_multiple_of(136), 0);
    *padded.last_mut().unwrap() |= 0x80;
    let mut state = ZERO_LANES;
    for block in padded.chunks(136) {
        for (lane, bytes) in state.iter_mut().zip(block.chunks(8)) {
            *lane ^= u64::from_le_bytes(bytes.try_into().unwrap());
        }
        state = keccak_f(state);
    }
    let digest = state[..4].iter().flat_map(|lane| lane.to_le_bytes());
    digest.map(|byte| format!("{byte:02x}")).collect()
}

// Published digests: of no byte, of "abc", and of 200 bytes A3, which are two
// blocks. They hold Keccak-f on states that are not zero.
#[test]
fn keccak_gives_published_digests() {
    let none = "a7ffc6f8bf1ed76651c14756a061d662f580ff4de43b49fa82d80a4b80f8434a";
    let abc = "3a985da74fe225b2045c172d6bd390bd855f086e3e9d525b46bfe24511431532";
    let long = "79f38adec5c20307a98ef76e8324afbfd46cfd81b22e3973c65fa1bd9de31787";
    for keccak_f in [bits::keccak_f, lanes::keccak_f] {
        assert_eq!(sha3_256(b"", keccak_f), none);
        assert_eq!(sha3_256(b"abc", keccak_f), abc);
        assert_eq!(sha3_256(&[0xA3; 200], keccak_f), long);
    }
}

#[test]
fn iota_has_the_known_constants() {
    let zero_bits = bits::from_lanes(ZERO_LANES);
    for (round, constant) in KECCAK_CONSTANTS.into_iter().enumerate() {
        let mut expected = ZERO_LANES;
        expected[0] = constant;
        assert_eq!(lanes::iota(ZERO_LANES, round), expected, "round {round}");
        let of_bits = bits::iota(zero_bits, round);
        assert_eq!(bits::to_lanes(of_bits), expected, "bits, round {round}");
    }
}

#[test]
fn rc_agrees() {
    for t in 0..600 {
        assert_eq!(bits::rc(t), lanes::rc(t), "bit {t}");
    }
}

fn states() -> Vec<Lanes> {
    let mut generator = SplitMix64::new(0x1600);
    (0..100)
        .map(|_| std::array::from_fn(|_| generator.next_word()))
        .collect()
}

fn check_step(of_bits: fn(bits::Bits) -> bits::Bits, of_lanes: fn(Lanes) -> Lanes) {
    for (number, state) in states().into_iter().enumerate() {
        let after = bits::to_lanes(of_bits(bits::from_lanes(state)));
        assert_eq!(after, of_lanes(state), "state {number}");
    }
}

// Bit z of lane 5y + x, and no other bit, is A[x, y, z].
#[test]
fn bits_are_those_of_the_lanes() {
    check_step(|a| a, |a| a);
    let mut state = ZERO_LANES;
    state[13] = 1 << 7;
    let a = bits::from_lanes(state);
    assert!(a[3][2][7]);
    let all = a.as_flattened().as_flattened();
    assert_eq!(all.iter().filter(|&&bit| bit).count(), 1);
}

#[test]
fn theta_agrees() {
    check_step(bits::theta, lanes::theta);
}

#[test]
fn rho_agrees() {
    check_step(bits::rho, lanes::rho);
}

#[test]
fn pi_agrees() {
    check_step(bits::pi, lanes::pi);
}

#[test]
fn chi_agrees() {
    check_step(bits::chi, lanes::chi);
}

#[test]
fn rounds_agree() {
    for state in states() {
        for number in 0..24 {
            let of_bits = bits::round(bits::from_lanes(state), number);
            let of_lanes = lanes::round(state, number);
            assert_eq!(bits::to_lanes(of_bits), of_lanes, "round {number}");
        }
        assert_eq!(bits::keccak_f(state), lanes::keccak_f(state));
    }
}

#[test]
fn starting_words_are_keccak_lanes() {
    assert_eq!(starting_words(), STARTING_WORDS);
}

/// The words when S[x][y] is the lane of this number.
fn words_by(lane: impl Fn(usize, usize) -> usize) -> State {
    std::array::from_fn(|x| std::array::from_fn(|y| KNOWN[0][lane(x, y)]))
}

fn words_alike(a: State, b: State) -> usize {
    let pairs = a.into_iter().flatten().zip(b.into_iter().flatten());
    pairs.filter(|(left, right)| left == right).count()
}

// What a misreading would give. Numbered along the second coordinate first,
// lane 5(x + 1) + y is A[x + 1, y], which is A[y, x + 1] for y = x + 1 alone:
// four words stay.
#[test]
fn other_numberings_give_other_words() {
    assert_eq!(words_by(|x, y| 5 * (x + 1) + y), starting_words());
    let one_less = words_by(|x, y| 5 * x + y);
    assert_eq!(words_alike(one_less, starting_words()), 0);
    let second_first = words_by(|x, y| (x + 1) + 5 * y);
    assert_eq!(words_alike(second_first, starting_words()), 4);
}

// Not part of N8: the paper's rationale says that the offsets have Keccak's
// formula, and they are those of Keccak's lanes (x, y).
#[test]
fn offsets_are_keccak_offsets() {
    let offsets = lanes::offsets();
    for x in 0..4 {
        for y in 0..5 {
            assert_eq!(OFFSETS[x][y], offsets[x + 5 * y], "offset [{x}][{y}]");
        }
    }
}

#[test]
fn round_constants_follow_the_step_rule() {
    assert_eq!(round_constants(), ROUND_CONSTANTS);
}

const BIT_31: u64 = 1 << 31;

// Bits 0, 1, 3 and 4 decide, in any number; the other bits do not.
#[test]
fn four_bits_decide_whether_bit_31_is_set() {
    const DECIDING: [u32; 4] = [0, 1, 3, 4];
    for bit in 0..64 {
        let set = if DECIDING.contains(&bit) { BIT_31 } else { 0 };
        assert_eq!(next_constant(1 << bit), (1 << bit) >> 1 | set, "bit {bit}");
    }
    for first in DECIDING {
        for second in DECIDING {
            if first != second {
                let pair = 1 << first | 1 << second;
                assert_eq!(next_constant(pair), pair >> 1, "bits {first} and {second}");
            }
        }
    }
    assert_eq!(next_constant(0b01011), 0b00101 | BIT_31);
    assert_eq!(next_constant(0b11011), 0b01101);
    assert_eq!(next_constant(0), 0);
}

// Bit 32 becomes bit 31: set already, it stays, and the step is no exclusive or.
// Constant 0 tells the two apart.
#[test]
fn a_set_bit_31_stays() {
    assert_eq!(next_constant(1 << 32 | 1), BIT_31);
    assert_eq!(next_constant(1 << 32), BIT_31);
    assert_eq!(next_constant(1 << 32 | 0b11), BIT_31 | 1);
    assert_eq!(next_constant(0x0123456789ABCDEF), 0x0091A2B3C4D5E6F7);
}

#[test]
fn text_has_a_line_of_capitals_for_each_number() {
    let text = text();
    assert_eq!(text.len(), 32 * 17);
    let lines: Vec<&str> = text.lines().collect();
    assert_eq!(lines.len(), 32);
    for line in &lines {
        assert_eq!(line.len(), 16, "{line:?}");
        assert!(
            line.chars().all(|c| matches!(c, '0'..='9' | 'A'..='F')),
            "{line:?}"
        );
    }
    // S[0][0], S[1][0], S[0][1], S[3][4], and the constants 0 and 11.
    let known = [
        (1, "FF97A42D7F8E6FD4"),
        (2, "EB5AA93F2317D635"),
        (5, "90FEE5A0A44647C4"),
        (20, "EAF1FF7B5CECA249"),
        (21, "0091A2B3C4D5E6F7"),
        (32, "00001234F7F89ABC"),
    ];
    for (number, line) in known {
        assert_eq!(lines[number - 1], line, "line {number}");
    }
}
