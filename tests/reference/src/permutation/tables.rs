//! The constant tables, as printed in 003. Words are read as ordinary hex
//! numbers, as the scope paper decides.

use super::State;

/// Rotation offsets of rho, OFFSETS[x][y] (003, 2.5).
pub const OFFSETS: [[u32; 5]; 4] = [
    [0, 36, 3, 41, 18],
    [1, 44, 10, 45, 2],
    [62, 6, 43, 15, 61],
    [28, 55, 25, 21, 56],
];

/// Starting words, STARTING_WORDS[x][y] (003, 2.6).
pub const STARTING_WORDS: State = [
    [
        0xFF97A42D7F8E6FD4,
        0x90FEE5A0A44647C4,
        0x8C5BDA0CD6192E76,
        0xAD30A6F71B19059C,
        0x30935AB7D08FFC64,
    ],
    [
        0xEB5AA93F2317D635,
        0xA9A6E6260D712103,
        0x81A57C16DBCF555F,
        0x43B831CD0347C826,
        0x01F22F1A11A5569F,
    ],
    [
        0x05E5635A21D9AE61,
        0x64BEFEF28CC970F2,
        0x613670957BC46611,
        0xB87C5A554FD00ECB,
        0x8C3EE88A1CCF32C8,
    ],
    [
        0x940C7922AE3A2614,
        0x1841F924A2C509E4,
        0x16F53526E70465C2,
        0x75F644E97F30A13B,
        0xEAF1FF7B5CECA249,
    ],
];

/// Round constants of kappa (003, Appendix A).
pub const ROUND_CONSTANTS: [u64; 12] = [
    0x0091A2B3C4D5E6F7,
    0x0048D159E26AF37B,
    0x002468ACF13579BD,
    0x00123456F89ABCDE,
    0x00091A2BFC4D5E6F,
    0x00048D15FE26AF37,
    0x0002468AFF13579B,
    0x000123457F89ABCD,
    0x000091A2BFC4D5E6,
    0x000048D1DFE26AF3,
    0x00002468EFF13579,
    0x00001234F7F89ABC,
];
