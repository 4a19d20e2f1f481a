//! Keccak-f[1600] on whole lanes: the steps of FIPS 202, section 3, for the 64
//! bit positions at once.

use super::Lanes;

/// theta (3.2.1).
pub fn theta(a: Lanes) -> Lanes {
    let parity: [u64; 5] = std::array::from_fn(|x| (0..5).fold(0, |sum, y| sum ^ a[x + 5 * y]));
    std::array::from_fn(|i| {
        let x = i % 5;
        a[i] ^ parity[(x + 4) % 5] ^ parity[(x + 1) % 5].rotate_left(1)
    })
}

/// The rotation offset of each lane (3.2.2, algorithm 2).
pub fn offsets() -> [u32; 25] {
    let mut offsets = [0; 25];
    let (mut x, mut y) = (1, 0);
    for t in 0..24 {
        offsets[x + 5 * y] = (t + 1) * (t + 2) / 2 % 64;
        (x, y) = (y, (2 * x + 3 * y) % 5);
    }
    offsets
}

/// rho (3.2.2): each lane is rotated left by its offset.
pub fn rho(a: Lanes) -> Lanes {
    let offsets = offsets();
    std::array::from_fn(|i| a[i].rotate_left(offsets[i]))
}

/// pi (3.2.3).
pub fn pi(a: Lanes) -> Lanes {
    std::array::from_fn(|i| {
        let (x, y) = (i % 5, i / 5);
        a[(x + 3 * y) % 5 + 5 * x]
    })
}

/// chi (3.2.4).
pub fn chi(a: Lanes) -> Lanes {
    std::array::from_fn(|i| {
        let (x, y) = (i % 5, i / 5);
        a[i] ^ (!a[(x + 1) % 5 + 5 * y] & a[(x + 2) % 5 + 5 * y])
    })
}

/// Bit t of the round constants (3.2.5, algorithm 5); bit i of the register is
/// R[i].
pub fn rc(t: usize) -> bool {
    let mut register: u16 = 1;
    for _ in 0..t % 255 {
        register <<= 1;
        if register & 0x100 != 0 {
            register ^= 0x171;
        }
    }
    register & 1 == 1
}

/// iota (3.2.5, algorithm 6): lane 0 is xored with the constant of the round.
pub fn iota(mut a: Lanes, round: usize) -> Lanes {
    a[0] ^= (0..=6).fold(0, |constant, j| {
        constant | u64::from(rc(j + 7 * round)) << ((1 << j) - 1)
    });
    a
}

/// One round: theta, rho, pi, chi, iota, in that order (3.3).
pub fn round(a: Lanes, number: usize) -> Lanes {
    iota(chi(pi(rho(theta(a)))), number)
}

/// Keccak-f[1600]: 24 rounds (3.4).
pub fn keccak_f(a: Lanes) -> Lanes {
    (0..24).fold(a, round)
}
