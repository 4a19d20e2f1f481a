//! Keccak-f[1600] bit by bit: the algorithms of FIPS 202, section 3, with
//! w = 64 and l = 6.

use super::Lanes;

/// The state array A[x, y, z] (3.1).
pub type Bits = [[[bool; 64]; 5]; 5];

/// The array whose bit at (x, y, z) is given.
fn array(bit: impl Fn(usize, usize, usize) -> bool) -> Bits {
    std::array::from_fn(|x| std::array::from_fn(|y| std::array::from_fn(|z| bit(x, y, z))))
}

/// From string to array (3.1.2).
pub fn from_lanes(lanes: Lanes) -> Bits {
    array(|x, y, z| (lanes[5 * y + x] >> z) & 1 == 1)
}

/// From array to string (3.1.3).
pub fn to_lanes(a: Bits) -> Lanes {
    std::array::from_fn(|i| (0..64).fold(0, |lane, z| lane | u64::from(a[i % 5][i / 5][z]) << z))
}

/// theta (3.2.1, algorithm 1).
pub fn theta(a: Bits) -> Bits {
    let c = |x: usize, z: usize| a[x][0][z] ^ a[x][1][z] ^ a[x][2][z] ^ a[x][3][z] ^ a[x][4][z];
    let d = |x, z| c((x + 4) % 5, z) ^ c((x + 1) % 5, (z + 63) % 64);
    array(|x, y, z| a[x][y][z] ^ d(x, z))
}

/// rho (3.2.2, algorithm 2); A[0, 0] stays.
pub fn rho(a: Bits) -> Bits {
    let mut next = a;
    let (mut x, mut y) = (1, 0);
    for t in 0..24 {
        let offset = (t + 1) * (t + 2) / 2;
        for z in 0..64 {
            // z - offset mod 64; the largest offset is 300.
            next[x][y][z] = a[x][y][(z + 320 - offset) % 64];
        }
        (x, y) = (y, (2 * x + 3 * y) % 5);
    }
    next
}

/// pi (3.2.3, algorithm 3).
pub fn pi(a: Bits) -> Bits {
    array(|x, y, z| a[(x + 3 * y) % 5][x][z])
}

/// chi (3.2.4, algorithm 4).
pub fn chi(a: Bits) -> Bits {
    array(|x, y, z| a[x][y][z] ^ ((a[(x + 1) % 5][y][z] ^ true) & a[(x + 2) % 5][y][z]))
}

/// Bit t of the round constants (3.2.5, algorithm 5).
pub fn rc(t: usize) -> bool {
    let mut r = vec![true, false, false, false, false, false, false, false];
    for _ in 0..t % 255 {
        r.insert(0, false);
        for i in [0, 4, 5, 6] {
            r[i] ^= r[8];
        }
        r.truncate(8);
    }
    r[0]
}

/// iota (3.2.5, algorithm 6).
pub fn iota(a: Bits, round: usize) -> Bits {
    let mut next = a;
    for j in 0..=6 {
        next[0][0][(1 << j) - 1] ^= rc(j + 7 * round);
    }
    next
}

/// One round: theta, rho, pi, chi, iota, in that order (3.3).
pub fn round(a: Bits, number: usize) -> Bits {
    iota(chi(pi(rho(theta(a)))), number)
}

/// Keccak-f[1600], which is Keccak-p[1600, 24] (3.3, algorithm 7; 3.4).
pub fn keccak_f(lanes: Lanes) -> Lanes {
    to_lanes((0..24).fold(from_lanes(lanes), round))
}
