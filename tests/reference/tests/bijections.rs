//! The steps lose nothing: pi and the S-box are bijections, mu is invertible.

use reference::permutation::{bits, words, State, ZERO_STATE};

#[test]
fn pi_is_a_bijection_of_the_positions() {
    for pi in [bits::pi as fn(State) -> State, words::pi] {
        let mut labels = ZERO_STATE;
        for w in 0..20 {
            labels[w % 4][w / 4] = w as u64 + 1;
        }
        let mut seen = pi(labels).concat();
        seen.sort();
        assert_eq!(seen, (1..=20).collect::<Vec<u64>>());
    }
}

#[test]
fn sbox_is_a_bijection() {
    let mut outputs: Vec<u8> = (0..32).map(bits::sbox).collect();
    outputs.sort();
    assert_eq!(outputs, (0..32).collect::<Vec<u8>>());
}

/// The image under mu of one bit of slice z.
fn mu_image(mu: fn(State) -> State, x: usize, y: usize, z: usize) -> u32 {
    let mut state = ZERO_STATE;
    state[x][y] = 1 << z;
    bits::slice_bits(&mu(state), z)
}

/// The rank over GF(2) of rows of bits, by elimination.
fn rank(mut rows: Vec<u32>) -> usize {
    let mut rank = 0;
    while let Some(pivot) = rows.pop() {
        if pivot == 0 {
            continue;
        }
        rank += 1;
        let lowest = pivot & pivot.wrapping_neg();
        for row in &mut rows {
            if *row & lowest != 0 {
                *row ^= pivot;
            }
        }
    }
    rank
}

#[test]
fn rank_of_known_rows() {
    assert_eq!(rank(vec![0b011, 0b110, 0b101]), 2);
    assert_eq!(rank(vec![0b011, 0b110, 0b111]), 3);
}

#[test]
fn mu_is_invertible() {
    for mu in [bits::mu as fn(State) -> State, words::mu] {
        for z in [0, 31, 63] {
            let rows = (0..20).map(|i| mu_image(mu, i / 5, i % 5, z)).collect();
            assert_eq!(rank(rows), 20, "slice {z}");
        }
    }
}

/// Every product by an element other than 0 is a bijection, so the modulus is
/// irreducible, as 003, 2.5 says.
#[test]
fn field_products_are_bijections() {
    for factor in 1..32 {
        let mut products: Vec<u8> = (0..32).map(|v| bits::multiply(factor, v)).collect();
        products.sort();
        assert_eq!(products, (0..32).collect::<Vec<u8>>(), "factor {factor}");
    }
}
