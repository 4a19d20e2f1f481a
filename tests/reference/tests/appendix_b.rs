//! Appendix B's equations and the matrix of 003, 2.5 are the same map.

use reference::permutation::{bits, words, State, ZERO_STATE};
use reference::random::SplitMix64;

/// The twenty equations of Appendix B, in the order printed, for one z:
/// s[x][y] is S[x][y][z], t[x][y] is S'[x][y][z].
fn appendix_b_slice(s: [[u8; 5]; 4]) -> [[u8; 5]; 4] {
    let mut t = [[0; 5]; 4];
    t[0][4] = s[0][3] ^ s[1][4] ^ s[2][4] ^ s[3][4];
    t[0][3] = s[0][2] ^ s[1][3] ^ s[2][3] ^ s[3][3];
    t[0][2] = s[0][4] ^ s[0][1] ^ s[1][2] ^ s[2][2] ^ s[3][2];
    t[0][1] = s[0][0] ^ s[1][1] ^ s[2][1] ^ s[3][1];
    t[0][0] = s[0][4] ^ s[1][0] ^ s[2][0] ^ s[3][0];

    t[1][4] = s[0][4] ^ s[1][4] ^ s[2][0] ^ s[3][3];
    t[1][3] = s[0][3] ^ s[1][3] ^ s[2][4] ^ s[3][2];
    t[1][2] = s[0][2] ^ s[1][2] ^ s[2][3] ^ s[3][4] ^ s[3][1];
    t[1][1] = s[0][1] ^ s[1][1] ^ s[2][2] ^ s[2][0] ^ s[3][0];
    t[1][0] = s[0][0] ^ s[1][0] ^ s[2][1] ^ s[3][4];

    t[2][4] = s[0][4] ^ s[1][3] ^ s[2][4] ^ s[3][0];
    t[2][3] = s[0][3] ^ s[1][2] ^ s[2][3] ^ s[3][4];
    t[2][2] = s[0][2] ^ s[1][4] ^ s[1][1] ^ s[2][2] ^ s[3][3];
    t[2][1] = s[0][1] ^ s[1][0] ^ s[2][1] ^ s[3][2] ^ s[3][0];
    t[2][0] = s[0][0] ^ s[1][4] ^ s[2][0] ^ s[3][1];

    t[3][4] = s[0][4] ^ s[1][0] ^ s[2][3] ^ s[3][4];
    t[3][3] = s[0][3] ^ s[1][4] ^ s[2][2] ^ s[3][3];
    t[3][2] = s[0][2] ^ s[1][3] ^ s[2][4] ^ s[2][1] ^ s[3][2];
    t[3][1] = s[0][1] ^ s[1][2] ^ s[1][0] ^ s[2][0] ^ s[3][1];
    t[3][0] = s[0][0] ^ s[1][1] ^ s[2][4] ^ s[3][0];
    t
}

/// The equations for every z.
fn appendix_b(state: State) -> State {
    let mut next = ZERO_STATE;
    for z in 0..64 {
        let mut slice = [[0; 5]; 4];
        for x in 0..4 {
            for y in 0..5 {
                slice[x][y] = bits::bit(&state, x, y, z);
            }
        }
        let slice = appendix_b_slice(slice);
        for x in 0..4 {
            for y in 0..5 {
                next[x][y] |= u64::from(slice[x][y]) << z;
            }
        }
    }
    next
}

// Both sides are linear over GF(2): the equations are xors of bits, and the
// product in GF(2^5) is linear in the element. Every state is the xor of
// states with one bit set, so agreement on those 20 * 64 states is agreement
// on all states. Slices do not mix, so 20 at one z would do if the code
// treats every z alike; all z are tested.
#[test]
fn equations_agree_with_matrix_on_single_bits() {
    for x in 0..4 {
        for y in 0..5 {
            for z in 0..64 {
                let mut state = ZERO_STATE;
                state[x][y] = 1 << z;
                let expected = appendix_b(state);
                assert_eq!(bits::mu(state), expected, "bits, S[{x}][{y}], bit {z}");
                assert_eq!(words::mu(state), expected, "words, S[{x}][{y}], bit {z}");
            }
        }
    }
}

#[test]
fn equations_agree_with_matrix_on_random_states() {
    let mut generator = SplitMix64::new(0xB);
    for number in 0..300 {
        let state = generator.next_state();
        let expected = appendix_b(state);
        assert_eq!(bits::mu(state), expected, "bits, state {number}");
        assert_eq!(words::mu(state), expected, "words, state {number}");
    }
}

// The linearity on which the single-bit test rests, seen on the code itself.
#[test]
fn mu_is_linear_on_random_states() {
    let mut generator = SplitMix64::new(0x11);
    assert_eq!(bits::mu(ZERO_STATE), ZERO_STATE);
    for number in 0..100 {
        let (a, b) = (generator.next_state(), generator.next_state());
        let sum = xor(a, b);
        assert_eq!(
            bits::mu(sum),
            xor(bits::mu(a), bits::mu(b)),
            "pair {number}"
        );
        assert_eq!(
            appendix_b(sum),
            xor(appendix_b(a), appendix_b(b)),
            "pair {number}"
        );
    }
}

fn xor(a: State, b: State) -> State {
    std::array::from_fn(|x| std::array::from_fn(|y| a[x][y] ^ b[x][y]))
}
