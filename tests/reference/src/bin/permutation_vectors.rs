//! Prints the test vectors of the permutation.

fn main() {
    print!("{}", reference::vectors::permutation_vectors());
}
