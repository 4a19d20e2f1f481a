//! Prints the test vectors of sealing.

fn main() {
    print!("{}", reference::vectors::sealing_vectors());
}
