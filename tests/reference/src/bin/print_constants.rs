//! Prints the starting words and the round constants.

fn main() {
    print!("{}", reference::generators::text());
}
