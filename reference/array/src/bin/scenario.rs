//! scenario SEED: writes the random scenario of a seed.
use std::io::Write;

fn main() {
    let Some(seed) = std::env::args().nth(1).and_then(|word| word.parse().ok()) else {
        eprintln!("usage: scenario SEED");
        std::process::exit(2);
    };
    let text = array::generate::scenario(seed);
    std::io::stdout().write_all(&text).expect("standard output can be written");
}
