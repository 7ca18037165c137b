//! Reads a scenario on standard input and writes its answers, as the proved program does.
use std::io::{Read, Write};

/// Most bytes of a scenario.
const MOST_BYTES: usize = 1 << 20;

fn main() {
    let mut text = Vec::new();
    std::io::stdin().read_to_end(&mut text).expect("standard input can be read");
    if text.len() > MOST_BYTES {
        eprintln!("simulate: more than {MOST_BYTES} bytes");
        std::process::exit(1);
    }
    let told: String = array::player::answers(&text).iter().map(|answer| format!("{answer}\n")).collect();
    std::io::stdout().write_all(told.as_bytes()).expect("standard output can be written");
}
