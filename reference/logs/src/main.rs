//! The second implementation of the logs as a program.
//!
//!     logs answer               reads a script on standard input, writes an answer line for each command
//!     logs generate SEED COUNT  writes a random script of about COUNT commands
//!     logs edges                writes the fixed script of the edges
//!     logs records EDGE         writes a script of records of 0 to 64 stripes at an edge (0 to 8)
use logs::{edges, generate, script};
use std::io::Read;

fn main() {
    let args: Vec<String> = std::env::args().skip(1).collect();
    let words: Vec<&str> = args.iter().map(String::as_str).collect();
    match words.as_slice() {
        ["answer"] => {
            let mut text = String::new();
            std::io::stdin().read_to_string(&mut text).expect("standard input is text");
            print!("{}", script::answers(&text));
        }
        ["records", edge] => print!("{}", edges::records(edge.parse().expect("EDGE is a number"))),
        ["edges"] => print!("{}", edges::script()),
        ["generate", seed, count] => {
            let seed = seed.parse().expect("SEED is a number");
            let count = count.parse().expect("COUNT is a number");
            print!("{}", generate::script(seed, count));
        }
        _ => {
            eprintln!("usage: logs answer < SCRIPT | logs generate SEED COUNT | logs edges | logs records EDGE");
            std::process::exit(2);
        }
    }
}
