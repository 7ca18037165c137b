//! selfcheck COUNT SEED: plays COUNT random scenarios from a seed on and judges each by the crash promise.
use array::generate::scenario;
use array::judge::{judge, Tally};

fn main() {
    let numbers: Vec<u64> = std::env::args().skip(1).filter_map(|word| word.parse().ok()).collect();
    let [count, first] = numbers[..] else {
        eprintln!("usage: selfcheck COUNT SEED");
        std::process::exit(2);
    };
    let mut tally = Tally::default();
    for seed in first..first + count {
        match judge(&scenario(seed)) {
            Ok(judged) => tally.add(judged),
            Err(fault) => {
                println!("seed {seed}: {fault}");
                std::process::exit(1);
            }
        }
    }
    println!("{count} scenarios by the crash promise: {tally:?}");
}
