//! Answer lines by kind, and how often each came.
use std::collections::BTreeMap;
use std::fmt;

/// An answer line with `_` in place of its numbers, save the number of a refusal.
pub fn kind_of(answer: &str) -> String {
    let is_refusal = answer.starts_with("refused ");
    let words = answer.split(' ').enumerate().map(|(i, word)| match word.parse::<u64>() {
        Ok(_) if !(is_refusal && i == 1) => "_",
        _ => word,
    });
    words.collect::<Vec<_>>().join(" ")
}

#[derive(Default)]
pub struct Kinds(BTreeMap<String, usize>);

impl Kinds {
    pub fn count<'a>(&mut self, answers: impl Iterator<Item = &'a str>) {
        answers.for_each(|answer| *self.0.entry(kind_of(answer)).or_insert(0) += 1);
    }

    pub fn has(&self, kind: &str) -> bool {
        self.0.contains_key(kind)
    }

    pub fn total(&self) -> usize {
        self.0.values().sum()
    }
}

impl fmt::Display for Kinds {
    fn fmt(&self, f: &mut fmt::Formatter) -> fmt::Result {
        self.0.iter().try_for_each(|(kind, times)| writeln!(f, "{times:9}  {kind}"))
    }
}
