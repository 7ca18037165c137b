//! compare PROGRAM COUNT SEED: runs the fixed examples and COUNT random scenarios, from a seed on, through PROGRAM and
//! through the second implementation, and tells the first difference.
use array::examples::{all, Example};
use array::generate::scenario;
use array::kinds::Kinds;
use array::player::answers;
use array::scenario::{line, lines, Line};
use std::io::Write;
use std::process::{Command, ExitCode, Stdio};

/// The answers of a program to a scenario; a fault where it cannot be run or is ended by a signal.
fn answers_of(program: &str, text: &[u8]) -> Result<Vec<String>, String> {
    let piped = Command::new(program).stdin(Stdio::piped()).stdout(Stdio::piped()).spawn();
    let mut child = piped.map_err(|error| format!("{program} cannot be run: {error}"))?;
    let mut input = child.stdin.take().ok_or("no standard input")?;
    let text = text.to_vec();
    // A program that stops reading early shows in its answers.
    let writing = std::thread::spawn(move || drop(input.write_all(&text)));
    let output = child.wait_with_output().map_err(|error| format!("{program}: {error}"))?;
    writing.join().map_err(|_| "standard input could not be written")?;
    if output.status.code().is_none() {
        return Err(format!("{program} was ended: {}", output.status));
    }
    let told = String::from_utf8(output.stdout).map_err(|_| format!("{program} wrote what is no text"))?;
    if !told.is_empty() && !told.ends_with('\n') {
        return Err(format!("{program} wrote a last line without its end"));
    }
    Ok(told.lines().map(str::to_string).collect())
}

/// The command that the answer with this index is for, with its line number.
fn command_of(text: &[u8], index: usize) -> String {
    let is_answered = |bytes: &[u8]| !matches!(line(bytes), Some(Line::Nothing | Line::Setting(_)));
    let answered = lines(text).enumerate().filter(|(_, bytes)| is_answered(bytes)).nth(index);
    answered.map_or("no command".to_string(), |(at, bytes)| format!("line {}: {}", at + 1, String::from_utf8_lossy(bytes)))
}

/// Tells the first difference, if there is one.
fn difference(text: &[u8], expected: &[String], told: &[String]) -> Option<String> {
    let longer = expected.len().max(told.len());
    let at = (0..longer).find(|index| expected.get(*index) != told.get(*index))?;
    let word = |answers: &[String]| answers.get(at).cloned().unwrap_or_else(|| "(nothing)".to_string());
    let place = command_of(text, at);
    Some(format!("answer {}, {place}\n  expected: {}\n  told:     {}", at + 1, word(expected), word(told)))
}

fn compare(program: &str, name: &str, text: &[u8], expected: &[String]) -> Result<(), String> {
    let told = answers_of(program, text);
    let fault = match &told {
        Err(fault) => Some(fault.clone()),
        Ok(told) => difference(text, expected, told),
    };
    match fault {
        None => Ok(()),
        Some(fault) => Err(format!("{}\n{name}: {fault}", String::from_utf8_lossy(text))),
    }
}

fn compare_example(program: &str, example: &Example) -> Result<(), String> {
    let text = example.scenario.as_bytes();
    match difference(text, &example.answers, &answers(text)) {
        Some(fault) => Err(format!("example '{}', second implementation: {fault}", example.name)),
        None => compare(program, &format!("example '{}'", example.name), text, &example.answers),
    }
}

fn compare_all(program: &str, count: u64, first: u64) -> Result<Kinds, String> {
    all().iter().try_for_each(|example| compare_example(program, example))?;
    let mut kinds = Kinds::default();
    for seed in first..first.saturating_add(count) {
        let text = scenario(seed);
        let expected = answers(&text);
        compare(program, &format!("seed {seed}"), &text, &expected)?;
        kinds.count(expected.iter().map(String::as_str));
    }
    Ok(kinds)
}

fn main() -> ExitCode {
    let words: Vec<String> = std::env::args().skip(1).collect();
    let numbers: Vec<u64> = words.iter().skip(1).filter_map(|word| word.parse().ok()).collect();
    let (Some(program), [count, first], 3) = (words.first(), &numbers[..], words.len()) else {
        eprintln!("usage: compare PROGRAM COUNT SEED");
        return ExitCode::from(2);
    };
    match compare_all(program, *count, *first) {
        Err(fault) => {
            println!("{fault}");
            ExitCode::FAILURE
        }
        Ok(kinds) => {
            print!("{kinds}");
            println!("{} examples as by hand", all().len());
            println!("{count} scenarios, {} answers: no difference", kinds.total());
            ExitCode::SUCCESS
        }
    }
}
