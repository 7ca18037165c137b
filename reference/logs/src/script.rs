//! Scripts: reading them and answering them.
use crate::device::{Block, Device, PowerLost};
use crate::log::{Kind, Log, Named, Refusal, Standing};
use crate::record::BLOCK;
use std::fmt::Write;

const MOST_COUNT: usize = 64;

/// What may stand after a cut: judges what a power-on finds, by the rules that every log owes.
struct Expected {
    call: String,
    list: Vec<u32>,
    before: Named,
    stood: bool,
}

impl Expected {
    fn judge(&self, log: &Log) {
        let after = log.named_now();
        let stands = matches!(log.standing(), Ok(Some(_)));
        assert!(!self.stood || stands || self.call == "blank", "a record stood before a cut {}", self.call);
        match self.call.as_str() {
            "mark" => {
                assert!(self.before.within(&after), "a cut mark lost stripes");
                let grown = self.list.iter().all(|s| after.has(*s));
                assert!(after == self.before || grown, "a cut mark is neither before nor after");
            }
            "fresh" => {
                let whole = self.list.iter().all(|s| after.has(*s));
                assert!(after == self.before || whole, "a cut fresh is neither before nor after");
            }
            "clear" => assert!(!self.stood || after.within(&self.before), "a cut clear names more"),
            "blank" => assert!(!stands || after == self.before, "a cut blank is neither before nor after"),
            _ => {}
        }
    }
}

pub struct Run {
    log: Log,
    /// Has a command been run?
    begun: bool,
    expected: Option<Expected>,
}

fn number(word: &str) -> Option<usize> {
    word.parse().ok()
}

fn stripe(word: &str) -> Option<u32> {
    word.parse().ok()
}

fn stripes(words: &[&str]) -> Option<Vec<u32>> {
    words.iter().map(|w| stripe(w)).collect()
}

fn block_of(hex: &str) -> Option<Block> {
    let digits: Option<Vec<u32>> = hex.chars().map(|c| c.to_digit(16)).collect();
    let digits = digits?;
    if digits.len() % 2 != 0 || digits.len() > 2 * BLOCK {
        return None;
    }
    let mut block = [0; BLOCK];
    for (i, pair) in digits.chunks(2).enumerate() {
        block[i] = (pair[0] * 16 + pair[1]) as u8;
    }
    Some(block)
}

fn settings(words: &[&str]) -> Option<(Kind, usize, usize)> {
    let [kind, members, blocks] = words else { return None };
    let kind = match *kind {
        "ring" => Kind::Ring,
        "flag" => Kind::Flag,
        _ => return None,
    };
    let (members, blocks) = (number(members)?, number(blocks)?);
    let counts = 1..=MOST_COUNT;
    (counts.contains(&members) && counts.contains(&blocks)).then_some((kind, members, blocks))
}

fn refused(refusal: Refusal) -> String {
    match refusal {
        Refusal::LogStore(PowerLost(Some((member, block)))) => format!("refused 1 log-store {member} {block}"),
        Refusal::LogStore(PowerLost(None)) => "refused 1 log-store".into(),
        Refusal::Off => "refused 1 log".into(),
        Refusal::OneBlock(members, blocks) => format!("refused 2 log {members} {blocks}"),
        Refusal::NoRecord => "refused 4 log".into(),
        Refusal::WrongList(len) => format!("refused 12 log {len}"),
        Refusal::Spent => "refused 11 log".into(),
        Refusal::DoesNotFit(len) => format!("refused 13 log {len}"),
    }
}

fn answer<T>(result: Result<T, Refusal>, tell: impl Fn(T) -> String) -> String {
    match result {
        Ok(value) => tell(value),
        Err(refusal) => refused(refusal),
    }
}

fn done(result: Result<(), Refusal>) -> String {
    answer(result, |()| "ok".into())
}

fn yes(result: Result<bool, Refusal>) -> String {
    answer(result, |b| if b { "yes".into() } else { "no".into() })
}

fn tell_standing(standing: Option<&Standing>) -> String {
    match standing {
        None => "no record".into(),
        Some(Standing::Flag(false)) => "names nothing".into(),
        Some(Standing::Flag(true)) => "names every stripe".into(),
        Some(Standing::Ring(_, record)) => {
            let mut text = format!("version {} stripes", record.version);
            for stripe in &record.stripes {
                write!(text, " {stripe}").unwrap();
            }
            text
        }
    }
}

impl Run {
    /// The call's answer; None where the line is no command.
    pub fn command(&mut self, words: &[&str]) -> Option<String> {
        let before = Expected {
            call: words.first()?.to_string(),
            list: stripes(&words[1..]).unwrap_or_default(),
            before: self.log.named_now(),
            stood: matches!(self.log.standing(), Ok(Some(_))),
        };
        let was_on = self.log.on().is_ok();
        let text = self.act(words)?;
        if was_on && self.log.on().is_err() {
            self.expected = Some(before);
        } else if words == ["power-on"] {
            if let Some(expected) = self.expected.take() {
                expected.judge(&self.log);
            }
        }
        Some(text)
    }

    fn act(&mut self, words: &[&str]) -> Option<String> {
        let log = &mut self.log;
        Some(match words {
            ["cut", k] => {
                log.device.next_fuse = Some(stripe(k)? as usize);
                "ok".into()
            }
            ["power-on"] => done(log.power_on()),
            ["mark", list @ ..] => done(log.mark(&stripes(list)?)),
            ["fresh", list @ ..] => done(log.fresh(&stripes(list)?)),
            ["fits", list @ ..] => yes(log.fits(&stripes(list)?)),
            ["clear"] => done(log.clear()),
            ["blank"] => done(log.blank()),
            ["named", s] => yes(log.is_named(stripe(s)?)),
            ["next", s] => answer(log.next_named(stripe(s)?), |n| match n {
                Some(n) => n.to_string(),
                None => "none".into(),
            }),
            ["stands"] => answer(log.standing(), |s| if s.is_some() { "yes".into() } else { "no".into() }),
            ["spent"] => yes(log.spent()),
            ["show"] => answer(log.standing(), tell_standing),
            _ => return None,
        })
    }
}

fn raw(device: &mut Device, words: &[&str]) -> Option<()> {
    let ["raw", slot, hex] = words else { return None };
    let slot = number(slot)?;
    if slot >= device.members * device.blocks {
        return None;
    }
    let block = block_of(hex)?;
    let members = device.members;
    *device.memory_at(slot % members, slot / members) = block;
    Some(())
}

/// A line before the first command: `buffer`, or `raw SLOT HEX`.
fn setting(device: &mut Device, words: &[&str]) -> Option<()> {
    match words {
        ["buffer"] => {
            device.buffered = true;
            Some(())
        }
        _ => raw(device, words),
    }
}

fn words_of(text: &str) -> Vec<Vec<&str>> {
    text.lines().map(|l| l.split_whitespace().collect()).collect()
}

impl Run {
    fn new((kind, members, blocks): (Kind, usize, usize)) -> Run {
        Run { log: Log::new(kind, Device::new(members, blocks)), begun: false, expected: None }
    }

    /// The answer to a line after the first, empty where it is a setting; None where it has no form of a line.
    fn line(&mut self, words: &[&str]) -> Option<String> {
        if !self.begun && setting(&mut self.log.device, words).is_some() {
            return Some(String::new());
        }
        self.begun = true;
        Some(self.command(words)? + "\n")
    }

    /// The log that the lines of settings tell.
    pub fn start(text: &str) -> Option<Run> {
        let lines = words_of(text);
        let mut run = Run::new(settings(lines.first()?)?);
        for line in &lines[1..] {
            run.line(line)?;
        }
        Some(run)
    }

    pub fn is_on(&self) -> bool {
        self.log.on().is_ok()
    }

    pub fn stands(&self) -> bool {
        matches!(self.log.standing(), Ok(Some(_)))
    }

    /// The stripes that a ring names.
    pub fn named(&self) -> Vec<u32> {
        match self.log.named_now() {
            Named::Stripes(set) => set.into_iter().collect(),
            Named::Every => Vec::new(),
        }
    }
}

/// The answers to a script: one line for each command, none for a setting. A line that names a log begins with a new
/// one; a line of another form ends the run.
pub fn answers(text: &str) -> String {
    let mut out = String::new();
    let mut current: Option<Run> = None;
    for (i, words) in words_of(text).iter().enumerate() {
        if let Some(found) = settings(words) {
            current = Some(Run::new(found));
            continue;
        }
        match current.as_mut().and_then(|run| run.line(words)) {
            Some(text) => out.push_str(&text),
            None => {
                writeln!(out, "bad {}", i + 1).unwrap();
                return out;
            }
        }
    }
    if current.is_none() {
        out.push_str("bad 1\n");
    }
    out
}
