//! Random scripts, by preference at the edges.
use crate::edges::hex;
use crate::record::{encode, put_number, Record};
use crate::script::Run;
use std::fmt::Write;

/// The edges of the number groups, and of the whole range.
const EDGES: [u32; 14] = [
    0, 1, 127, 128, 16_383, 16_384, 2_097_151, 2_097_152, 268_435_455, 268_435_456, 2_147_483_648, 4_294_967_293, 4_294_967_294,
    4_294_967_295,
];

/// A small generator of numbers (xorshift), so that a seed always gives the same script.
struct Random(u64);

impl Random {
    fn next(&mut self) -> u64 {
        self.0 ^= self.0 << 13;
        self.0 ^= self.0 >> 7;
        self.0 ^= self.0 << 17;
        self.0.wrapping_mul(0x2545_F491_4F6C_DD1D) >> 16
    }

    fn below(&mut self, n: usize) -> usize {
        (self.next() % n as u64) as usize
    }

    fn chance(&mut self, one_in: usize) -> bool {
        self.below(one_in) == 0
    }

    fn pick<T: Copy>(&mut self, from: &[T]) -> T {
        from[self.below(from.len())]
    }

    /// A number at or near an edge, or any.
    fn edge(&mut self) -> u32 {
        match self.below(4) {
            0 => self.next() as u32,
            1 => self.pick(&EDGES).saturating_add(self.below(3) as u32),
            2 => self.pick(&EDGES).saturating_sub(self.below(3) as u32),
            _ => self.pick(&EDGES),
        }
    }
}

/// Rising stripes: a first one, and distances of a few kinds.
fn rising(random: &mut Random, len: usize) -> Vec<u32> {
    let dense = random.chance(2);
    let mut at = if random.chance(2) { random.below(200) as u32 } else { random.edge() };
    let mut list = vec![at];
    while list.len() < len {
        let distance = if dense { 1 + random.below(3) as u32 } else { random.edge().max(1) };
        match at.checked_add(distance) {
            Some(next) => at = next,
            None => match at.checked_add(1) {
                Some(next) => at = next,
                None => return below_top(len),
            },
        }
        list.push(at);
    }
    list
}

/// The highest stripes there are.
fn below_top(len: usize) -> Vec<u32> {
    (0..len as u32).rev().map(|i| u32::MAX - i).collect()
}

/// A list for mark, fresh or fits; one in some is wrong.
fn list(random: &mut Random) -> Vec<u32> {
    let len = match random.below(8) {
        0 => 32,
        1 => 31,
        2 => 33,
        3 => 1,
        4 if random.chance(4) => 0,
        5 if random.chance(4) => 64 + random.below(3),
        _ => 1 + random.below(10),
    };
    if len == 0 {
        return Vec::new();
    }
    let mut list = rising(random, len);
    if len > 1 && random.chance(10) {
        let i = random.below(len - 1);
        if random.chance(2) {
            list[i] = list[i + 1];
        } else {
            list.swap(i, i + 1);
        }
    }
    list
}

/// A number in a form that is not the shortest, or too large, or cut off.
fn put_wrong_number(random: &mut Random, out: &mut Vec<u8>, number: u32) {
    match random.below(4) {
        0 => {
            put_number(out, number);
            *out.last_mut().unwrap() |= 128;
            out.push(0);
        }
        1 => out.extend([0xFF, 0xFF, 0xFF, 0xFF, 0x10]),
        2 => out.extend([0x80, 0x80, 0x80, 0x80, 0x80, 0x01]),
        _ => out.extend([0xFF; 6]),
    }
}

/// Bytes that are hardly ever a record, by one thing that is wrong.
fn wrong_record(random: &mut Random) -> Vec<u8> {
    let wrong = random.below(10);
    let version = random.edge().max(1);
    let count = random.below(5) as u32;
    let mut out = vec![0x49, 0x4C, 0x30, 0x31];
    match wrong {
        0 => out[random.below(4)] ^= 1 << random.below(8),
        1 => {
            put_wrong_number(random, &mut out, version);
            put_number(&mut out, 0);
            return out;
        }
        2 => {
            out.extend([0x00, 0x00]);
            return out;
        }
        3 => {
            put_number(&mut out, u32::MAX);
            out.extend([0x01, 0x05]);
            return out;
        }
        _ => {}
    }
    put_number(&mut out, version);
    match wrong {
        4 => {
            put_number(&mut out, 65);
            out.extend([1; 65]);
            return out;
        }
        5 => {
            out.extend([0x02, 0x05, 0x00]);
            return out;
        }
        6 => {
            out.push(0x02);
            put_number(&mut out, u32::MAX - 4);
            put_number(&mut out, 3 + random.below(4) as u32);
            return out;
        }
        7 => put_wrong_number(random, &mut out, count),
        _ => put_number(&mut out, count),
    }
    for i in 0..count {
        if wrong == 8 && i + 1 == count {
            put_wrong_number(random, &mut out, 3);
        } else {
            put_number(&mut out, random.edge().clamp(1, 1 << 29));
        }
    }
    if wrong == 9 {
        out.resize(511 - random.below(2), 0);
        out.push(1);
    }
    out
}

/// Alters one byte of a record, or one right behind it.
fn alter(random: &mut Random, bytes: &mut [u8]) {
    let end = bytes.iter().rposition(|b| *b != 0).map_or(1, |i| i + 1);
    let at = if random.chance(3) { 4 + random.below(8) } else { random.below((end + 2).min(bytes.len())) };
    bytes[at] = match random.below(3) {
        0 => random.pick(&[0, 1, 0x7F, 0x80, 0xFF]),
        1 => bytes[at] ^ (1 << random.below(8)),
        _ => random.next() as u8,
    };
}

/// A version for the start: any, small, or near the last.
fn version(random: &mut Random) -> u32 {
    match random.below(4) {
        0 => 1 + random.below(9) as u32,
        1 => u32::MAX - random.below(5) as u32,
        _ => random.edge().max(1),
    }
}

fn ring_raw(random: &mut Random, slots: usize, out: &mut String) {
    let same = version(random);
    for _ in 0..random.below(6) {
        let slot = if random.chance(8) { random.below(slots) } else { random.below(slots.min(64)) };
        let bytes = if random.chance(3) {
            wrong_record(random)
        } else {
            let version = if random.chance(2) { same } else { version(random) };
            let len = random.pick(&[0, 0, 1, 2, 5, 31, 32, 33, 62, 63, 64]);
            let stripes = if len == 0 || version == u32::MAX { Vec::new() } else { rising(random, len) };
            let mut bytes = encode(&Record { version, stripes }).to_vec();
            if random.chance(4) {
                alter(random, &mut bytes);
            }
            bytes
        };
        writeln!(out, "raw {slot} {}", hex(&bytes)).unwrap();
    }
}

fn flag_raw(random: &mut Random, out: &mut String) {
    if random.chance(2) {
        return;
    }
    let mut bytes = [0u8; 512];
    bytes[0] = random.pick(&[0, 1, 2, 3, 255]);
    if random.chance(4) {
        bytes[random.pick(&[1, 2, 255, 511])] = random.pick(&[1, 2, 128]);
    }
    writeln!(out, "raw 0 {}", hex(&bytes)).unwrap();
}

/// Settings of the log's store: small rings mostly.
fn counts(random: &mut Random) -> (usize, usize) {
    match random.below(12) {
        0 => (8, 8),
        1 => (random.pick(&[1, 3, 5, 64]), random.pick(&[13, 22, 64])),
        2 if random.chance(4) => (1, 1),
        _ => {
            let members = 1 + random.below(4);
            let blocks = 1 + random.below(8 / members);
            if members * blocks == 1 {
                (2, 1)
            } else {
                (members, blocks)
            }
        }
    }
}

fn words(name: &str, list: &[u32]) -> String {
    list.iter().fold(name.to_string(), |mut s, n| {
        write!(s, " {n}").unwrap();
        s
    })
}

/// A list that brings what is named near the limit of 64: `over` of it is how many stripes too many there would be.
fn list_to_limit(random: &mut Random, named: &[u32]) -> Vec<u32> {
    let goal = random.pick(&[62usize, 63, 64, 64, 65]);
    let missing = goal.saturating_sub(named.len()).clamp(1, 32);
    let start = random.edge();
    let mut list: Vec<u32> = Vec::new();
    let mut at = start;
    while list.len() < missing {
        if !named.contains(&at) && !list.contains(&at) {
            list.push(at);
        }
        at = at.wrapping_add(1 + random.below(200) as u32);
    }
    if list.len() < 32 && !named.is_empty() && random.chance(2) {
        list.push(random.pick(named));
    }
    list.sort();
    list.dedup();
    list
}

fn change(random: &mut Random, named: &[u32]) -> String {
    match random.below(12) {
        0 if random.chance(2) => "blank".into(),
        0..=2 => "clear".into(),
        3 | 4 => words("fresh", &list(random)),
        5 | 6 => words("mark", &list(random)),
        _ => words("mark", &list_to_limit(random, named)),
    }
}

fn question(random: &mut Random, named: &[u32]) -> String {
    let near = if named.is_empty() || random.chance(3) {
        random.edge()
    } else {
        let stripe = random.pick(named);
        random.pick(&[stripe, stripe.saturating_sub(1), stripe.saturating_add(1)])
    };
    match random.below(7) {
        0 => format!("named {near}"),
        1 => format!("next {near}"),
        2 => "stands".into(),
        3 => words("fits", &list(random)),
        4 => words("fits", &list_to_limit(random, named)),
        5 => "spent".into(),
        _ => "show".into(),
    }
}

/// The lines and, beside them, a run of them, which tells what is named and whether power is on.
struct Script {
    text: String,
    run: Run,
}

impl Script {
    fn push(&mut self, line: &str) {
        writeln!(self.text, "{line}").unwrap();
        let words: Vec<&str> = line.split_whitespace().collect();
        self.run.command(&words).expect("a command");
    }
}

pub fn script(seed: u64, count: usize) -> String {
    let mut random = Random(seed.wrapping_mul(0x9E37_79B9_7F4A_7C15) | 1);
    for _ in 0..8 {
        random.next();
    }
    let (members, blocks) = counts(&mut random);
    let ring = !random.chance(4);
    let mut text = format!("{} {members} {blocks}\n", if ring { "ring" } else { "flag" });
    if random.chance(2) {
        text.push_str("buffer\n");
    }
    if ring && random.chance(2) {
        ring_raw(&mut random, members * blocks, &mut text);
    } else if !ring {
        flag_raw(&mut random, &mut text);
    }
    let run = Run::start(&text).expect("settings");
    let mut script = Script { text, run };
    if random.chance(3) {
        let line = question(&mut random, &[]);
        script.push(&line);
    }
    for _ in 0..count {
        step(&mut random, &mut script, members * blocks);
    }
    script.text
}

fn step(random: &mut Random, script: &mut Script, slots: usize) {
    let named = script.run.named();
    if !script.run.is_on() && !random.chance(6) {
        if random.chance(2) {
            let most = if random.chance(3) { slots.min(64) + 4 } else { 5 };
            script.push(&format!("cut {}", random.below(most)));
        }
        script.push("power-on");
        script.push("show");
    } else if script.run.is_on() && !script.run.stands() && !random.chance(3) {
        script.push("clear");
    } else if random.chance(12) {
        let most = if random.chance(3) { slots.min(64) + 4 } else { 6 };
        script.push(&format!("cut {}", random.below(most)));
        script.push("power-on");
    } else if random.chance(3) {
        script.push(&question(random, &named));
    } else {
        script.push(&change(random, &named));
        if random.chance(2) {
            script.push("show");
        }
    }
}
