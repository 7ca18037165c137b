//! A fixed script: 63 and 64 named, every count of stripes at every edge, a cut at every device call, slots and versions.
use crate::record::{encode, Record};
use std::fmt::Write;

/// The distances at which a number takes one more group, on both sides, and two that spread 64 and 32 stripes widely.
const DISTANCES: [u32; 9] = [1, 127, 128, 16_383, 16_384, 2_097_151, 2_097_152, 33_000_000, 67_108_863];

/// Versions at the edges of the groups, up to the last that is not spent.
const VERSIONS: [u32; 10] = [
    1, 127, 128, 16_383, 16_384, 2_097_151, 2_097_152, 268_435_455, 268_435_456, 4_294_967_293,
];

/// The bytes up to the last that is not zero.
pub fn hex(bytes: &[u8]) -> String {
    let end = bytes.iter().rposition(|b| *b != 0).map_or(1, |i| i + 1);
    bytes[..end].iter().fold(String::new(), |mut s, b| {
        write!(s, "{b:02X}").unwrap();
        s
    })
}

fn numbers(list: impl IntoIterator<Item = u32>) -> String {
    list.into_iter().fold(String::new(), |mut s, n| {
        write!(s, " {n}").unwrap();
        s
    })
}

/// `count` stripes up to the highest that there is, `distance` from each other.
fn to_top(count: u32, distance: u32) -> Vec<u32> {
    (0..count).rev().map(|i| u32::MAX - i * distance).collect()
}

/// 63 named and one new is a mark; 64 and one new does not fit, and is a fresh.
fn limit(out: &mut String) {
    for first in [0u32, 127, 4_294_967_231] {
        let stripe = |i: u32| first.wrapping_add(i);
        writeln!(out, "ring 2 2\npower-on\nclear").unwrap();
        writeln!(out, "mark{}", numbers((0..32).map(stripe))).unwrap();
        writeln!(out, "mark{}", numbers((32..63).map(stripe))).unwrap();
        let spare: u32 = if first == 0 { 4_294_967_295 } else { 5 };
        writeln!(out, "fits {spare}\nfits {}\nfits{}", stripe(63), numbers([stripe(62), stripe(63)])).unwrap();
        writeln!(out, "mark {}\nshow", stripe(63)).unwrap();
        writeln!(out, "fits {spare}\nmark {spare}\nfits {}\nmark {}\nshow", stripe(0), stripe(0)).unwrap();
        writeln!(out, "mark{}\nshow", numbers((0..32).map(stripe))).unwrap();
        writeln!(out, "fresh {spare}\nshow\nclear\nshow\nclear\nshow").unwrap();
    }
}

/// A record of `count` stripes at an edge, found, asked for and marked.
fn record(out: &mut String, count: u32, distance: u32, version: u32) {
    let distance = if count == 0 { 1 } else { distance.min(u32::MAX / count) };
    let stripes = to_top(count, distance);
    let next = stripes.first().copied().unwrap_or(0);
    let bytes = hex(&encode(&Record { version, stripes }));
    writeln!(out, "ring 1 3\nraw {} {bytes}\npower-on\nshow\nnext 0\nnext {next}", count % 3).unwrap();
    writeln!(out, "named {}\nmark 0 1\nshow\npower-on\nshow", u32::MAX).unwrap();
}

/// Each count of stripes once, with distances and versions in turn.
fn counts(out: &mut String) {
    for (i, count) in (0..=64).enumerate() {
        record(out, count, DISTANCES[i % DISTANCES.len()], VERSIONS[i % VERSIONS.len()]);
    }
}

/// Each count of stripes at the edge of this number, with versions in turn.
pub fn records(edge: usize) -> String {
    let mut out = String::new();
    for (i, count) in (0..=64).enumerate() {
        record(&mut out, count, DISTANCES[edge % DISTANCES.len()], VERSIONS[(i + edge) % VERSIONS.len()]);
    }
    out
}

/// Bytes that are no record, each by one fault, beside a record of version 1; and lists that are wrong.
fn faults(out: &mut String) {
    let one = hex(&encode(&Record { version: 1, stripes: vec![8] }));
    let count_65 = format!("494C30310241{}", "01".repeat(65));
    let last_byte = format!("494C303102{}01", "00".repeat(506));
    let faults = [
        "494C30320200", "484C30310200", "494C30310000", "494C3031820000", "494C3031028000", "494C303102010580", "494C30310201858000",
        "494C303102020500", "494C303102020580", "494C30310202058100", "494C303102010500000001", "494C3031020001",
        "494C303102020AFFFFFFFF0F", "494C30310202FFFFFFFF0F01", "494C30310201FFFFFFFF10", "494C30310201FFFFFFFF1F", "494C30310201808080808001",
        "494C3031FFFFFFFF0F0105", "494C3031FFFFFFFF1F00", &count_65, &last_byte,
    ];
    for bytes in faults {
        writeln!(out, "ring 1 4\nraw 1 {one}\nraw 2 {bytes}\npower-on\nshow").unwrap();
    }
    for bytes in ["494C30310201FFFFFFFF0F", "494C30310202FEFFFFFF0F01", "494C3031FFFFFFFF0F00", "494C303102020501"] {
        writeln!(out, "ring 1 4\nraw 1 {one}\nraw 2 {bytes}\npower-on\nshow").unwrap();
    }
    writeln!(out, "ring 1 4\nraw 3 494C30310000\npower-on\nstands\nshow\nmark 1\nclear\nshow").unwrap();
    writeln!(out, "ring 1 4\nmark 1\nshow\npower-on\nmark\nmark 1\nfresh 2 2\nclear").unwrap();
    for list in [vec![], vec![3, 3], vec![5, 4], vec![1, 2, 2], (0..33).collect(), (0..32).collect()] {
        let list = numbers(list);
        writeln!(out, "fits{list}\nmark{list}\nfresh{list}\nshow").unwrap();
    }
}

/// Rings of 64 slots, on 64 blocks and on more: slots 63 and 64, and versions around the end of the slots.
fn long_rings(out: &mut String) {
    let of = |version, stripe| hex(&encode(&Record { version, stripes: vec![stripe] }));
    for log in ["ring 8 8", "ring 5 22", "ring 64 64"] {
        let beyond = if log == "ring 8 8" { String::new() } else { format!("raw 64 {}\n", of(900, 64)) };
        writeln!(out, "{log}\nraw 63 {}\nraw 62 {}\n{beyond}power-on\nshow", of(126, 63), of(125, 62)).unwrap();
        writeln!(out, "mark 1\nmark 2\nmark 3\npower-on\nshow\ncut 65\npower-on\nblank\npower-on\nshow\nblank\npower-on\nshow").unwrap();
    }
}

/// A cut at every device call of each change, on small rings and on a flag.
fn cuts(out: &mut String) {
    for (log, slots) in [("ring 2 1", 2), ("ring 1 3", 3), ("ring 2 2", 4), ("ring 3 4", 12), ("flag 1 1", 1)] {
        for buffer in ["", "buffer\n"] {
            for (change, calls) in [("mark 7 9", 2), ("fresh 7", 2), ("clear", 2), ("blank", slots + 2)] {
                writeln!(out, "{log}\n{buffer}power-on\nclear\nmark 3 5").unwrap();
                for left in 0..=calls {
                    writeln!(out, "cut {left}\npower-on\nshow\n{change}\nstands\npower-on\nshow\nclear\nmark 3 5").unwrap();
                }
            }
        }
    }
}

/// The last versions, a ring on one block, equal versions, and the bytes of a flag.
fn ends(out: &mut String) {
    for version in 4_294_967_291..=4_294_967_295u32 {
        let stripes = if version == u32::MAX { vec![] } else { vec![4] };
        let bytes = hex(&encode(&Record { version, stripes }));
        writeln!(out, "ring 1 5\nraw 0 {bytes}\npower-on\nshow\nspent").unwrap();
        writeln!(out, "mark 5\nshow\nspent\nfresh 6\nshow\nspent\nmark 7\nmark\nclear\nshow\nclear\nshow\nmark 8\nblank\nspent\nclear\nshow").unwrap();
    }
    writeln!(out, "ring 1 1\npower-on\nshow\nmark 1\nclear").unwrap();
    let same = |stripe| hex(&encode(&Record { version: 9, stripes: vec![stripe] }));
    writeln!(out, "ring 2 3\nraw 5 {}\nraw 2 {}\nraw 4 {}\npower-on\nshow\nmark 1\nshow", same(5), same(2), same(4)).unwrap();
    for byte in ["00", "01", "02", "03", "0100000001", "FF"] {
        writeln!(out, "flag 2 1\nraw 0 {byte}\npower-on\nshow\nnamed 0\nnext 4294967295\nfits 1\nspent\nmark 2\nshow").unwrap();
    }
}

pub fn script() -> String {
    let mut out = String::new();
    limit(&mut out);
    ends(&mut out);
    faults(&mut out);
    long_rings(&mut out);
    cuts(&mut out);
    counts(&mut out);
    out
}
