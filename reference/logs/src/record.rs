//! The record of the ring: its bytes, both ways.

pub const BLOCK: usize = 512;
pub const LAST_VERSION: u32 = u32::MAX;
pub const MOST_STRIPES: usize = 64;
const OPENING: [u8; 4] = [0x49, 0x4C, 0x30, 0x31];

#[derive(Clone, Debug, PartialEq, Eq)]
pub struct Record {
    pub version: u32,
    pub stripes: Vec<u32>,
}

/// Appends a number in groups of seven bits, the lowest first, each but the last with its top bit set.
pub fn put_number(out: &mut Vec<u8>, number: u32) {
    let mut rest = number;
    while rest >= 128 {
        out.push((rest % 128) as u8 + 128);
        rest /= 128;
    }
    out.push(rest as u8);
}

/// Takes a number off the front: the shortest form of one that is at most 4,294,967,295.
pub fn take_number(bytes: &mut &[u8]) -> Option<u32> {
    let len = bytes.iter().position(|b| *b < 128)? + 1;
    let (groups, rest) = bytes.split_at(len);
    if len > 5 || (len > 1 && groups[len - 1] == 0) {
        return None;
    }
    let mut value: u64 = 0;
    for group in groups.iter().rev() {
        value = value * 128 + u64::from(group % 128);
    }
    *bytes = rest;
    u32::try_from(value).ok()
}

pub fn encode(record: &Record) -> [u8; BLOCK] {
    let mut out = OPENING.to_vec();
    put_number(&mut out, record.version);
    put_number(&mut out, record.stripes.len() as u32);
    let mut before = None;
    for stripe in &record.stripes {
        match before {
            None => put_number(&mut out, *stripe),
            Some(b) => put_number(&mut out, stripe - b),
        }
        before = Some(*stripe);
    }
    out.resize(BLOCK, 0);
    out.try_into().expect("a record is no longer than a block")
}

pub fn decode(block: &[u8; BLOCK]) -> Option<Record> {
    let mut rest = block.strip_prefix(&OPENING)?;
    let version = take_number(&mut rest)?;
    let count = take_number(&mut rest)? as usize;
    if version == 0 || count > MOST_STRIPES || (version == LAST_VERSION && count > 0) {
        return None;
    }
    let mut stripes: Vec<u32> = Vec::new();
    for _ in 0..count {
        let number = take_number(&mut rest)?;
        let stripe = match stripes.last() {
            None => number,
            Some(_) if number == 0 => return None,
            Some(before) => before.checked_add(number)?,
        };
        stripes.push(stripe);
    }
    if rest.iter().any(|b| *b != 0) {
        return None;
    }
    Some(Record { version, stripes })
}

#[cfg(test)]
mod tests {
    use super::*;

    fn bytes_of(number: u32) -> Vec<u8> {
        let mut out = Vec::new();
        put_number(&mut out, number);
        out
    }

    #[test]
    fn numbers() {
        assert_eq!(bytes_of(127), [0x7F]);
        assert_eq!(bytes_of(128), [0x80, 0x01]);
        assert_eq!(bytes_of(300), [0xAC, 0x02]);
        assert_eq!(bytes_of(u32::MAX), [0xFF, 0xFF, 0xFF, 0xFF, 0x0F]);
        for bad in [&[0x80, 0x00][..], &[0x80], &[], &[0xFF, 0xFF, 0xFF, 0xFF, 0x1F], &[0x80, 0x80, 0x80, 0x80, 0x80, 0x01]] {
            assert_eq!(take_number(&mut &bad[..]), None);
        }
    }

    #[test]
    fn example() {
        let record = Record { version: 2, stripes: vec![3, 5, 300] };
        let bytes = encode(&record);
        assert_eq!(bytes[..10], [0x49, 0x4C, 0x30, 0x31, 0x02, 0x03, 0x03, 0x02, 0xA7, 0x02]);
        assert!(bytes[10..].iter().all(|b| *b == 0));
        assert_eq!(decode(&bytes), Some(record));
    }
}
