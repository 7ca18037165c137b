//! The two logs.
use crate::device::{Block, Device, PowerLost};
use crate::record::{decode, encode, Record, BLOCK, LAST_VERSION, MOST_STRIPES};
use std::collections::BTreeSet;

const LONGEST_LIST: usize = 32;
const MOST_SLOTS: usize = 64;

#[derive(Clone, Copy, Debug, PartialEq, Eq)]
pub enum Refusal {
    LogStore(PowerLost),
    Off,
    OneBlock(usize, usize),
    NoRecord,
    WrongList(usize),
    Spent,
    DoesNotFit(usize),
}

impl From<PowerLost> for Refusal {
    fn from(lost: PowerLost) -> Refusal {
        Refusal::LogStore(lost)
    }
}

pub fn is_list(list: &[u32]) -> bool {
    (1..=LONGEST_LIST).contains(&list.len()) && list.windows(2).all(|w| w[0] < w[1])
}

/// The sets that a log can name: a ring some stripes, a flag none or all.
#[derive(Clone, Debug, PartialEq, Eq)]
pub enum Named {
    Stripes(BTreeSet<u32>),
    Every,
}

impl Named {
    pub fn has(&self, stripe: u32) -> bool {
        match self {
            Named::Stripes(set) => set.contains(&stripe),
            Named::Every => true,
        }
    }

    /// Is every stripe of this one in `other`?
    pub fn within(&self, other: &Named) -> bool {
        match (self, other) {
            (_, Named::Every) => true,
            (Named::Stripes(a), Named::Stripes(b)) => a.is_subset(b),
            (Named::Every, Named::Stripes(_)) => false,
        }
    }
}

#[derive(Clone, Copy, Debug, PartialEq, Eq)]
pub enum Kind {
    Ring,
    Flag,
}

/// What stands: for the ring its slot and record, for the flag whether it names every stripe.
#[derive(Clone, Debug, PartialEq, Eq)]
pub enum Standing {
    Ring(usize, Record),
    Flag(bool),
}

pub struct Log {
    kind: Kind,
    pub device: Device,
    awake: bool,
    standing: Option<Standing>,
}

fn flag_block(first: u8) -> Block {
    let mut block = [0; BLOCK];
    block[0] = first;
    block
}

impl Log {
    pub fn new(kind: Kind, device: Device) -> Log {
        Log { kind, device, awake: false, standing: None }
    }

    fn slots(&self) -> usize {
        (self.device.members * self.device.blocks).min(MOST_SLOTS)
    }

    fn place(&self, slot: usize) -> (usize, usize) {
        (slot % self.device.members, slot / self.device.members)
    }

    pub fn power_on(&mut self) -> Result<(), Refusal> {
        if self.kind == Kind::Ring && self.device.members * self.device.blocks == 1 {
            return Err(Refusal::OneBlock(self.device.members, self.device.blocks));
        }
        self.device.power_on();
        self.standing = match self.kind {
            Kind::Ring => self.find_ring(),
            Kind::Flag => self.find_flag(),
        };
        self.awake = true;
        Ok(())
    }

    fn find_ring(&mut self) -> Option<Standing> {
        let mut found: Vec<(usize, Record)> = Vec::new();
        for slot in 0..self.slots() {
            let (member, block) = self.place(slot);
            if let Some(record) = decode(&self.device.read(member, block)) {
                found.push((slot, record));
            }
        }
        let highest = found.iter().map(|f| f.1.version).max()?;
        let (slot, record) = found.into_iter().find(|f| f.1.version == highest)?;
        Some(Standing::Ring(slot, record))
    }

    fn find_flag(&mut self) -> Option<Standing> {
        let block = self.device.read(0, 0);
        if block == flag_block(1) {
            Some(Standing::Flag(false))
        } else if block == flag_block(2) {
            Some(Standing::Flag(true))
        } else {
            None
        }
    }

    pub fn on(&self) -> Result<(), Refusal> {
        if self.awake && self.device.is_on() {
            Ok(())
        } else {
            Err(Refusal::Off)
        }
    }

    pub fn named_now(&self) -> Named {
        match &self.standing {
            None | Some(Standing::Flag(false)) => Named::Stripes(BTreeSet::new()),
            Some(Standing::Flag(true)) => Named::Every,
            Some(Standing::Ring(_, record)) => Named::Stripes(record.stripes.iter().copied().collect()),
        }
    }

    fn version(&self) -> u32 {
        match &self.standing {
            Some(Standing::Ring(_, record)) => record.version,
            _ => 0,
        }
    }

    pub fn standing(&self) -> Result<Option<&Standing>, Refusal> {
        self.on()?;
        Ok(self.standing.as_ref())
    }

    pub fn is_named(&self, stripe: u32) -> Result<bool, Refusal> {
        self.on()?;
        Ok(self.named_now().has(stripe))
    }

    pub fn next_named(&self, at: u32) -> Result<Option<u32>, Refusal> {
        self.on()?;
        Ok(match self.named_now() {
            Named::Every => Some(at),
            Named::Stripes(set) => set.range(at..).next().copied(),
        })
    }

    fn spent_now(&self) -> bool {
        self.version() >= LAST_VERSION - 1
    }

    pub fn spent(&self) -> Result<bool, Refusal> {
        self.on()?;
        Ok(self.spent_now())
    }

    fn fits_now(&self, list: &[u32]) -> bool {
        is_list(list)
            && match self.kind {
                Kind::Flag => true,
                Kind::Ring => self.with(list).len() <= MOST_STRIPES,
            }
    }

    pub fn fits(&self, list: &[u32]) -> Result<bool, Refusal> {
        self.on()?;
        Ok(self.fits_now(list))
    }

    /// What is named and the list together.
    fn with(&self, list: &[u32]) -> BTreeSet<u32> {
        let mut all: BTreeSet<u32> = list.iter().copied().collect();
        if let Named::Stripes(set) = self.named_now() {
            all.extend(set);
        }
        all
    }

    fn check_change(&self, list: &[u32]) -> Result<(), Refusal> {
        self.on()?;
        if self.standing.is_none() {
            return Err(Refusal::NoRecord);
        }
        if !is_list(list) {
            return Err(Refusal::WrongList(list.len()));
        }
        if self.spent_now() {
            return Err(Refusal::Spent);
        }
        Ok(())
    }

    fn put_ring(&mut self, stripes: Vec<u32>) -> Result<(), Refusal> {
        let version = self.version() + 1;
        let slot = version as usize % self.slots();
        let (member, block) = self.place(slot);
        let record = Record { version, stripes };
        self.device.store(member, block, &encode(&record))?;
        self.device.barrier()?;
        self.standing = Some(Standing::Ring(slot, record));
        Ok(())
    }

    fn put_flag(&mut self, every: Option<bool>) -> Result<(), Refusal> {
        let first = match every {
            None => 0,
            Some(false) => 1,
            Some(true) => 2,
        };
        self.device.store(0, 0, &flag_block(first))?;
        self.device.barrier()?;
        self.standing = every.map(Standing::Flag);
        Ok(())
    }

    pub fn mark(&mut self, list: &[u32]) -> Result<(), Refusal> {
        self.check_change(list)?;
        if !self.fits_now(list) {
            return Err(Refusal::DoesNotFit(list.len()));
        }
        match self.kind {
            Kind::Ring => self.put_ring(self.with(list).into_iter().collect()),
            Kind::Flag => self.put_flag(Some(true)),
        }
    }

    pub fn fresh(&mut self, list: &[u32]) -> Result<(), Refusal> {
        self.check_change(list)?;
        match self.kind {
            Kind::Ring => self.put_ring(list.to_vec()),
            Kind::Flag => self.put_flag(Some(true)),
        }
    }

    pub fn clear(&mut self) -> Result<(), Refusal> {
        self.on()?;
        match (self.kind, &self.standing) {
            (Kind::Flag, _) => self.put_flag(Some(false)),
            (Kind::Ring, Some(Standing::Ring(_, record))) if record.stripes.is_empty() => Ok(()),
            (Kind::Ring, _) => self.put_ring(Vec::new()),
        }
    }

    pub fn blank(&mut self) -> Result<(), Refusal> {
        self.on()?;
        if self.kind == Kind::Flag {
            return self.put_flag(None);
        }
        let kept = match self.standing {
            Some(Standing::Ring(slot, _)) => Some(slot),
            _ => None,
        };
        for slot in (0..self.slots()).filter(|slot| Some(*slot) != kept) {
            let (member, block) = self.place(slot);
            self.device.store(member, block, &[0; BLOCK])?;
        }
        self.device.barrier()?;
        if let Some(slot) = kept {
            let (member, block) = self.place(slot);
            self.device.store(member, block, &[0; BLOCK])?;
            self.device.barrier()?;
        }
        self.standing = None;
        Ok(())
    }
}
