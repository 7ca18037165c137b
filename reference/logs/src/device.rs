//! A member store: blocks in memory, over them a fuse, over it, if asked for, a write buffer.
use crate::record::BLOCK;
use std::collections::VecDeque;

pub type Block = [u8; BLOCK];

/// How many stores the write buffer holds.
const HELD: usize = 8;

/// Power went in a device call, or was off: the member and block of it, none for a barrier.
#[derive(Clone, Copy, Debug, PartialEq, Eq)]
pub struct PowerLost(pub Option<(usize, usize)>);

pub struct Device {
    pub members: usize,
    pub blocks: usize,
    memory: Vec<Block>,
    /// Is there a write buffer?
    pub buffered: bool,
    held: VecDeque<(usize, usize, Block)>,
    on: bool,
    /// How many stores and barriers may still act.
    fuse: Option<usize>,
    /// What the next power-on sets the fuse to.
    pub next_fuse: Option<usize>,
}

impl Device {
    pub fn new(members: usize, blocks: usize) -> Device {
        Device {
            members,
            blocks,
            memory: vec![[0; BLOCK]; members * blocks],
            buffered: false,
            held: VecDeque::new(),
            on: true,
            fuse: None,
            next_fuse: None,
        }
    }

    /// The block in memory: members one after the other.
    pub fn memory_at(&mut self, member: usize, block: usize) -> &mut Block {
        &mut self.memory[member * self.blocks + block]
    }

    pub fn is_on(&self) -> bool {
        self.on
    }

    pub fn power_on(&mut self) {
        self.held.clear();
        self.on = true;
        self.fuse = self.next_fuse.take();
    }

    /// Sets the fuse: so many more stores and barriers act.
    pub fn cut_after(&mut self, left: usize) {
        self.fuse = Some(left);
    }

    /// Has every block just one version?
    pub fn is_settled(&self) -> bool {
        self.held.is_empty()
    }

    /// One call passes the fuse, or power goes.
    fn fuse_lets(&mut self, place: Option<(usize, usize)>) -> Result<(), PowerLost> {
        match &mut self.fuse {
            None => Ok(()),
            Some(0) => {
                self.on = false;
                Err(PowerLost(place))
            }
            Some(left) => {
                *left -= 1;
                Ok(())
            }
        }
    }

    fn store_below(&mut self, member: usize, block: usize, bytes: &Block) -> Result<(), PowerLost> {
        self.fuse_lets(Some((member, block)))?;
        *self.memory_at(member, block) = *bytes;
        Ok(())
    }

    fn pass_oldest(&mut self) -> Result<(), PowerLost> {
        if let Some((member, block, bytes)) = self.held.front().copied() {
            self.store_below(member, block, &bytes)?;
            self.held.pop_front();
        }
        Ok(())
    }

    /// The newest bytes of a block, held or in memory, with or without power.
    pub fn current(&self, member: usize, block: usize) -> &Block {
        let newest = self.held.iter().rev().find(|h| (h.0, h.1) == (member, block));
        match newest {
            Some(held) => &held.2,
            None => &self.memory[member * self.blocks + block],
        }
    }

    pub fn read(&self, member: usize, block: usize) -> Block {
        assert!(self.on && member < self.members && block < self.blocks);
        *self.current(member, block)
    }

    pub fn store(&mut self, member: usize, block: usize, bytes: &Block) -> Result<(), PowerLost> {
        assert!(self.on && member < self.members && block < self.blocks);
        if !self.buffered {
            return self.store_below(member, block, bytes);
        }
        if self.held.len() == HELD {
            self.pass_oldest()?;
        }
        self.held.push_back((member, block, *bytes));
        Ok(())
    }

    pub fn barrier(&mut self) -> Result<(), PowerLost> {
        assert!(self.on);
        while !self.held.is_empty() {
            self.pass_oldest()?;
        }
        self.fuse_lets(None)
    }
}
