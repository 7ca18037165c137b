//! The buffering and the destaging cache, which share 32 slots.
use logs::device::Block;
use std::collections::BTreeMap;

const SLOTS: usize = 32;

#[derive(Default)]
pub struct Caches {
    buffering: BTreeMap<usize, Block>,
    destaging: BTreeMap<usize, Block>,
}

impl Caches {
    pub fn empty(&mut self) {
        *self = Caches::default();
    }

    pub fn free_slots(&self) -> usize {
        SLOTS - self.buffering.len() - self.destaging.len()
    }

    /// Buffers a block. Answers false, and changes nothing, where it is not buffered and no slot is free.
    pub fn put(&mut self, block: usize, bytes: Block) -> bool {
        let has_room = self.buffering.contains_key(&block) || self.free_slots() > 0;
        if has_room {
            self.buffering.insert(block, bytes);
        }
        has_room
    }

    /// The newest cached bytes of a block.
    pub fn find(&self, block: usize) -> Option<&Block> {
        self.buffering.get(&block).or_else(|| self.destaging.get(&block))
    }

    /// The stripes of the buffering cache, rising, where a stripe has `width` blocks.
    pub fn buffering_stripes(&self, width: usize) -> Vec<u32> {
        let mut stripes: Vec<u32> = self.buffering.keys().map(|block| (block / width) as u32).collect();
        stripes.dedup();
        stripes
    }

    pub fn lowest_destaging_stripe(&self, width: usize) -> Option<usize> {
        self.destaging.keys().next().map(|block| block / width)
    }

    pub fn destaging(&self, block: usize) -> Option<&Block> {
        self.destaging.get(&block)
    }

    pub fn free_stripe(&mut self, width: usize, stripe: usize) {
        self.destaging.retain(|block, _| block / width != stripe);
    }

    pub fn change_places(&mut self) {
        std::mem::swap(&mut self.buffering, &mut self.destaging);
    }
}
