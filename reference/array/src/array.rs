//! The array: its state and its calls.
use crate::caches::Caches;
use crate::layout::Layout;
use crate::refusal::{Layer, Refusal};
use logs::device::{Block, Device, PowerLost};
use logs::log::Log;
use logs::record::BLOCK;

pub const MEMBERS: std::ops::RangeInclusive<usize> = 3..=8;
pub const BLOCKS: std::ops::RangeInclusive<usize> = 1..=16_777_216;

#[derive(Clone, Copy, Debug, PartialEq, Eq)]
pub enum State {
    Fallen,
    Down,
    Resync(Progress),
    Ready,
    /// Opened without this member.
    Short(usize),
}

/// How far a resynchronization has come: stripes below `from` are taken.
#[derive(Clone, Copy, Debug, Default, PartialEq, Eq)]
pub struct Progress {
    from: usize,
    read: usize,
    mended: usize,
}

#[derive(Clone, Copy, Debug, PartialEq, Eq)]
pub enum Step {
    Stripe { stripe: usize, mended: bool },
    NoneLeft,
}

#[derive(Clone, Copy, Debug, PartialEq, Eq)]
pub struct Counts {
    pub read: usize,
    pub mended: usize,
}

#[derive(Clone, Copy, Debug, PartialEq, Eq)]
pub enum Destage {
    Moved(usize),
    Changed { puts: usize },
    Idle,
}

#[derive(Clone, Copy, Debug, Default, PartialEq, Eq)]
pub struct Flush {
    pub written: usize,
    pub puts: usize,
}

impl State {
    pub fn word(&self) -> &'static str {
        match self {
            State::Fallen => "fallen",
            State::Down => "down",
            State::Resync(_) => "resync",
            State::Ready => "ready",
            State::Short(_) => "short",
        }
    }
}

pub fn exclusive_or<'a>(blocks: impl Iterator<Item = &'a Block>) -> Block {
    let mut sum = [0; BLOCK];
    for block in blocks {
        sum.iter_mut().zip(block).for_each(|(s, b)| *s ^= b);
    }
    sum
}

pub struct Array {
    pub members: Device,
    pub log: Log,
    layout: Layout,
    caches: Caches,
    state: State,
}

impl Array {
    pub fn new(members: Device, log: Log, layout: Layout) -> Array {
        Array { members, log, layout, caches: Caches::default(), state: State::Fallen }
    }

    pub fn state(&self) -> State {
        self.state
    }

    pub fn free_slots(&self) -> usize {
        self.caches.free_slots()
    }

    /// Blocks of data in a stripe.
    fn width(&self) -> usize {
        self.members.members - 1
    }

    pub fn data_blocks(&self) -> usize {
        self.width() * self.members.blocks
    }

    /// The member of a block of data and its stripe.
    pub fn locate(&self, block: usize) -> (usize, usize) {
        let stripe = block / self.width();
        (self.layout.member_of(self.members.members, stripe, block % self.width()), stripe)
    }

    /// Is the parity of a stripe right in the current bytes?
    pub fn is_right(&self, stripe: usize) -> bool {
        let all = (0..self.members.members).map(|member| self.members.current(member, stripe));
        exclusive_or(all) == [0; BLOCK]
    }

    /// How many stripes of the array are named; none where the log has no power or no record stands.
    pub fn named_stripes(&self) -> Option<usize> {
        self.log.standing().ok().flatten()?;
        let named = self.log.named_now();
        Some((0..self.members.blocks).filter(|stripe| named.has(*stripe as u32)).count())
    }

    fn wrong_state(&self) -> Refusal {
        Refusal::State(self.state.word())
    }

    fn check_state(&self, wanted: State) -> Result<(), Refusal> {
        if self.state == wanted {
            Ok(())
        } else {
            Err(self.wrong_state())
        }
    }

    /// Do the counts of members and blocks keep the limits of an array?
    pub fn is_within_limits(&self) -> bool {
        MEMBERS.contains(&self.members.members) && BLOCKS.contains(&self.members.blocks)
    }

    fn check_limits(&self) -> Result<(), Refusal> {
        if self.is_within_limits() {
            Ok(())
        } else {
            Err(Refusal::Limits(Layer::Array, self.members.members, self.members.blocks))
        }
    }

    fn check_record(&self) -> Result<(), Refusal> {
        match self.log.standing()? {
            Some(_) => Ok(()),
            None => Err(Refusal::NoRecord(Layer::Array)),
        }
    }

    fn check_block(&self, block: usize) -> Result<(), Refusal> {
        if block < self.data_blocks() {
            Ok(())
        } else {
            Err(Refusal::NoBlock(block))
        }
    }

    /// A refusal for want of power leaves the array fallen.
    fn fall_if_cut<T>(&mut self, result: Result<T, Refusal>) -> Result<T, Refusal> {
        if matches!(result, Err(Refusal::Power(..))) {
            self.state = State::Fallen;
        }
        result
    }

    pub fn power_on(&mut self) -> Result<(), Refusal> {
        self.caches.empty();
        self.state = State::Fallen;
        self.members.power_on();
        self.log.power_on()?;
        self.state = State::Down;
        Ok(())
    }

    pub fn format(&mut self) -> Result<(), Refusal> {
        self.check_state(State::Down)?;
        self.check_limits()?;
        let formatted = self.format_all();
        self.fall_if_cut(formatted)
    }

    fn format_all(&mut self) -> Result<(), Refusal> {
        self.log.blank()?;
        let blocks = self.members.blocks;
        for place in 0..self.members.members * blocks {
            self.members.store(place / blocks, place % blocks, &[0; BLOCK])?;
        }
        self.members.barrier()?;
        Ok(self.log.clear()?)
    }

    pub fn open(&mut self) -> Result<(), Refusal> {
        self.check_state(State::Down)?;
        self.check_limits()?;
        self.check_record()?;
        self.state = State::Resync(Progress::default());
        Ok(())
    }

    pub fn open_short(&mut self, absent: usize) -> Result<(), Refusal> {
        self.check_state(State::Down)?;
        self.check_limits()?;
        if absent >= self.members.members {
            return Err(Refusal::NoMember(absent));
        }
        self.check_record()?;
        self.state = State::Short(absent);
        Ok(())
    }

    /// The next named stripe of the array that is not taken.
    fn next_due(&self, progress: Progress) -> Result<Option<usize>, Refusal> {
        let next = self.log.next_named(progress.from as u32)?.map(|stripe| stripe as usize);
        Ok(next.filter(|stripe| *stripe < self.members.blocks))
    }

    pub fn step(&mut self) -> Result<Step, Refusal> {
        let State::Resync(progress) = self.state else {
            return Err(self.wrong_state());
        };
        let Some(stripe) = self.next_due(progress)? else {
            return Ok(Step::NoneLeft);
        };
        let mended = self.mend(stripe).map_err(Refusal::from);
        let mended = self.fall_if_cut(mended)?;
        let Progress { read, mended: before, .. } = progress;
        self.state = State::Resync(Progress { from: stripe + 1, read: read + 1, mended: before + usize::from(mended) });
        Ok(Step::Stripe { stripe, mended })
    }

    /// Reads a stripe and stores its parity if that is wrong.
    fn mend(&mut self, stripe: usize) -> Result<bool, PowerLost> {
        let data: Vec<Block> = (0..self.width()).map(|position| self.read_position(stripe, position)).collect();
        let parity = exclusive_or(data.iter());
        let holder = self.layout.parity_member(self.members.members, stripe);
        if self.members.read(holder, stripe) == parity {
            return Ok(false);
        }
        self.members.store(holder, stripe, &parity)?;
        Ok(true)
    }

    fn read_position(&self, stripe: usize, position: usize) -> Block {
        self.members.read(self.layout.member_of(self.members.members, stripe, position), stripe)
    }

    pub fn finish(&mut self) -> Result<Counts, Refusal> {
        let State::Resync(progress) = self.state else {
            return Err(self.wrong_state());
        };
        if let Some(stripe) = self.next_due(progress)? {
            self.state = State::Down;
            return Err(Refusal::StripeLeft(stripe));
        }
        let cleared = self.bar_and_clear();
        self.fall_if_cut(cleared)?;
        self.state = State::Ready;
        Ok(Counts { read: progress.read, mended: progress.mended })
    }

    fn bar_and_clear(&mut self) -> Result<(), Refusal> {
        self.members.barrier()?;
        Ok(self.log.clear()?)
    }

    pub fn write(&mut self, block: usize, bytes: Block) -> Result<(), Refusal> {
        self.check_state(State::Ready)?;
        self.check_block(block)?;
        if self.caches.put(block, bytes) {
            Ok(())
        } else {
            Err(Refusal::NoSlot(block))
        }
    }

    pub fn read(&mut self, block: usize) -> Result<Block, Refusal> {
        self.check_state(State::Ready)?;
        self.check_block(block)?;
        if let Some(cached) = self.caches.find(block) {
            return Ok(*cached);
        }
        let (member, stripe) = self.locate(block);
        Ok(self.members.read(member, stripe))
    }

    pub fn destage(&mut self) -> Result<Destage, Refusal> {
        self.check_state(State::Ready)?;
        let done = self.destage_once();
        self.fall_if_cut(done)
    }

    fn destage_once(&mut self) -> Result<Destage, Refusal> {
        if let Some(stripe) = self.caches.lowest_destaging_stripe(self.width()) {
            self.write_stripe(stripe)?;
            self.caches.free_stripe(self.width(), stripe);
            return Ok(Destage::Moved(stripe));
        }
        let stripes = self.caches.buffering_stripes(self.width());
        if stripes.is_empty() {
            return Ok(Destage::Idle);
        }
        let puts = self.name(&stripes)?;
        self.caches.change_places();
        Ok(Destage::Changed { puts })
    }

    /// Reads the data that is not cached, stores the cached blocks, then parity.
    fn write_stripe(&mut self, stripe: usize) -> Result<(), PowerLost> {
        let width = self.width();
        let cached: Vec<Option<Block>> = (0..width).map(|j| self.caches.destaging(stripe * width + j).copied()).collect();
        let data: Vec<Block> =
            cached.iter().enumerate().map(|(j, bytes)| bytes.unwrap_or_else(|| self.read_position(stripe, j))).collect();
        for (position, bytes) in cached.iter().enumerate().filter_map(|(j, bytes)| bytes.map(|b| (j, b))) {
            let member = self.layout.member_of(self.members.members, stripe, position);
            self.members.store(member, stripe, &bytes)?;
        }
        let holder = self.layout.parity_member(self.members.members, stripe);
        self.members.store(holder, stripe, &exclusive_or(data.iter()))
    }

    /// Has the log name these stripes; answers how many puts that took.
    fn name(&mut self, stripes: &[u32]) -> Result<usize, Refusal> {
        let named = self.log.named_now();
        if stripes.iter().all(|stripe| named.has(*stripe)) {
            return Ok(0);
        }
        if self.log.spent()? {
            return Err(Refusal::Spent(Layer::Array));
        }
        if self.log.fits(stripes)? {
            self.log.mark(stripes)?;
        } else {
            self.members.barrier()?;
            self.log.fresh(stripes)?;
        }
        Ok(1)
    }

    pub fn flush(&mut self) -> Result<Flush, Refusal> {
        self.check_state(State::Ready)?;
        let flushed = self.flush_all();
        self.fall_if_cut(flushed)
    }

    fn flush_all(&mut self) -> Result<Flush, Refusal> {
        let mut counts = Flush::default();
        loop {
            match self.destage_once()? {
                Destage::Moved(_) => counts.written += 1,
                Destage::Changed { puts } => counts.puts += puts,
                Destage::Idle => break,
            }
        }
        self.members.barrier()?;
        Ok(counts)
    }

    pub fn close(&mut self) -> Result<(), Refusal> {
        self.check_state(State::Ready)?;
        self.state = State::Fallen;
        self.flush_all()?;
        self.log.clear()?;
        self.state = State::Down;
        Ok(())
    }

    pub fn read_short(&mut self, block: usize) -> Result<Block, Refusal> {
        let State::Short(absent) = self.state else {
            return Err(self.wrong_state());
        };
        self.check_block(block)?;
        let (member, stripe) = self.locate(block);
        if member != absent {
            return Ok(self.members.read(member, stripe));
        }
        if self.log.is_named(stripe as u32)? {
            return Err(Refusal::StripeNamed(stripe));
        }
        let others = (0..self.members.members).filter(|other| *other != absent);
        let rows: Vec<Block> = others.map(|other| self.members.read(other, stripe)).collect();
        Ok(exclusive_or(rows.iter()))
    }

    pub fn give_up(&mut self) {
        self.caches.empty();
        if self.state != State::Fallen {
            self.state = State::Down;
        }
    }
}
