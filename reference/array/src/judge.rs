//! Judges runs of the second implementation by the crash promise: parity at each accepted finish, each block by the
//! book, reads without one member.
use crate::array::{Array, Counts, State, Step};
use crate::player::{Answer, Player};
use crate::refusal::Refusal;
use crate::scenario::{line, lines, Command, Line, Settings};
use logs::device::Block;
use logs::log::Named;
use logs::record::BLOCK;

/// Larger arrays are not judged.
const MOST_BLOCKS: usize = 2_000;

/// What a block may hold: its base or bytes on its list.
struct Page {
    base: Block,
    list: Vec<Block>,
}

impl Page {
    fn newest(&self) -> &Block {
        self.list.last().unwrap_or(&self.base)
    }

    fn allows(&self, bytes: &Block) -> bool {
        self.base == *bytes || self.list.contains(bytes)
    }

    fn settle(&mut self, base: Block) {
        self.base = base;
        self.list.clear();
    }
}

/// What the log named and the members held at the latest accepted open, and the mendings told since.
struct Opening {
    named: Named,
    rows: Vec<Vec<Block>>,
    mended: usize,
}

#[derive(Default)]
struct Judge {
    /// From an accepted format on.
    book: Option<Vec<Page>>,
    opening: Option<Opening>,
    tally: Tally,
}

/// What was judged.
#[derive(Clone, Copy, Debug, Default, PartialEq, Eq)]
pub struct Tally {
    pub finishes: usize,
    pub mended: usize,
    pub settled: usize,
    pub reads: usize,
    pub short_reads: usize,
    pub short_refusals: usize,
}

impl Tally {
    pub fn add(&mut self, other: Tally) {
        self.finishes += other.finishes;
        self.mended += other.mended;
        self.settled += other.settled;
        self.reads += other.reads;
        self.short_reads += other.short_reads;
        self.short_refusals += other.short_refusals;
    }
}

fn rows(array: &Array) -> Vec<Vec<Block>> {
    let row = |stripe| (0..array.members.members).map(|member| *array.members.current(member, stripe)).collect();
    (0..array.members.blocks).map(row).collect()
}

fn held(array: &Array, block: usize) -> Block {
    let (member, stripe) = array.locate(block);
    *array.members.current(member, stripe)
}

fn ensure(holds: bool, fault: impl FnOnce() -> String) -> Result<(), String> {
    if holds {
        Ok(())
    } else {
        Err(fault())
    }
}

impl Judge {
    /// Begins the book at an accepted format, and judges from then on.
    fn attend(&mut self, array: &Array, absent: Option<usize>, command: Command, answer: &Answer) -> Result<(), String> {
        if (command, answer) == (Command::Format, &Answer::Formatted) {
            self.book = Some((0..array.data_blocks()).map(|_| Page { base: [0; BLOCK], list: Vec::new() }).collect());
            return self.only_the_base_stands(array);
        }
        match self.book {
            Some(_) => self.hear(array, absent, command, answer),
            None => Ok(()),
        }
    }

    fn hear(&mut self, array: &Array, absent: Option<usize>, command: Command, answer: &Answer) -> Result<(), String> {
        match (command, answer) {
            (Command::Format, Answer::Refused(Refusal::Power(..))) => {
                self.pages().iter_mut().for_each(|page| page.list.push([0; BLOCK]));
                Ok(())
            }
            (Command::Write(block, fill), Answer::Buffered) => {
                self.pages()[block].list.push([fill; BLOCK]);
                Ok(())
            }
            (Command::Open, Answer::Opened) => {
                self.opening = Some(Opening { named: array.log.named_now(), rows: rows(array), mended: 0 });
                Ok(())
            }
            (Command::Step, Answer::Stepped(Step::Stripe { mended: true, .. })) => {
                self.opening.iter_mut().for_each(|opening| opening.mended += 1);
                Ok(())
            }
            (Command::Flush, Answer::Flushed(_)) | (Command::Close, Answer::Closed) => {
                self.pages().iter_mut().for_each(|page| page.settle(*page.newest()));
                self.only_the_base_stands(array)
            }
            (Command::Finish, Answer::Finished(counts)) => self.hear_finish(array, *counts),
            (Command::Read(block), Answer::Bytes(bytes)) => self.hear_read(block, bytes),
            (Command::ReadShort(block), answer) => self.hear_short_read(array, absent, block, answer),
            _ => Ok(()),
        }
    }

    /// The book; empty before an accepted format.
    fn pages(&mut self) -> &mut [Page] {
        self.book.as_deref_mut().unwrap_or_default()
    }

    fn hear_finish(&mut self, array: &Array, counts: Counts) -> Result<(), String> {
        let wrong: Vec<usize> = (0..array.members.blocks).filter(|stripe| !array.is_right(*stripe)).collect();
        ensure(wrong.is_empty(), || format!("stripes {wrong:?} have wrong parity"))?;
        let opening = self.opening.as_ref().ok_or("a finish without an open")?;
        let named = (0..array.members.blocks).filter(|stripe| opening.named.has(*stripe as u32)).count();
        ensure((counts.read, counts.mended) == (named, opening.mended), || format!("{counts:?} for {named} named stripes"))?;
        let now = rows(array);
        let untouched = |stripe: usize| opening.named.has(stripe as u32) || opening.rows[stripe] == now[stripe];
        let touched: Vec<usize> = (0..now.len()).filter(|stripe| !untouched(*stripe)).collect();
        ensure(touched.is_empty(), || format!("stripes {touched:?} were stored to and not named"))?;
        self.tally.finishes += 1;
        self.tally.mended += counts.mended;
        self.blocks_by_the_book(array)?;
        self.pages().iter_mut().enumerate().for_each(|(block, page)| page.settle(held(array, block)));
        self.only_the_base_stands(array)
    }

    fn blocks_by_the_book(&mut self, array: &Array) -> Result<(), String> {
        let off = self.pages().iter().enumerate().find(|(block, page)| !page.allows(&held(array, *block)));
        off.map_or(Ok(()), |(block, _)| Err(format!("block {block} is off the book")))
    }

    /// A cut now can bring back nothing but the base.
    fn only_the_base_stands(&mut self, array: &Array) -> Result<(), String> {
        self.tally.settled += 1;
        ensure(array.members.is_settled(), || "a barrier is missing".to_string())?;
        let off = self.pages().iter().enumerate().find(|(block, page)| page.base != held(array, *block));
        off.map_or(Ok(()), |(block, _)| Err(format!("block {block} does not hold its base")))
    }

    fn hear_read(&mut self, block: usize, bytes: &Block) -> Result<(), String> {
        self.tally.reads += 1;
        ensure(self.pages()[block].newest() == bytes, || format!("block {block} reads other bytes than were written"))
    }

    fn hear_short_read(&mut self, array: &Array, absent: Option<usize>, block: usize, answer: &Answer) -> Result<(), String> {
        let Some(absent) = absent.filter(|_| block < array.data_blocks()) else {
            return Ok(());
        };
        let (member, stripe) = array.locate(block);
        let unknown = member == absent && array.log.named_now().has(stripe as u32);
        match answer {
            Answer::Bytes(bytes) => {
                self.tally.short_reads += 1;
                ensure(!unknown && self.pages()[block].allows(bytes), || format!("block {block} reads short off the book"))
            }
            Answer::Refused(Refusal::StripeNamed(told)) => {
                self.tally.short_refusals += 1;
                ensure(unknown && *told == stripe, || format!("block {block} is refused"))
            }
            Answer::NoToken => Ok(()),
            _ => Err(format!("block {block} is refused otherwise")),
        }
    }
}

/// Makes other blocks stand in for the absent member's, or takes them away again.
fn stand_in(player: &mut Player, absent: Option<usize>) {
    let Some(member) = absent else { return };
    for block in 0..player.array.members.blocks {
        let bytes = player.array.members.memory_at(member, block);
        bytes.iter_mut().enumerate().for_each(|(i, byte)| *byte ^= (0xA5 + 7 * block + i) as u8);
    }
}

fn play(judge: &mut Judge, player: &mut Player, command: Command) -> Result<(), String> {
    let absent = match (command, player.array.state()) {
        (Command::ReadShort(_), State::Short(absent)) => Some(absent),
        _ => None,
    };
    stand_in(player, absent);
    let answer = player.answer(command);
    stand_in(player, absent);
    judge.attend(&player.array, absent, command, &answer)
}

/// Plays a scenario and judges it; the fault with its line where there is one.
pub fn judge(text: &[u8]) -> Result<Tally, String> {
    let mut settings = Settings::default();
    let mut player: Option<Player> = None;
    let mut judge = Judge::default();
    for (index, bytes) in lines(text).enumerate() {
        match line(bytes) {
            Some(Line::Nothing) => {}
            Some(Line::Setting(setting)) if player.is_none() && settings.take(setting) => {}
            Some(Line::Command(command)) => {
                let player = player.get_or_insert_with(|| Player::new(&settings));
                if player.array.data_blocks() > MOST_BLOCKS {
                    break;
                }
                play(&mut judge, player, command).map_err(|fault| format!("line {}: {fault}", index + 1))?;
            }
            _ => break,
        }
    }
    Ok(judge.tally)
}

#[cfg(test)]
mod tests {
    use super::*;
    use crate::generate::scenario;

    #[test]
    fn runs_keep_the_promise() {
        let mut tally = Tally::default();
        for seed in 1..=2_000 {
            match judge(&scenario(seed)) {
                Ok(judged) => tally.add(judged),
                Err(fault) => panic!("seed {seed}: {fault}"),
            }
        }
        let least = [tally.finishes, tally.mended, tally.settled, tally.reads, tally.short_reads, tally.short_refusals];
        assert!(least.iter().all(|count| *count > 100), "{tally:?}");
    }
}
