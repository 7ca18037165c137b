//! Random scenarios. They are played while they are made, so that most commands suit the state and reach deep.
use crate::array::{Destage, State, Step};
use crate::layout::Layout;
use crate::player::{Answer, Player};
use crate::random::Random;
use crate::scenario::{Command, Setting, Settings, Side};
use logs::log::Kind;

/// Shapes outside the limits of an array.
const NO_ARRAYS: [(usize, usize); 6] = [(1, 1), (1, 5), (2, 3), (9, 4), (16, 2), (2, 300)];
/// Shapes with as many blocks as a scenario may ask for.
const LARGE: [(usize, usize); 4] = [(8, 8192), (3, 21_845), (256, 256), (1, 65_536)];

/// Settings of another form.
const BAD_SETTINGS: [&str; 14] = [
    "members 0 4", "members 4 0", "members 4", "members 257 256", "members 4294967296 4294967296", "members 04 16", "layout 1",
    "layout 4", "layout", "log ring 1", "log tape 1 8", "log flag 0 1", "buffer", "buffer array",
];

/// Lines of another form, or settings where commands have begun.
const BAD_LINES: [&[u8]; 28] = [
    b" ", b"show ", b" show", b"\tshow", b"show\r", b"Show", b"write 1", b"write 1 256", b"write 01 2", b"write 1  2", b"read -1",
    b"read +1", b"read 1 2", b"read 18446744073709551616", b"read 99999999999999999999999", b"read one", b"open-short", b"cut members",
    b"cut array 3", b"power-on now", b"members 4 16", b"layout 3", b"log ring 1 8", b"buffer members", b"buffer log", b"\xFF\xFE",
    b"show # \xC3", b"st\xC3\xA9p",
];

struct Writer {
    random: Random,
    text: Vec<u8>,
    player: Player,
    /// How many more commands there should be.
    left: usize,
}

/// The scenario of a seed.
pub fn scenario(seed: u64) -> Vec<u8> {
    let mut random = Random::new(seed);
    let (text, settings) = begin(&mut random);
    let player = Player::new(&settings);
    let most = if player.array.is_within_limits() { 180 } else { 20 };
    let left = 20 + random.below(most);
    let mut writer = Writer { random, text, player, left };
    while writer.left > 0 {
        writer.turn();
    }
    writer.end();
    writer.text
}

/// The lines of the settings, in any order, and what they say.
fn begin(random: &mut Random) -> (Vec<u8>, Settings) {
    let mut chosen = settings(random);
    let mut taken = Settings::default();
    let mut text = Vec::new();
    while !chosen.is_empty() {
        let setting = chosen.swap_remove(random.below(chosen.len()));
        taken.take(setting);
        put(random, &mut text, setting.to_string().as_bytes());
        if random.once_in(300) {
            put(random, &mut text, setting.to_string().as_bytes());
        }
    }
    if random.once_in(40) {
        let bad = random.pick(&BAD_SETTINGS);
        put(random, &mut text, bad.as_bytes());
    }
    (text, taken)
}

fn settings(random: &mut Random) -> Vec<Setting> {
    let mut chosen = Vec::new();
    if !random.once_in(10) {
        let (members, blocks) = shape(random);
        chosen.push(Setting::Members(members, blocks));
    }
    if !random.once_in(6) {
        let layout = random.pick(&[Layout::RightAsymmetric, Layout::LeftAsymmetric, Layout::LeftSymmetric]);
        chosen.push(Setting::Layout(layout));
    }
    if !random.once_in(8) {
        chosen.push(log_setting(random));
    }
    if random.once_in(2) {
        chosen.push(Setting::Buffer(Side::Members));
    }
    if random.once_in(3) {
        chosen.push(Setting::Buffer(Side::Log));
    }
    chosen
}

fn shape(random: &mut Random) -> (usize, usize) {
    match random.below(64) {
        0..=31 => (3 + random.below(6), 1 + random.below(8)),
        32..=47 => (3 + random.below(3), 8 + random.below(32)),
        48..=60 => (3 + random.below(2), 66 + random.below(74)),
        61 if random.once_in(5) => random.pick(&LARGE),
        _ => random.pick(&NO_ARRAYS),
    }
}

fn log_setting(random: &mut Random) -> Setting {
    if random.once_in(3) {
        return Setting::Log(Kind::Flag, 1 + random.below(3), 1 + random.below(3));
    }
    let (members, blocks) = match random.below(8) {
        0..=3 => (1 + random.below(3), 2 + random.below(4)),
        4 | 5 => (1, 2),
        6 => random.pick(&[(8, 16), (64, 1), (1, 65), (3, 30)]),
        _ => random.pick(&[(2, 1), (1, 1), (5, 1)]),
    };
    Setting::Log(Kind::Ring, members, blocks)
}

/// Appends a line, now and then with a comment behind it or with a line that is passed over before it.
fn put(random: &mut Random, text: &mut Vec<u8>, line: &[u8]) {
    if random.once_in(40) {
        let passed_over = random.pick(&["\n", "# a comment\n", "   # spaces before it\n", "#\n", "#show\n"]);
        text.extend_from_slice(passed_over.as_bytes());
    }
    text.extend_from_slice(line);
    if random.once_in(30) {
        let comment = random.pick(&["#", " # why", "   # with # and #", " #\t\u{e9}"]);
        text.extend_from_slice(comment.as_bytes());
    }
    text.push(b'\n');
}

impl Writer {
    fn say(&mut self, command: Command) -> Answer {
        self.left = self.left.saturating_sub(1);
        put(&mut self.random, &mut self.text, command.to_string().as_bytes());
        self.player.answer(command)
    }

    fn turn(&mut self) {
        match self.random.below(100) {
            0..=4 => self.cut(),
            5..=8 => {
                self.say(Command::Show);
            }
            9..=11 => self.stray(),
            _ => match self.player.array.state() {
                State::Fallen => self.fallen(),
                State::Down => self.down(),
                State::Resync(_) => self.resync(),
                State::Ready => self.ready(),
                State::Short(_) => self.short(),
            },
        }
    }

    fn fill(&mut self) -> u8 {
        self.random.below(256) as u8
    }

    fn stripes(&self) -> usize {
        self.player.array.members.blocks
    }

    /// A block of the array, mostly.
    fn block(&mut self) -> usize {
        let blocks = self.player.array.data_blocks();
        match self.random.below(40) {
            0 => blocks,
            1 => self.random.pick(&[blocks + 1, usize::MAX, 1 << 32, 65_536 * 512]),
            2..=15 => self.random.below(blocks.max(1)),
            _ => self.random.below(blocks.clamp(1, 48)),
        }
    }

    fn member(&mut self) -> usize {
        let members = self.player.array.members.members;
        match self.random.below(12) {
            0 => members,
            1 => self.random.pick(&[members + 1, usize::MAX]),
            _ => self.random.below(members),
        }
    }

    fn cut(&mut self) {
        let side = if self.random.once_in(3) { Side::Log } else { Side::Members };
        let all = self.player.array.members.members * self.stripes();
        let left = match self.random.below(16) {
            0..=5 => self.random.below(4),
            6..=10 => self.random.below(12),
            11..=13 => self.random.below(40),
            14 => self.random.below(all + 10),
            _ => self.random.pick(&[usize::MAX, 1 << 40, 200]),
        };
        self.say(Command::Cut(side, left));
    }

    /// Any command, whatever the state.
    fn stray(&mut self) {
        let (block, member, fill) = (self.block(), self.member(), self.fill());
        let any = [
            Command::PowerOn, Command::Format, Command::Open, Command::Step, Command::Finish, Command::Write(block, fill),
            Command::Read(block), Command::ReadShort(block), Command::Destage, Command::Flush, Command::Close,
            Command::OpenShort(member), Command::GiveUp,
        ];
        let command = self.random.pick(&any);
        self.say(command);
    }

    /// Work with a cut on its way: what follows brings the array back.
    fn cut_work(&mut self) {
        let count = self.random.pick(&[1, 2, 5, 12]);
        self.write_some(count);
        if self.random.once_in(3) {
            self.say(Command::Destage);
        }
        let left = self.random.below(3 * count + 2);
        let side = if self.random.once_in(6) { Side::Log } else { Side::Members };
        self.say(Command::Cut(side, left));
        if self.random.once_in(4) {
            self.say(Command::Close);
        } else {
            self.empty_caches();
        }
    }

    fn write_some(&mut self, count: usize) {
        for _ in 0..count {
            let (block, fill) = (self.block(), self.fill());
            self.say(Command::Write(block, fill));
        }
    }

    /// Gives up a few of the newest tokens, and asks which kinds are left.
    fn give_up_some(&mut self) {
        let count = self.random.pick(&[1, 1, 2, 3, 5]);
        (0..count).for_each(|_| {
            self.say(Command::GiveUp);
        });
        for command in [Command::Step, Command::Read(0), Command::ReadShort(0)] {
            self.say(command);
        }
    }

    fn fallen(&mut self) {
        match self.random.below(12) {
            0 => self.stray(),
            1 => self.give_up_some(),
            2 | 3 => {
                self.cut();
                self.say(Command::Show);
            }
            _ => {
                self.say(Command::PowerOn);
            }
        }
    }

    fn down(&mut self) {
        let has_record = self.player.array.named_stripes().is_some();
        let command = match self.random.below(20) {
            0..=15 if !has_record => Command::Format,
            0..=12 => Command::Open,
            13..=15 => Command::OpenShort(self.member()),
            16 => Command::Format,
            17 => Command::PowerOn,
            18 => return self.stray(),
            _ => return self.give_up_some(),
        };
        self.say(command);
    }

    fn resync(&mut self) {
        match self.random.below(20) {
            0..=7 => {
                self.say(Command::Step);
            }
            8 => self.cut(),
            9..=16 => self.step_to_the_end(),
            17 | 18 => {
                self.say(Command::Finish);
            }
            _ => {
                let command = self.random.pick(&[Command::PowerOn, Command::GiveUp, Command::OpenShort(0)]);
                self.say(command);
            }
        }
    }

    /// Steps to the end and finishes, or goes on where a step is refused or the commands are used up.
    fn step_to_the_end(&mut self) {
        while let Answer::Stepped(Step::Stripe { .. }) = self.say(Command::Step) {
            if self.left == 0 && self.random.once_in(20) {
                return;
            }
        }
        self.say(Command::Finish);
    }

    fn ready(&mut self) {
        let command = match self.random.below(100) {
            0..=29 => Command::Write(self.block(), self.fill()),
            30..=39 => Command::Read(self.block()),
            40..=70 => Command::Destage,
            71..=77 => Command::Flush,
            78..=81 => Command::Close,
            82 => Command::PowerOn,
            83 => Command::GiveUp,
            84..=86 => return self.burst(),
            87 | 88 => return self.read_some(),
            89..=96 => return self.cut_work(),
            _ => return self.name_many(),
        };
        self.say(command);
    }

    /// Many writes: one block in each of many stripes, or many blocks of few stripes.
    fn burst(&mut self) {
        let count = self.random.pick(&[3, 8, 16, 31, 32, 33, 34, 40]);
        let step = self.random.pick(&[1, 1, 2, 3, self.player.array.members.members - 1]);
        let (start, blocks) = (self.block(), self.player.array.data_blocks());
        for turn in 0..count {
            let fill = self.fill();
            self.say(Command::Write(start.wrapping_add(turn * step) % blocks, fill));
        }
    }

    fn read_some(&mut self) {
        for _ in 0..6 {
            let block = self.block();
            self.say(Command::Read(block));
        }
    }

    /// Has the log name about 64 stripes and then a few more, by preference without a barrier and with a cut near the
    /// end.
    fn name_many(&mut self) {
        let mut stripe = self.random.below(self.stripes());
        let flushes = self.random.once_in(3);
        for (choices, cuts) in [([32, 32, 32], 12), ([30, 31, 32], 8), ([1, 2, 32], 2)] {
            if self.player.array.state() != State::Ready {
                break;
            }
            let count = self.random.pick(&choices);
            self.write_stripes(stripe, count);
            stripe += count;
            if self.random.once_in(cuts) {
                let left = self.random.below(10);
                self.say(Command::Cut(Side::Members, left));
            } else if self.random.once_in(cuts) {
                self.cut();
            }
            if flushes {
                self.say(Command::Flush);
            } else {
                self.destage_all();
            }
            self.say(Command::Show);
        }
        // So that a resynchronization can follow.
        self.left = self.left.max(20);
    }

    fn write_stripes(&mut self, first: usize, count: usize) {
        let width = self.player.array.members.members - 1;
        for turn in 0..count {
            let (stripe, position, fill) = ((first + turn) % self.stripes(), self.random.below(width), self.fill());
            self.say(Command::Write(stripe * width + position, fill));
        }
    }

    fn empty_caches(&mut self) {
        if self.random.once_in(2) {
            self.say(Command::Flush);
        } else {
            self.destage_all();
        }
    }

    /// Destages until that is idle or refused, or most of the way.
    fn destage_all(&mut self) {
        while let Answer::Destaged(Destage::Moved(_) | Destage::Changed { .. }) = self.say(Command::Destage) {
            if self.random.once_in(100) {
                return;
            }
        }
    }

    fn short(&mut self) {
        match self.random.below(20) {
            0..=15 => {
                let block = self.block();
                self.say(Command::ReadShort(block));
            }
            16 | 17 => {
                self.say(Command::GiveUp);
            }
            18 => {
                self.say(Command::PowerOn);
            }
            _ => self.stray(),
        }
    }

    /// Now and then a line of another form with more lines behind it, and an end without its newline.
    fn end(&mut self) {
        if self.random.once_in(6) {
            let bad = self.random.pick(&BAD_LINES);
            put(&mut self.random, &mut self.text, bad);
            self.text.extend_from_slice(b"show\npower-on\n");
        }
        if self.random.once_in(4) {
            self.text.pop();
        }
    }
}

#[cfg(test)]
mod tests {
    use super::*;
    use crate::kinds::Kinds;
    use crate::player::answers;

    /// All that can be answered, but for bytes that are not all equal: every write fills its block with one byte, and
    /// so does parity. Refusals 8, 11, 12 and 13 cannot be reached by commands.
    const REACHED: [&str; 43] = [
        "ok", "down", "formatted", "opened", "stripe _ mended", "stripe _ right", "none left", "ready read _ mended _", "buffered",
        "fill _", "moved _", "changed _", "idle", "flushed _ puts _", "closed", "short", "given up", "no token", "bad _",
        "state fallen wrong _ named _ free _", "state fallen wrong _ named - free _", "state down wrong _ named _ free _",
        "state down wrong _ named - free _", "state resync wrong _ named _ free _", "state ready wrong _ named _ free _",
        "state short wrong _ named _ free _", "refused 1 members", "refused 1 members _ _", "refused 1 log-store",
        "refused 1 log-store _ _", "refused 2 array _ _", "refused 2 log _ _", "refused 3 array fallen", "refused 3 array down",
        "refused 3 array resync", "refused 3 array ready", "refused 3 array short", "refused 4 array", "refused 5 array _",
        "refused 6 array _", "refused 7 array _", "refused 9 array _", "refused 10 array _",
    ];

    #[test]
    fn every_kind_of_answer_is_reached() {
        let mut kinds = Kinds::default();
        for seed in 1..=400 {
            kinds.count(answers(&scenario(seed)).iter().map(String::as_str));
        }
        let missing: Vec<&str> = REACHED.into_iter().filter(|kind| !kinds.has(kind)).collect();
        assert!(missing.is_empty(), "{missing:?} never came in\n{kinds}");
    }

    #[test]
    fn a_seed_gives_one_scenario() {
        assert_eq!(scenario(5), scenario(5));
        assert_ne!(scenario(5), scenario(6));
    }
}
