//! Plays a scenario: an array with all tokens that it gave, and an answer for each command.
use crate::array::{Array, Counts, Destage, Flush, Step};
use crate::layout::Layout;
use crate::refusal::Refusal;
use crate::scenario::{line, lines, Command, Line, Settings, Side};
use logs::device::{Block, Device};
use logs::log::{Kind, Log};
use logs::record::BLOCK;
use std::fmt;

/// Tickets and permits.
#[derive(Clone, Copy, Debug, PartialEq, Eq)]
pub enum Token {
    Resync,
    Ready,
    Short,
}

#[derive(Clone, Debug, PartialEq, Eq)]
pub enum Answer {
    Ok,
    Down,
    Formatted,
    Opened,
    Stepped(Step),
    Finished(Counts),
    Buffered,
    Bytes(Box<Block>),
    Destaged(Destage),
    Flushed(Flush),
    Closed,
    Short,
    GivenUp,
    Shown(Shown),
    NoToken,
    Refused(Refusal),
}

#[derive(Clone, Debug, PartialEq, Eq)]
pub struct Shown {
    state: &'static str,
    wrong: usize,
    named: Option<usize>,
    free: usize,
}

impl fmt::Display for Shown {
    fn fmt(&self, f: &mut fmt::Formatter) -> fmt::Result {
        let Shown { state, wrong, named, free } = self;
        let named = named.map_or("-".to_string(), |count| count.to_string());
        write!(f, "state {state} wrong {wrong} named {named} free {free}")
    }
}

fn fill_of(bytes: &Block) -> String {
    if bytes.iter().all(|byte| *byte == bytes[0]) {
        format!("fill {}", bytes[0])
    } else {
        "mixed".to_string()
    }
}

impl fmt::Display for Answer {
    fn fmt(&self, f: &mut fmt::Formatter) -> fmt::Result {
        match self {
            Answer::Ok => write!(f, "ok"),
            Answer::Down => write!(f, "down"),
            Answer::Formatted => write!(f, "formatted"),
            Answer::Opened => write!(f, "opened"),
            Answer::Stepped(Step::NoneLeft) => write!(f, "none left"),
            Answer::Stepped(Step::Stripe { stripe, mended: true }) => write!(f, "stripe {stripe} mended"),
            Answer::Stepped(Step::Stripe { stripe, mended: false }) => write!(f, "stripe {stripe} right"),
            Answer::Finished(Counts { read, mended }) => write!(f, "ready read {read} mended {mended}"),
            Answer::Buffered => write!(f, "buffered"),
            Answer::Bytes(bytes) => write!(f, "{}", fill_of(bytes)),
            Answer::Destaged(Destage::Moved(stripe)) => write!(f, "moved {stripe}"),
            Answer::Destaged(Destage::Changed { puts }) => write!(f, "changed {puts}"),
            Answer::Destaged(Destage::Idle) => write!(f, "idle"),
            Answer::Flushed(Flush { written, puts }) => write!(f, "flushed {written} puts {puts}"),
            Answer::Closed => write!(f, "closed"),
            Answer::Short => write!(f, "short"),
            Answer::GivenUp => write!(f, "given up"),
            Answer::Shown(shown) => write!(f, "{shown}"),
            Answer::NoToken => write!(f, "no token"),
            Answer::Refused(refusal) => write!(f, "{refusal}"),
        }
    }
}

pub struct Player {
    pub array: Array,
    /// What is held, the oldest first.
    tokens: Vec<Token>,
}

fn store(counts: (usize, usize), buffered: bool) -> Device {
    let mut device = Device::new(counts.0, counts.1);
    device.buffered = buffered;
    device
}

impl Player {
    pub fn new(settings: &Settings) -> Player {
        let members = store(settings.members.unwrap_or((4, 16)), settings.buffer_members);
        let (kind, log_members, log_blocks) = settings.log.unwrap_or((Kind::Ring, 1, 8));
        let log = Log::new(kind, store((log_members, log_blocks), settings.buffer_log));
        let layout = settings.layout.unwrap_or(Layout::LeftSymmetric);
        Player { array: Array::new(members, log, layout), tokens: Vec::new() }
    }

    fn newest(&self, kind: Token) -> Option<usize> {
        self.tokens.iter().rposition(|token| *token == kind)
    }

    /// A call that looks at the newest token of a kind.
    fn with<T>(&mut self, kind: Token, call: impl FnOnce(&mut Array) -> Result<T, Refusal>, tell: impl FnOnce(T) -> Answer) -> Answer {
        match self.newest(kind) {
            None => Answer::NoToken,
            Some(_) => call(&mut self.array).map_or_else(Answer::Refused, tell),
        }
    }

    /// A call that takes the newest token of a kind, save where the state does not allow the call.
    fn spend<T>(&mut self, kind: Token, call: impl FnOnce(&mut Array) -> Result<T, Refusal>, tell: impl FnOnce(T) -> Answer) -> Answer {
        let Some(at) = self.newest(kind) else {
            return Answer::NoToken;
        };
        let result = call(&mut self.array);
        if !matches!(result, Err(Refusal::State(_))) {
            self.tokens.remove(at);
        }
        result.map_or_else(Answer::Refused, tell)
    }

    /// A call that gives a token where it is accepted.
    fn given(&mut self, kind: Token, result: Result<(), Refusal>, accepted: Answer) -> Answer {
        match result {
            Err(refusal) => Answer::Refused(refusal),
            Ok(()) => {
                self.tokens.push(kind);
                accepted
            }
        }
    }

    fn finish(&mut self) -> Answer {
        let answer = self.spend(Token::Resync, Array::finish, Answer::Finished);
        if matches!(answer, Answer::Finished(_)) {
            self.tokens.push(Token::Ready);
        }
        answer
    }

    fn give_up(&mut self) -> Answer {
        match self.tokens.pop() {
            None => Answer::NoToken,
            Some(_) => {
                self.array.give_up();
                Answer::GivenUp
            }
        }
    }

    fn cut(&mut self, side: Side, left: usize) -> Answer {
        match side {
            Side::Members => self.array.members.cut_after(left),
            Side::Log => self.array.log.device.cut_after(left),
        }
        Answer::Ok
    }

    fn show(&self) -> Answer {
        let array = &self.array;
        let wrong = (0..array.members.blocks).filter(|stripe| !array.is_right(*stripe)).count();
        Answer::Shown(Shown { state: array.state().word(), wrong, named: array.named_stripes(), free: array.free_slots() })
    }

    pub fn answer(&mut self, command: Command) -> Answer {
        let bytes = |bytes| Answer::Bytes(Box::new(bytes));
        match command {
            Command::Cut(side, left) => self.cut(side, left),
            Command::PowerOn => self.array.power_on().map_or_else(Answer::Refused, |()| Answer::Down),
            Command::Format => self.array.format().map_or_else(Answer::Refused, |()| Answer::Formatted),
            Command::Open => {
                let opened = self.array.open();
                self.given(Token::Resync, opened, Answer::Opened)
            }
            Command::OpenShort(absent) => {
                let opened = self.array.open_short(absent);
                self.given(Token::Short, opened, Answer::Short)
            }
            Command::Step => self.with(Token::Resync, Array::step, Answer::Stepped),
            Command::Finish => self.finish(),
            Command::Write(block, fill) => self.with(Token::Ready, |a| a.write(block, [fill; BLOCK]), |()| Answer::Buffered),
            Command::Read(block) => self.with(Token::Ready, |a| a.read(block), bytes),
            Command::ReadShort(block) => self.with(Token::Short, |a| a.read_short(block), bytes),
            Command::Destage => self.with(Token::Ready, Array::destage, Answer::Destaged),
            Command::Flush => self.with(Token::Ready, Array::flush, Answer::Flushed),
            Command::Close => self.spend(Token::Ready, Array::close, |()| Answer::Closed),
            Command::GiveUp => self.give_up(),
            Command::Show => self.show(),
        }
    }
}

/// The answer lines of a scenario.
pub fn answers(text: &[u8]) -> Vec<String> {
    let mut settings = Settings::default();
    let mut player: Option<Player> = None;
    let mut told = Vec::new();
    for (index, bytes) in lines(text).enumerate() {
        match line(bytes) {
            Some(Line::Nothing) => {}
            Some(Line::Setting(setting)) if player.is_none() && settings.take(setting) => {}
            Some(Line::Command(command)) => {
                let player = player.get_or_insert_with(|| Player::new(&settings));
                told.push(player.answer(command).to_string());
            }
            _ => {
                told.push(format!("bad {}", index + 1));
                return told;
            }
        }
    }
    told
}
