//! Why a call says no, with number, layer and what it tells.
use logs::device::PowerLost;
use logs::log::Refusal as LogRefusal;
use std::fmt;

#[derive(Clone, Copy, Debug, PartialEq, Eq)]
pub enum Layer {
    Members,
    LogStore,
    Log,
    Array,
}

#[derive(Clone, Copy, Debug, PartialEq, Eq)]
pub enum Refusal {
    /// Power was off in a layer or went in it, at a place or in a barrier.
    Power(Layer, Option<(usize, usize)>),
    /// Members and blocks are outside the limits of a layer.
    Limits(Layer, usize, usize),
    /// The state, by its word, does not allow the call.
    State(&'static str),
    NoRecord(Layer),
    NoSlot(usize),
    StripeLeft(usize),
    NoBlock(usize),
    StripeNamed(usize),
    NoMember(usize),
    Spent(Layer),
    WrongList(usize),
    DoesNotFit(usize),
}

impl Refusal {
    pub fn number(&self) -> u32 {
        match self {
            Refusal::Power(..) => 1,
            Refusal::Limits(..) => 2,
            Refusal::State(_) => 3,
            Refusal::NoRecord(_) => 4,
            Refusal::NoSlot(_) => 5,
            Refusal::StripeLeft(_) => 6,
            Refusal::NoBlock(_) => 7,
            Refusal::StripeNamed(_) => 9,
            Refusal::NoMember(_) => 10,
            Refusal::Spent(_) => 11,
            Refusal::WrongList(_) => 12,
            Refusal::DoesNotFit(_) => 13,
        }
    }

    pub fn layer(&self) -> Layer {
        match self {
            Refusal::Power(layer, _) | Refusal::Limits(layer, ..) | Refusal::NoRecord(layer) | Refusal::Spent(layer) => *layer,
            Refusal::WrongList(_) | Refusal::DoesNotFit(_) => Layer::Log,
            _ => Layer::Array,
        }
    }

    /// What the refusal tells beyond number and layer, with a space before it.
    fn detail(&self) -> String {
        match self {
            Refusal::Power(_, Some((member, block))) => format!(" {member} {block}"),
            Refusal::Power(_, None) | Refusal::NoRecord(_) | Refusal::Spent(_) => String::new(),
            Refusal::Limits(_, members, blocks) => format!(" {members} {blocks}"),
            Refusal::State(word) => format!(" {word}"),
            Refusal::NoSlot(number)
            | Refusal::StripeLeft(number)
            | Refusal::NoBlock(number)
            | Refusal::StripeNamed(number)
            | Refusal::NoMember(number)
            | Refusal::WrongList(number)
            | Refusal::DoesNotFit(number) => format!(" {number}"),
        }
    }
}

impl fmt::Display for Refusal {
    fn fmt(&self, f: &mut fmt::Formatter) -> fmt::Result {
        let layer = match self.layer() {
            Layer::Members => "members",
            Layer::LogStore => "log-store",
            Layer::Log => "log",
            Layer::Array => "array",
        };
        write!(f, "refused {} {layer}{}", self.number(), self.detail())
    }
}

/// Of the members.
impl From<PowerLost> for Refusal {
    fn from(PowerLost(place): PowerLost) -> Refusal {
        Refusal::Power(Layer::Members, place)
    }
}

impl From<LogRefusal> for Refusal {
    fn from(refusal: LogRefusal) -> Refusal {
        match refusal {
            LogRefusal::LogStore(PowerLost(place)) => Refusal::Power(Layer::LogStore, place),
            LogRefusal::Off => Refusal::Power(Layer::Log, None),
            LogRefusal::OneBlock(members, blocks) => Refusal::Limits(Layer::Log, members, blocks),
            LogRefusal::NoRecord => Refusal::NoRecord(Layer::Log),
            LogRefusal::WrongList(length) => Refusal::WrongList(length),
            LogRefusal::Spent => Refusal::Spent(Layer::Log),
            LogRefusal::DoesNotFit(length) => Refusal::DoesNotFit(length),
        }
    }
}
