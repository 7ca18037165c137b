//! The text of a scenario: settings and commands, one a line.
use crate::layout::Layout;
use logs::log::Kind;
use std::fmt;

/// Most blocks of a store, all members together.
const MOST_BLOCKS: usize = 65_536;

#[derive(Clone, Copy, Debug, PartialEq, Eq)]
pub enum Side {
    Members,
    Log,
}

#[derive(Clone, Copy, Debug, PartialEq, Eq)]
pub enum Setting {
    Members(usize, usize),
    Layout(Layout),
    Log(Kind, usize, usize),
    Buffer(Side),
}

#[derive(Clone, Copy, Debug, PartialEq, Eq)]
pub enum Command {
    Cut(Side, usize),
    PowerOn,
    Format,
    Open,
    Step,
    Finish,
    Write(usize, u8),
    Read(usize),
    ReadShort(usize),
    Destage,
    Flush,
    Close,
    OpenShort(usize),
    GiveUp,
    Show,
}

#[derive(Clone, Copy, Debug, PartialEq, Eq)]
pub enum Line {
    Nothing,
    Setting(Setting),
    Command(Command),
}

/// What the settings of a scenario say; none where a setting is not given.
#[derive(Clone, Copy, Debug, Default, PartialEq, Eq)]
pub struct Settings {
    pub members: Option<(usize, usize)>,
    pub layout: Option<Layout>,
    pub log: Option<(Kind, usize, usize)>,
    pub buffer_members: bool,
    pub buffer_log: bool,
}

impl Settings {
    /// Takes a setting; answers false where it has been given before.
    pub fn take(&mut self, setting: Setting) -> bool {
        match setting {
            Setting::Members(members, blocks) => self.members.replace((members, blocks)).is_none(),
            Setting::Layout(layout) => self.layout.replace(layout).is_none(),
            Setting::Log(kind, members, blocks) => self.log.replace((kind, members, blocks)).is_none(),
            Setting::Buffer(Side::Members) => !std::mem::replace(&mut self.buffer_members, true),
            Setting::Buffer(Side::Log) => !std::mem::replace(&mut self.buffer_log, true),
        }
    }
}

impl fmt::Display for Side {
    fn fmt(&self, f: &mut fmt::Formatter) -> fmt::Result {
        f.write_str(match self {
            Side::Members => "members",
            Side::Log => "log",
        })
    }
}

impl fmt::Display for Setting {
    fn fmt(&self, f: &mut fmt::Formatter) -> fmt::Result {
        match self {
            Setting::Members(members, blocks) => write!(f, "members {members} {blocks}"),
            Setting::Layout(layout) => write!(f, "layout {}", layout.qualifier()),
            Setting::Log(Kind::Ring, members, blocks) => write!(f, "log ring {members} {blocks}"),
            Setting::Log(Kind::Flag, members, blocks) => write!(f, "log flag {members} {blocks}"),
            Setting::Buffer(side) => write!(f, "buffer {side}"),
        }
    }
}

impl fmt::Display for Command {
    fn fmt(&self, f: &mut fmt::Formatter) -> fmt::Result {
        match self {
            Command::Cut(side, left) => write!(f, "cut {side} {left}"),
            Command::PowerOn => write!(f, "power-on"),
            Command::Format => write!(f, "format"),
            Command::Open => write!(f, "open"),
            Command::Step => write!(f, "step"),
            Command::Finish => write!(f, "finish"),
            Command::Write(block, fill) => write!(f, "write {block} {fill}"),
            Command::Read(block) => write!(f, "read {block}"),
            Command::ReadShort(block) => write!(f, "read-short {block}"),
            Command::Destage => write!(f, "destage"),
            Command::Flush => write!(f, "flush"),
            Command::Close => write!(f, "close"),
            Command::OpenShort(member) => write!(f, "open-short {member}"),
            Command::GiveUp => write!(f, "give-up"),
            Command::Show => write!(f, "show"),
        }
    }
}

/// A number in shortest decimal form.
fn number(word: &str) -> Option<usize> {
    let is_digits = !word.is_empty() && word.bytes().all(|byte| byte.is_ascii_digit());
    let is_shortest = word == "0" || !word.starts_with('0');
    if is_digits && is_shortest {
        word.parse().ok()
    } else {
        None
    }
}

fn counts(members: &str, blocks: &str) -> Option<(usize, usize)> {
    let (members, blocks) = (number(members)?, number(blocks)?);
    let product = members.checked_mul(blocks)?;
    (1..=MOST_BLOCKS).contains(&product).then_some((members, blocks))
}

fn side(word: &str) -> Option<Side> {
    match word {
        "members" => Some(Side::Members),
        "log" => Some(Side::Log),
        _ => None,
    }
}

fn setting(words: &[&str]) -> Option<Setting> {
    match *words {
        ["members", members, blocks] => counts(members, blocks).map(|(m, n)| Setting::Members(m, n)),
        ["layout", qualifier] => Layout::of_qualifier(number(qualifier)?).map(Setting::Layout),
        ["log", "ring", members, blocks] => counts(members, blocks).map(|(m, n)| Setting::Log(Kind::Ring, m, n)),
        ["log", "flag", members, blocks] => counts(members, blocks).map(|(m, n)| Setting::Log(Kind::Flag, m, n)),
        ["buffer", word] => side(word).map(Setting::Buffer),
        _ => None,
    }
}

fn command(words: &[&str]) -> Option<Command> {
    Some(match *words {
        ["cut", word, left] => Command::Cut(side(word)?, number(left)?),
        ["power-on"] => Command::PowerOn,
        ["format"] => Command::Format,
        ["open"] => Command::Open,
        ["step"] => Command::Step,
        ["finish"] => Command::Finish,
        ["write", block, fill] => Command::Write(number(block)?, u8::try_from(number(fill)?).ok()?),
        ["read", block] => Command::Read(number(block)?),
        ["read-short", block] => Command::ReadShort(number(block)?),
        ["destage"] => Command::Destage,
        ["flush"] => Command::Flush,
        ["close"] => Command::Close,
        ["open-short", member] => Command::OpenShort(number(member)?),
        ["give-up"] => Command::GiveUp,
        ["show"] => Command::Show,
        _ => return None,
    })
}

/// The line without its comment and the spaces before that.
fn without_comment(line: &str) -> &str {
    match line.split_once('#') {
        Some((before, _)) => before.trim_end_matches(' '),
        None => line,
    }
}

/// Reads one line; none where it has no form of a scenario.
pub fn line(bytes: &[u8]) -> Option<Line> {
    let text = without_comment(std::str::from_utf8(bytes).ok()?);
    if text.is_empty() {
        return Some(Line::Nothing);
    }
    let words: Vec<&str> = text.split(' ').collect();
    setting(&words).map(Line::Setting).or_else(|| command(&words).map(Line::Command))
}

/// The lines of a text; the last one may lack its end.
pub fn lines(text: &[u8]) -> impl Iterator<Item = &[u8]> {
    text.split_inclusive(|byte| *byte == b'\n').map(|line| line.strip_suffix(b"\n").unwrap_or(line))
}

#[cfg(test)]
mod tests {
    use super::*;

    #[test]
    fn forms() {
        assert_eq!(line(b"write 5 255"), Some(Line::Command(Command::Write(5, 255))));
        assert_eq!(line(b"write 5 7  # seven"), Some(Line::Command(Command::Write(5, 7))));
        assert_eq!(line(b"show#"), Some(Line::Command(Command::Show)));
        assert_eq!(line(b"  # nothing"), Some(Line::Nothing));
        assert_eq!(line(b""), Some(Line::Nothing));
        assert_eq!(line(b"read 18446744073709551615"), Some(Line::Command(Command::Read(usize::MAX))));
        assert_eq!(line(b"members 256 256"), Some(Line::Setting(Setting::Members(256, 256))));
    }

    #[test]
    fn other_forms() {
        let others: [&[u8]; 22] = [
            b" ", b"show ", b" show", b"show\r", b"Show", b"write 5", b"write 5 256", b"write  5 1", b"write 05 1", b"read +5",
            b"read 18446744073709551616", b"read", b"read ", b"layout 1", b"layout 4", b"members 0 4", b"members 257 256",
            b"members 4294967296 4294967296", b"log tape 1 8", b"buffer", b"cut array 3", b"show # \xFF",
        ];
        for other in others {
            assert_eq!(line(other), None, "{other:?}");
        }
    }

    #[test]
    fn a_setting_is_taken_once() {
        let mut settings = Settings::default();
        assert!(settings.take(Setting::Buffer(Side::Members)));
        assert!(settings.take(Setting::Buffer(Side::Log)));
        assert!(!settings.take(Setting::Buffer(Side::Members)));
    }

    #[test]
    fn a_line_is_counted_once() {
        assert_eq!(lines(b"").count(), 0);
        assert_eq!(lines(b"show\n").count(), 1);
        assert_eq!(lines(b"show\n\nopen").collect::<Vec<_>>(), [&b"show"[..], b"", b"open"]);
    }
}
