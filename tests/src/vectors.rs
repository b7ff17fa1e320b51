//! The reader of the conformance vectors in `data/`: what the calls answer, case
//! by case. All files have one format.
//!
//! A line that begins with `#` is a comment, and the last of them names the
//! columns; every other line is a case. A comma parts the columns, a space the
//! entries of a list, and `-` is an empty list or byte string; bytes have two
//! hexadecimal digits each. A file that has settings has all of them, of which those
//! that a later request brought have the value that changes nothing.

use crate::{
    Account, Block, Grant, Handset, Heard, Release, Sent, SentWindow, Settings, Slot, Step,
};
use std::fmt;
use std::str::FromStr;

/// The columns of the settings, in this order and side by side.
const SETTINGS: [&str; 9] =
    ["configuration", "N_RB", "N1", "mode", "blocks", "scheduled", "prefix", "special", "ports"];

/// One case: a line, under the names of its columns.
#[derive(Clone, Debug)]
pub struct Case<'a> {
    file: &'a str,
    line: usize,
    columns: Vec<(&'a str, &'a str)>,
}

/// All cases of a file.
pub fn cases<'a>(file: &'a str, text: &'a str) -> Vec<Case<'a>> {
    let is_comment = |line: &&str| line.starts_with('#');
    let last_comment = text.lines().rfind(is_comment).expect("a comment names the columns");
    let names: Vec<&str> = last_comment[1..].split(',').collect();
    let numbered = (1..).zip(text.lines()).filter(|(_, line)| !is_comment(line));
    numbered.map(|(number, line)| Case::new(file, number, &names, line)).collect()
}

impl<'a> Case<'a> {
    fn new(file: &'a str, line: usize, names: &[&'a str], text: &'a str) -> Self {
        let fields: Vec<&str> = text.split(',').collect();
        assert_eq!(fields.len(), names.len(), "{file}, line {line}: as many columns as names");
        let columns = names.iter().copied().zip(fields).collect();
        Self { file, line, columns }
    }

    /// What stands in the one column of a name; those of the settings are apart.
    pub fn text(&self, name: &str) -> &'a str {
        let named: Vec<&str> =
            self.others().filter(|(each, _)| *each == name).map(|(_, text)| text).collect();
        let [text] = named[..] else {
            panic!("{}, line {}: {} columns {name}", self.file, self.line, named.len())
        };
        text
    }

    /// Whether there is a column of a name.
    pub fn has(&self, name: &str) -> bool {
        self.others().any(|(each, _)| each == name)
    }

    pub fn number(&self, name: &str) -> u16 {
        self.parse(self.text(name))
    }

    /// A number that may be wider.
    pub fn wide<T: FromStr>(&self, name: &str) -> T {
        self.parse(self.text(name))
    }

    /// The entries of a list.
    pub fn numbers(&self, name: &str) -> Vec<u16> {
        self.wide_numbers(name)
    }

    /// The entries of a list, which may be wider.
    pub fn wide_numbers<T: FromStr>(&self, name: &str) -> Vec<T> {
        match self.text(name) {
            "-" => Vec::new(),
            list => list.split(' ').map(|entry| self.parse(entry)).collect(),
        }
    }

    /// A byte string.
    pub fn bytes(&self, name: &str) -> Vec<u8> {
        let digits = match self.text(name) {
            "-" => "",
            digits => digits,
        };
        let byte = |at: usize| u8::from_str_radix(&digits[at..at + 2], 16);
        let bytes: Result<Vec<u8>, _> = (0..digits.len()).step_by(2).map(byte).collect();
        bytes.unwrap_or_else(|_| panic!("{}, line {}: {digits}", self.file, self.line))
    }

    pub fn settings(&self) -> Settings {
        let start = self.start_of_settings().expect("a file with settings");
        let columns = &self.columns[start..][..SETTINGS.len()];
        let number = |name: &str| {
            let column = columns.iter().find(|(each, _)| *each == name);
            self.parse(column.expect("all settings stand in the file").1)
        };
        let [config, nrb, n1, mode, blocks, scheduled, prefix, special, ports] =
            SETTINGS.map(number);
        Settings { config, nrb, n1, mode, blocks, scheduled, prefix, special, ports }
    }

    /// What was sent in a window, with nothing behind it.
    pub fn sent(&self) -> SentWindow {
        let sent: Vec<Sent> = self.numbers("sent").chunks(8).map(sent).collect();
        SentWindow::of(&sent)
    }

    /// An account of the price of the line, with the numbers of these columns.
    pub fn account(&self, names: [&str; 3]) -> Account {
        let [octets, charged] = [names[0], names[1]].map(|name| self.wide(name));
        Account { octets, charged, price: self.wide("price"), carry: self.wide(names[2]) }
    }

    /// The lent handset: its settings, the subframe expected, and seven numbers for
    /// each subframe in which something was heard, first how long ago that was. Or
    /// nothing, where this layout cannot hold it. In a file without the modes at the
    /// feeds each of them is that of the settings.
    pub fn handset(&self) -> Option<Handset> {
        let mut handset = Handset::fresh(self.settings());
        handset.next = self.number("expects");
        if self.has("modes") {
            handset.modes = modes(&self.numbers("modes"))?;
        }
        for entry in self.numbers("remembered").chunks(7) {
            let (age, heard) = (usize::from(entry[0]), &entry[1..]);
            handset.past[age - 1] = slot(heard)?;
        }
        Some(handset)
    }

    fn parse<T: FromStr>(&self, text: &str) -> T {
        text.parse().unwrap_or_else(|_| panic!("{}, line {}: {text}", self.file, self.line))
    }

    fn start_of_settings(&self) -> Option<usize> {
        self.columns.iter().position(|(name, _)| *name == SETTINGS[0])
    }

    /// The columns beside the settings.
    fn others(&self) -> impl Iterator<Item = (&'a str, &'a str)> + '_ {
        let settings = self.start_of_settings().map_or(0..0, |at| at..at + SETTINGS.len());
        let numbered = self.columns.iter().enumerate();
        numbered.filter(move |(at, _)| !settings.contains(at)).map(|(_, column)| *column)
    }
}

/// File, line and all that stands in it.
impl fmt::Display for Case<'_> {
    fn fmt(&self, f: &mut fmt::Formatter) -> fmt::Result {
        write!(f, "{}, line {}:", self.file, self.line)?;
        self.columns.iter().try_for_each(|(name, text)| write!(f, " {name} {text};"))
    }
}

/// A heard thing from its six numbers: kind, blocks carried, first and second block
/// decoded, first CCE, DAI.
pub fn heard(numbers: &[u16]) -> Heard {
    let [kind, blocks, first, second, cce, dai] = *numbers else {
        panic!("six numbers: {numbers:?}")
    };
    match kind {
        0 => Heard::Nothing,
        1 => Heard::Grant(Grant { blocks, first, second, cce, dai }),
        2 => Heard::Block(Block { blocks, first, second }),
        3 => Heard::Release(Release { cce, dai }),
        _ => panic!("a kind of heard thing: {kind}"),
    }
}

/// What was sent at a position from its eight numbers: kind (0 nothing, 1 grant, 2 scheduled
/// block, 3 release), blocks carried, first CCE, DAI, I_TBS and N_PRB of the first block, I_TBS
/// and N_PRB of the second.
fn sent(numbers: &[u16]) -> Sent {
    let [kind, blocks, cce, dai, itbs0, nprb0, itbs1, nprb1] = *numbers else {
        panic!("eight numbers: {numbers:?}")
    };
    let carries = kind == 1 || kind == 2;
    assert!(kind < 4 && carries == (blocks > 0), "a kind of sent thing: {numbers:?}");
    let signalled = u16::from(kind == 1 || kind == 3);
    Sent { signalled, blocks, cce, dai, itbs0, nprb0, itbs1, nprb1 }
}

/// A step from its seven numbers: 0 for a feed, then what it brings, or 1 for a mode
/// change, then the new mode and five 0.
pub fn step(numbers: &[u16]) -> Step {
    match *numbers {
        [0, ref brought @ ..] => Step::Feed(heard(brought)),
        [1, mode, 0, 0, 0, 0, 0] => Step::Change(mode),
        _ => panic!("a step: {numbers:?}"),
    }
}

/// The number that remembers the modes at 13 feeds, newest first, or nothing, where it
/// cannot: each has one bit.
fn modes(numbers: &[u16]) -> Option<u16> {
    assert_eq!(numbers.len(), 13, "thirteen modes: {numbers:?}");
    let bits = (0..).zip(numbers).map(|(bit, mode)| (*mode < 2).then_some(mode << bit));
    bits.sum()
}

/// The slot that remembers a heard thing, or nothing, where it cannot: a number
/// does not fit in its byte, or blocks carried, which are one bit, are neither 1
/// nor 2.
fn slot(numbers: &[u16]) -> Option<Slot> {
    let [kind, blocks, first, second, cce, dai] = *numbers else {
        panic!("six numbers: {numbers:?}")
    };
    let carries = kind == u16::from(Slot::GRANT) || kind == u16::from(Slot::BLOCK);
    let two = match blocks {
        1 if carries => 0,
        2 if carries => 4,
        _ if carries => return None,
        _ => 0,
    };
    let [kind, first, second, cce, dai] = [kind, first, second, cce, dai].map(u8::try_from);
    let (first, second) = (first.ok()?, second.ok()?);
    let results = if first < 2 && second < 2 { first + 2 * second + two } else { return None };
    Some(Slot { kind: kind.ok()?, cce: cce.ok()?, dai: dai.ok()?, results })
}
