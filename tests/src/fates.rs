//! What becomes of the positions of a window: what is sent there, and whether it is lost,
//! heard and decoded. A handset answers through the C calls, and the station reads the reply.

use crate::model::{blocks_at, edge, told, Blocks, Transmission, Window};
use crate::{
    feed, make, reading, resource, Block, Exchange, Fed, Grant, Handset, Heard, ReadingAnswer,
    Release, Sent, SentWindow, Settings, Sizes,
};
use std::cmp::Reverse;

/// What becomes of a position. Lost and heard speak of a grant.
#[derive(Clone, Copy, Debug)]
pub enum Fate {
    Nothing,
    Lost { blocks: u16 },
    Heard { blocks: u16, first: bool, second: bool },
    LostRelease,
    HeardRelease,
    LostBlock { blocks: u16 },
    HeardBlock { blocks: u16, first: bool, second: bool },
}

impl Fate {
    /// What was sent, a PDCCH with this first CCE.
    pub fn sent(self, cce: u16) -> Option<Transmission> {
        match self {
            Self::Nothing => None,
            Self::Lost { blocks } | Self::Heard { blocks, .. } => {
                Some(Transmission::Grant { blocks, cce })
            }
            Self::LostRelease | Self::HeardRelease => Some(Transmission::Release { cce }),
            Self::LostBlock { blocks } | Self::HeardBlock { blocks, .. } => {
                Some(Transmission::Block { blocks })
            }
        }
    }

    /// What was heard, a PDCCH with this first CCE and DAI. The second result of a
    /// sole block says nothing, and is here the contrary of the first.
    fn heard(self, cce: u16, dai: u16) -> Heard {
        let numbers = |blocks: u16, first: bool, second: bool| {
            let second = if blocks == 1 { !first } else { second };
            (u16::from(first), u16::from(second))
        };
        match self {
            Self::Heard { blocks, first, second } => {
                let (first, second) = numbers(blocks, first, second);
                Heard::Grant(Grant { blocks, first, second, cce, dai })
            }
            Self::HeardBlock { blocks, first, second } => {
                let (first, second) = numbers(blocks, first, second);
                Heard::Block(Block { blocks, first, second })
            }
            Self::HeardRelease => Heard::Release(Release { cce, dai }),
            _ => Heard::Nothing,
        }
    }

    /// Whether a grant or a release was sent.
    pub fn is_pdcch(self) -> bool {
        !matches!(self, Self::Nothing | Self::LostBlock { .. } | Self::HeardBlock { .. })
    }

    pub fn is_lost(self) -> bool {
        matches!(self, Self::Lost { .. } | Self::LostRelease | Self::LostBlock { .. })
    }

    /// Which blocks were decoded.
    fn decoded(self) -> (bool, bool) {
        match self {
            Self::Heard { first, second, .. } | Self::HeardBlock { first, second, .. } => {
                (first, second)
            }
            _ => (false, false),
        }
    }
}

pub const LOST: Fate = Fate::Lost { blocks: 1 };
pub const DECODED: Fate = Fate::Heard { blocks: 1, first: true, second: false };
pub const FAILED: Fate = Fate::Heard { blocks: 1, first: false, second: false };

pub const LOST_TWO: Fate = Fate::Lost { blocks: 2 };

pub const fn heard_two(first: bool, second: bool) -> Fate {
    Fate::Heard { blocks: 2, first, second }
}

/// The fates of a position in a cell of one block, and in one of two.
pub const FATES_OF_ONE: [Fate; 4] = [Fate::Nothing, LOST, DECODED, FAILED];
pub const FATES_OF_TWO: [Fate; 9] = [
    Fate::Nothing,
    LOST,
    DECODED,
    FAILED,
    LOST_TWO,
    heard_two(true, true),
    heard_two(true, false),
    heard_two(false, true),
    heard_two(false, false),
];

pub fn fates(settings: Settings) -> &'static [Fate] {
    match settings.blocks {
        1 => &FATES_OF_ONE,
        _ => &FATES_OF_TWO,
    }
}

/// The fates of releases, and those of a scheduled block, in a cell of one block and
/// in one of two.
pub const RELEASES: [Fate; 2] = [Fate::LostRelease, Fate::HeardRelease];
pub const BLOCKS_OF_ONE: [Fate; 3] =
    [Fate::LostBlock { blocks: 1 }, block(1, true, false), block(1, false, false)];
pub const BLOCKS_OF_TWO: [Fate; 8] = [
    Fate::LostBlock { blocks: 1 },
    block(1, true, false),
    block(1, false, false),
    Fate::LostBlock { blocks: 2 },
    block(2, true, true),
    block(2, true, false),
    block(2, false, true),
    block(2, false, false),
];

const fn block(blocks: u16, first: bool, second: bool) -> Fate {
    Fate::HeardBlock { blocks, first, second }
}

/// The fates of a position with grants and releases.
pub fn fates_with_releases(settings: Settings) -> Vec<Fate> {
    [fates(settings), &RELEASES].concat()
}

/// Every pattern of these fates over as many positions in which one position has a
/// scheduled block, of one of these fates.
pub fn every_pattern_with_a_block(
    fates: &[Fate],
    blocks: &[Fate],
    size: u16,
    mut each: impl FnMut(&[Fate]),
) {
    every_pattern(fates, size - 1, |others| {
        for place in 0..usize::from(size) {
            for block in blocks {
                let mut pattern = others.to_vec();
                pattern.insert(place, *block);
                each(&pattern);
            }
        }
    });
}

/// Every pattern of these fates over as many positions.
pub fn every_pattern(fates: &[Fate], size: u16, mut each: impl FnMut(&[Fate])) {
    let mut pattern = vec![fates[0]; size.into()];
    for number in 0..fates.len().pow(size.into()) {
        let mut rest = number;
        for fate in &mut pattern {
            *fate = fates[rest % fates.len()];
            rest /= fates.len();
        }
        each(&pattern);
    }
}

/// Sizes that no block has.
const NO_SIZES: Sizes = [(65535, 0), (27, 111)];

/// One window of a cell, and the handset as it is before the window. What is sent there has
/// these sizes, by position; at first none that a block could have.
pub struct Cell<'a> {
    pub settings: Settings,
    pub window: &'a Window,
    pub sizes: [Sizes; 9],
    in_time: Vec<usize>,
    handset: Handset,
}

/// What a pattern leads to: what the station knows, and what it does not know. What it knows
/// has no resource and no bits where there is no reply, and so no reading.
#[derive(Debug)]
pub struct Outcome {
    pub sent: Vec<Option<Transmission>>,
    pub exchange: Exchange,
    pub fed: Fed,
    pub read: Option<ReadingAnswer>,
    pub decoded: Blocks,
}

impl<'a> Cell<'a> {
    /// The window lies whole after the start: its reply goes out in the third frame.
    pub fn new(settings: Settings, window: &'a Window) -> Self {
        let made = make(settings);
        assert_eq!(made.refusal, 0, "{settings:?}");
        let mut in_time: Vec<usize> = (0..window.k.len()).collect();
        in_time.sort_by_key(|m| Reverse(window.k[*m]));
        let mut handset = made.handset;
        for _ in 0..20 + window.n - window.k[in_time[0]] {
            handset = feed(handset, None).handset;
        }
        Self { settings, window, sizes: [NO_SIZES; 9], in_time, handset }
    }

    /// The same with other sizes.
    pub fn with_sizes(self, sizes: [Sizes; 9]) -> Self {
        Self { sizes, ..self }
    }

    /// Some first CCE for each position.
    pub fn cce(&self, position: usize) -> u16 {
        (17 * position as u16 + 2) % edge(self.settings.nrb, 4)
    }

    /// The DAIs by position: the j-th PDCCH in time that the pattern sends has
    /// ((j − 1) mod 4) + 1.
    fn dais(&self, pattern: &[Fate]) -> [u16; 9] {
        let (mut dais, mut j) = ([0; 9], 0);
        for m in self.in_time.iter().copied() {
            dais[m] = j % 4 + 1;
            j += u16::from(pattern[m].is_pdcch());
        }
        dais
    }

    /// Sends what the pattern says, the PDCCHs with their DAIs, and feeds what is heard: shows
    /// the handset that answers the window next.
    pub fn hear(&self, pattern: &[Fate]) -> Handset {
        let Self { settings, window, .. } = *self;
        let mut heard = [Heard::Nothing; 14];
        for (m, dai) in self.dais(pattern).into_iter().enumerate().take(pattern.len()) {
            heard[usize::from(window.k[m])] = pattern[m].heard(self.cce(m), dai);
        }
        let mut handset = self.handset;
        let first_k = usize::from(window.k[self.in_time[0]]);
        for k in (1..=first_k).rev() {
            let fed = feed(handset, heard[k]);
            assert_eq!(fed.refusal, 0, "{settings:?}, {window:?}, {pattern:?}, k {k}");
            handset = fed.handset;
        }
        handset
    }

    /// How many of the PDCCHs before the last heard one are lost; none where none is heard.
    pub fn lost_before_the_last(&self, pattern: &[Fate]) -> usize {
        let in_time = || self.in_time.iter().map(|m| pattern[*m]).filter(|fate| fate.is_pdcch());
        let up_to = in_time().enumerate().filter(|(_, fate)| !fate.is_lost()).last();
        let places = up_to.map_or(0, |(place, _)| place);
        in_time().take(places).filter(|fate| fate.is_lost()).count()
    }

    /// Sends what the pattern says, feeds what is heard, and reads what is replied.
    pub fn run(&self, pattern: &[Fate]) -> Outcome {
        let Self { settings, window, .. } = *self;
        let sent: Vec<Option<Transmission>> =
            pattern.iter().enumerate().map(|(m, fate)| fate.sent(self.cce(m))).collect();
        let mut entries = SentWindow::NOTHING;
        let mut decoded = 0;
        for (m, dai) in self.dais(pattern).into_iter().enumerate().take(pattern.len()) {
            entries.at[m] = entry(sent[m], dai, self.sizes[m]);
            let (first, second) = pattern[m].decoded();
            decoded |= blocks_at(m, first, second);
        }
        let fed = feed(self.hear(pattern), None);
        let is_reply = [Fed::BUNDLED, Fed::MULTIPLEXED].contains(&fed.kind);
        assert!(is_reply || fed.kind == Fed::SILENT, "{settings:?}, {window:?}: {fed:?}");
        let (Fed { resource, b0, b1, .. }, told) = (fed, told(&sent));
        let read = is_reply.then(|| reading(settings, window.n, told, resource, b0, b1));
        let exchange = Exchange { settings, n: window.n, sent: entries, resource, b0, b1 };
        Outcome { sent, exchange, fed, read, decoded }
    }

    /// How the station reads every resource of some other first CCE than was sent
    /// at its position, with any bits that are not refused.
    pub fn readings_of_others(&self, exchange: &Exchange) -> Vec<(Exchange, ReadingAnswer)> {
        let Self { settings, window, .. } = *self;
        let cces = edge(settings.nrb, 4);
        let mut all = Vec::new();
        for (m, there) in exchange.sent.at.iter().enumerate().take(window.k.len()) {
            let own = self.cce(m);
            for cce in [0, own, (own + 1) % cces, cces - 1] {
                if Transmission::of(*there).is_some_and(|sent| sent.cce() == Some(cce)) {
                    continue;
                }
                let there = resource(settings, window.n, m as u16, cce);
                assert_eq!(there.refusal, 0, "{settings:?}, {window:?}, {m}, {cce}");
                let heard = Exchange { resource: there.resource, ..*exchange };
                for (heard, read) in readings_on(heard, told_in(exchange)) {
                    assert_eq!((read.position, read.cce), (m as u16, cce));
                    all.push((heard, read));
                }
            }
        }
        all
    }

    /// How the station reads the scheduled resource, with any bits that are not
    /// refused, told of each position at which no scheduled block was sent.
    pub fn readings_of_no_block(&self, exchange: &Exchange) -> Vec<ReadingAnswer> {
        let others = (0..self.window.size()).filter(|position| *position != told_in(exchange));
        let heard = Exchange { resource: self.settings.scheduled, ..*exchange };
        others.flat_map(|told| readings_on(heard, told)).map(|(_, read)| read).collect()
    }
}

/// The position of the scheduled block that is sent.
fn told_in(exchange: &Exchange) -> u16 {
    let sent: Vec<_> = exchange.sent.at.iter().map(|entry| Transmission::of(*entry)).collect();
    told(&sent)
}

/// The readings of every two bits on the resource that is heard, if they are not refused.
fn readings_on(heard: Exchange, told: u16) -> impl Iterator<Item = (Exchange, ReadingAnswer)> {
    let bits = [(0, 0), (0, 1), (1, 0), (1, 1)].into_iter();
    let heard = bits.map(move |(b0, b1)| Exchange { b0, b1, ..heard });
    let read = move |heard: Exchange| {
        let Exchange { settings, n, resource, b0, b1, .. } = heard;
        (heard, reading(settings, n, told, resource, b0, b1))
    };
    heard.map(read).filter(|(_, read)| read.refusal == 0)
}

/// The entry of what was sent, a PDCCH with this DAI.
fn entry(sent: Option<Transmission>, dai: u16, sizes: Sizes) -> Sent {
    match sent {
        None => Sent::NOTHING,
        Some(Transmission::Grant { blocks, cce }) => Sent::grant(blocks, cce, dai, sizes),
        Some(Transmission::Release { cce }) => Sent::release(cce, dai),
        Some(Transmission::Block { blocks }) => Sent::block(blocks, sizes),
    }
}
