//! What a station takes as confirmed. It knows what it sent in a window and how it reads the
//! reply, and nothing of what was heard.

use super::Window;
use crate::{Fed, ReadingAnswer, Sent, NOT_TOLD};

/// A set of blocks: bit 2 × m for the first block at position m, or the only
/// one, and the next bit for the second.
pub type Blocks = u32;

pub fn blocks_at(position: usize, first: bool, second: bool) -> Blocks {
    (Blocks::from(first) | Blocks::from(second) << 1) << (2 * position)
}

/// The positions of the first blocks of a set, and those of the second ones, bit p for
/// position p.
pub fn positions_of(blocks: Blocks) -> (u16, u16) {
    let of = |bit: u32| -> u16 {
        let has = |position: &u32| blocks >> (2 * position + bit) & 1 == 1;
        (0..16).filter(has).map(|position| 1 << position).sum()
    };
    (of(0), of(1))
}

/// What was sent at a position, as far as it says what is confirmed.
#[derive(Clone, Copy, Debug, PartialEq, Eq, Hash)]
pub enum Transmission {
    Grant { blocks: u16, cce: u16 },
    Release { cce: u16 },
    Block { blocks: u16 },
}

impl Transmission {
    /// What an entry of a sent window says, unless it says nothing.
    pub fn of(sent: Sent) -> Option<Self> {
        let Sent { signalled, blocks, cce, .. } = sent;
        match (signalled, blocks) {
            (0, 0) => None,
            (0, _) => Some(Self::Block { blocks }),
            (_, 0) => Some(Self::Release { cce }),
            (_, _) => Some(Self::Grant { blocks, cce }),
        }
    }

    /// The transport blocks that it carries.
    pub fn blocks(self) -> u16 {
        match self {
            Self::Grant { blocks, .. } | Self::Block { blocks } => blocks,
            Self::Release { .. } => 0,
        }
    }

    /// The first CCE of a PDCCH.
    pub fn cce(self) -> Option<u16> {
        match self {
            Self::Grant { cce, .. } | Self::Release { cce } => Some(cce),
            Self::Block { .. } => None,
        }
    }
}

/// The position of the scheduled block that was sent, which the reading is told.
pub fn told(sent: &[Option<Transmission>]) -> u16 {
    let is_block = |sent: &Option<Transmission>| matches!(sent, Some(Transmission::Block { .. }));
    sent.iter().position(is_block).map_or(NOT_TOLD, |position| position as u16)
}

/// Which bits of a bundled reply speak of a block that is alone where it was sent.
#[derive(Clone, Copy, Debug, PartialEq, Eq)]
pub enum Sole {
    /// An ACK of either, since its result stands for both.
    EitherBit,
    /// That of the first, since a sole block is the first.
    FirstBit,
    /// That of the second, which no rule has.
    SecondBit,
}

/// What a station takes as confirmed, with the points in which a wrong rule differs.
#[derive(Clone, Copy, Debug, PartialEq, Eq)]
pub struct Rule {
    /// So many PDCCHs sent up to and with the named one are all confirmed by an ACK.
    pub most: usize,
    /// "Up to" is by time, that is k falling, and not by position.
    pub by_time: bool,
    /// What the reading names must have been sent there with that first CCE, or be
    /// the scheduled block there.
    pub named_compared: bool,
    /// A release is one of the PDCCHs that are counted.
    pub releases_counted: bool,
    /// The scheduled block is confirmed only where the reading names it.
    pub blocks_apart: bool,
    /// The bits that speak of a sole block.
    pub sole: Sole,
}

/// What is confirmed.
pub const CONFIRMED: Rule = Rule {
    most: 4,
    by_time: true,
    named_compared: true,
    releases_counted: true,
    blocks_apart: true,
    sole: Sole::EitherBit,
};

/// What is credited: of the confirmed blocks those whose own bit is ACK.
pub const CREDITED: Rule = Rule { sole: Sole::FirstBit, ..CONFIRMED };

impl Rule {
    /// Nothing is confirmed where what the reading names was not sent. Multiplexed:
    /// all that was sent at a delivered position. Bundled: a sole block by the bits that speak
    /// of it, and of two the first by the first bit and the second by the second; a release
    /// has none.
    pub fn confirms(
        self,
        window: &Window,
        sent: &[Option<Transmission>],
        read: ReadingAnswer,
    ) -> Blocks {
        let named = usize::from(read.position);
        if read.refusal != 0 || !sent[named].is_some_and(|sent| self.is_named(sent, read)) {
            return 0;
        }
        if read.kind == Fed::MULTIPLEXED {
            let delivered = |m: usize| read.delivered >> m & 1 == 1;
            return together(sent, delivered, |sent| (sent.blocks() > 0, sent.blocks() == 2));
        }
        let (ack0, ack1) = (read.b0 == 1, read.b1 == 1);
        let sole = match self.sole {
            Sole::EitherBit => ack0 || ack1,
            Sole::FirstBit => ack0,
            Sole::SecondBit => ack1,
        };
        let acked = |sent: Transmission| match sent.blocks() {
            0 => (false, false),
            1 => (sole, false),
            _ => (ack0, ack1),
        };
        match read.scheduled {
            1 => together(sent, |m| m == named, acked),
            _ => together(sent, self.spoken_of(window, sent, named), acked),
        }
    }

    /// The positions that a bundled reply for a PDCCH speaks of: if at most four PDCCHs
    /// of the window were sent up to and with the named one, all of these, and if more
    /// were, the named one alone. It does not speak of the scheduled block.
    fn spoken_of<'a>(
        self,
        window: &'a Window,
        sent: &'a [Option<Transmission>],
        named: usize,
    ) -> impl Fn(usize) -> bool + 'a {
        let not_after = move |m: usize| match self.by_time {
            true => window.k[m] >= window.k[named],
            false => m <= named,
        };
        let counted = |m: &usize| sent[*m].is_some_and(|sent| self.is_counted(sent));
        let all = (0..sent.len()).filter(|m| not_after(*m)).filter(counted).count() <= self.most;
        move |m| match sent[m] {
            Some(Transmission::Block { .. }) => !self.blocks_apart,
            _ => m == named || (all && not_after(m)),
        }
    }

    fn is_named(self, sent: Transmission, read: ReadingAnswer) -> bool {
        let is_block = read.scheduled == 1;
        !self.named_compared || sent.cce() == (!is_block).then_some(read.cce)
    }

    fn is_counted(self, sent: Transmission) -> bool {
        match sent {
            Transmission::Grant { .. } => true,
            Transmission::Release { .. } => self.releases_counted,
            Transmission::Block { .. } => false,
        }
    }
}

/// Of the positions chosen, the blocks of what was sent there.
fn together(
    sent: &[Option<Transmission>],
    chosen: impl Fn(usize) -> bool,
    blocks: impl Fn(Transmission) -> (bool, bool),
) -> Blocks {
    let mut all = 0;
    for (m, sent) in sent.iter().enumerate().filter(|(m, _)| chosen(*m)) {
        if let Some((first, second)) = sent.map(&blocks) {
            all |= blocks_at(m, first, second);
        }
    }
    all
}
