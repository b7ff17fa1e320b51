//! The handset's side: making one, feeding it, and changing its mode.
//!
//! What a handset remembers is read as a diary: what was heard, each with its
//! time, a count of subframes of which the last digit is the subframe in the
//! frame, and with the mode that stood then. Windows then have times too, those of
//! their uplink subframes, and two things are in one window if they are answered at
//! the same time. A window is answered in the mode of its first entry.

use super::{
    bundles, edge, first_met, is_short, is_uplink, mode_causes, settings_refusal, Model, Window,
};
use crate::{
    Block, Changed, Fed, Grant, Handset, Heard, Made, Release, ResourceAnswer, Settings, Slot, NONE,
};
use std::cmp::Reverse;

/// When something was heard, what it was, and the mode that stood then. Before the start
/// nothing was heard, and the mode was the one that the handset was made with.
#[derive(Clone, Copy)]
struct Entry {
    time: u16,
    heard: Heard,
    mode: u16,
}

/// What was heard at a position of a window.
pub(super) struct Member {
    pub position: u16,
    pub k: u16,
    pub heard: Heard,
}

/// A reply: its kind, the resource that it is sent on, or the two of them, and its bits.
struct Sent {
    kind: u16,
    on: ResourceAnswer,
    bits: (u16, u16),
}

impl Model {
    pub fn make(&self, settings: Settings) -> Made {
        match settings_refusal(settings) {
            Some(refusal) => Made { refusal, handset: Handset::NONE },
            None => Made { refusal: 0, handset: Handset::fresh(settings) },
        }
    }

    pub fn feed(&self, handset: Handset, brought: impl Into<Heard>) -> Fed {
        let brought = brought.into();
        let Some(diary) = self.diary_of_good(&handset) else {
            return Fed::refused(8, handset);
        };
        let Handset { settings, next, .. } = handset;
        let new = Entry { time: now(&handset), heard: brought, mode: settings.mode };
        if let Some(refusal) = self.refusal(settings, &diary, new) {
            return Fed::refused(refusal, handset);
        }
        let after = remember(&handset, new);
        if !is_uplink(settings.config, next) {
            return Fed::answer(Fed::TAKEN, after);
        }
        match self.window(settings.config, next) {
            None => Fed::answer(Fed::NO_WINDOW, after),
            Some(window) => {
                let settings = Settings { mode: mode_of(window, new.time, &diary), ..settings };
                let members = members(window, new.time, &diary);
                let reply = match bundles(settings, window.size()) {
                    true => self.bundled(settings, window, members),
                    false => self.multiplexed(settings, window, members),
                };
                let silent = Fed::answer(Fed::SILENT, after);
                reply.map_or(silent, |Sent { kind, on, bits }| {
                    Fed::reply(kind, on.resource, bits, after).with_second(on.second)
                })
            }
        }
    }

    /// A new mode is judged by the state's configuration and ports, and only then the state.
    pub fn change_mode(&self, handset: Handset, mode: u16) -> Changed {
        let Settings { config, ports, .. } = handset.settings;
        let [no_mode, no_multiplexing, one_port_only] = mode_causes(config, ports, mode);
        let is_bad = self.diary_of_good(&handset).is_none();
        match first_met([no_mode, no_multiplexing, one_port_only, (8, is_bad)]) {
            Some(refusal) => Changed::refused(refusal, handset),
            None => Changed::to(handset.in_mode(mode)),
        }
    }

    fn bundled(
        &self,
        settings: Settings,
        window: &Window,
        mut members: Vec<Member>,
    ) -> Option<Sent> {
        members.sort_by_key(|member| Reverse(member.k));
        let pdcchs: Vec<&Member> =
            members.iter().filter(|member| pdcch(member.heard).is_some()).collect();
        let named = match pdcchs.last() {
            None => members.first()?, // a scheduled block, with no DAI that could show a miss
            Some(last) => last,
        };
        let dai = pdcch(named.heard).map(|(_, dai)| dai);
        if settings.config != 0 && dai != dai_of(pdcchs.len()) {
            return None;
        }
        let ack = |block: usize| u16::from(members.iter().all(|each| decoded(each.heard)[block]));
        let bits = (ack(0), if settings.blocks == 2 { ack(1) } else { 0 });
        Some(Sent { kind: Fed::BUNDLED, on: self.resource_of(settings, window, named), bits })
    }

    fn multiplexed(
        &self,
        settings: Settings,
        window: &Window,
        members: Vec<Member>,
    ) -> Option<Sent> {
        let at = |position| members.iter().find(|member| member.position == position);
        let letter = |position| at(position).map_or('D', |member| letter_of(member.heard));
        let state: String = (0..window.size()).map(letter).collect();
        let symbol = self.symbol(&state)?;
        let member = at(symbol.index).expect("index i is always a heard position");
        let on = self.resource_of(settings, window, member);
        Some(Sent { kind: Fed::MULTIPLEXED, on, bits: (symbol.b0, symbol.b1) })
    }

    /// What the resource call answers for a PDCCH, or the one resource that is set for
    /// scheduled blocks.
    fn resource_of(&self, settings: Settings, window: &Window, member: &Member) -> ResourceAnswer {
        match pdcch(member.heard) {
            None => ResourceAnswer::of(settings.scheduled),
            Some((cce, _)) => self.resource(settings, window.n, member.position, cce),
        }
    }

    /// What was heard in the window that a good state answers next.
    pub(super) fn members_of_next(&self, handset: &Handset) -> Vec<Member> {
        let diary = self.diary_of_good(handset).expect("a good state");
        let window = self.window(handset.settings.config, handset.next).expect("a window");
        members(window, now(handset), &diary)
    }

    /// The diary of a lent state, unless it is bad.
    fn diary_of_good(&self, handset: &Handset) -> Option<Vec<Entry>> {
        if settings_refusal(handset.settings).is_some() || handset.next > 9 {
            return None;
        }
        let diary = diary(handset)?;
        let Settings { config, ports, .. } = handset.settings;
        let is_bad = |entry: &Entry| {
            let mode_refusal = first_met(mode_causes(config, ports, entry.mode));
            mode_refusal.is_some() || self.refusal(handset.settings, &diary, *entry).is_some()
        };
        (!diary.iter().any(is_bad)).then_some(diary)
    }

    /// The first among the causes that something heard meets at its time, beside
    /// all that was heard.
    fn refusal(&self, settings: Settings, diary: &[Entry], entry: Entry) -> Option<u16> {
        let Entry { time, heard, .. } = entry;
        let Settings { config, nrb, blocks, scheduled, .. } = settings;
        first_met([
            (9, heard != Heard::Nothing && is_uplink(config, time % 10)),
            (20, carried(heard).is_some() && is_short(settings, time % 10)),
            (10, carried(heard).is_some_and(|carried| !(1..=blocks).contains(&carried))),
            (11, pdcch(heard).is_some_and(|(cce, _)| cce >= edge(nrb, 4))),
            (12, pdcch(heard).is_some_and(|(_, dai)| ![1, 2, 3, 4].contains(&dai))),
            (18, is_block(heard) && (scheduled == NONE || self.is_second(config, diary, time))),
        ])
    }

    /// Whether the window of a time has a scheduled block at another time.
    fn is_second(&self, config: u16, diary: &[Entry], time: u16) -> bool {
        let mut others = diary.iter().filter(|other| other.time != time && is_block(other.heard));
        let answered_at = |time| self.answered_at(config, time);
        others.any(|other| answered_at(other.time) == answered_at(time))
    }

    /// The time at which a downlink subframe is answered.
    fn answered_at(&self, config: u16, time: u16) -> Option<u16> {
        let of_config = self.windows().iter().filter(|window| window.config == config);
        let mut ends = of_config.flat_map(|window| window.k.iter().map(move |k| (k, window.n)));
        ends.find(|(k, n)| (time + *k) % 10 == *n).map(|(k, _)| time + k)
    }
}

/// The time of the subframe that a handset expects; all that it remembers was
/// heard at times above 0.
fn now(handset: &Handset) -> u16 {
    20 + handset.next
}

/// All that a handset remembers, or nothing if one of it is of a kind that does
/// not exist.
fn diary(handset: &Handset) -> Option<Vec<Entry>> {
    let times = (0..now(handset)).rev();
    let remembered = times.zip(handset.past).zip(modes_at_feeds(handset.modes));
    let entry = |((time, slot), mode)| Some(Entry { time, heard: heard(slot)?, mode });
    remembered.map(entry).collect()
}

/// The modes at the last 13 feeds, newest first. Their number is halved again and again,
/// and what is left over is the next mode; what is left at the end says nothing.
fn modes_at_feeds(number: u16) -> Vec<u16> {
    let mut rest = number;
    let mut modes = Vec::new();
    while modes.len() < 13 {
        modes.push(rest % 2);
        rest /= 2;
    }
    modes
}

/// The number of 13 modes, newest first: from the oldest on it is doubled, and the next
/// mode added.
fn number_of(modes: &[u16]) -> u16 {
    modes.iter().rev().fold(0, |number, mode| 2 * number + mode)
}

/// The mode in which a window is answered now: the one that stood when the earliest of
/// its subframes was fed, or before the start the one that the handset was made with.
fn mode_of(window: &Window, now: u16, diary: &[Entry]) -> u16 {
    let of_window = diary.iter().filter(|entry| window.k.contains(&(now - entry.time)));
    let earliest = of_window.min_by_key(|entry| entry.time);
    earliest.expect("a handset remembers all of a window").mode
}

/// What was heard in the window that is answered now.
fn members(window: &Window, now: u16, diary: &[Entry]) -> Vec<Member> {
    let mut members = Vec::new();
    for (position, k) in (0..).zip(window.k.iter().copied()) {
        let here =
            diary.iter().filter(|entry| entry.time == now - k && entry.heard != Heard::Nothing);
        members.extend(here.map(|entry| Member { position, k, heard: entry.heard }));
    }
    members
}

/// The handset that has one entry more.
fn remember(handset: &Handset, new: Entry) -> Handset {
    let Handset { settings, next, modes, past } = *handset;
    let slots: Vec<Slot> = [slot(new.heard)].into_iter().chain(past).take(13).collect();
    let modes = [new.mode].into_iter().chain(modes_at_feeds(modes)).take(13);
    Handset {
        settings,
        next: if next == 9 { 0 } else { next + 1 },
        modes: number_of(&modes.collect::<Vec<_>>()),
        past: slots.try_into().expect("as many as before"),
    }
}

/// The DAI that the last of so many PDCCHs has if none was lost; of none there is
/// no last one.
pub(super) fn dai_of(pdcchs: usize) -> Option<u16> {
    [1, 2, 3, 4].into_iter().cycle().take(pdcchs).last()
}

fn is_block(heard: Heard) -> bool {
    matches!(heard, Heard::Block(_))
}

/// First CCE and DAI of what comes by PDCCH.
pub(super) fn pdcch(heard: Heard) -> Option<(u16, u16)> {
    match heard {
        Heard::Grant(Grant { cce, dai, .. }) | Heard::Release(Release { cce, dai }) => {
            Some((cce, dai))
        }
        Heard::Nothing | Heard::Block(_) => None,
    }
}

/// The transport blocks of what carries some.
fn carried(heard: Heard) -> Option<u16> {
    match heard {
        Heard::Grant(Grant { blocks, .. }) | Heard::Block(Block { blocks, .. }) => Some(blocks),
        Heard::Nothing | Heard::Release(_) => None,
    }
}

/// The letter of a position where something was heard.
fn letter_of(heard: Heard) -> char {
    if decoded(heard) == [true, true] {
        'A'
    } else {
        'N'
    }
}

/// Whether each block was decoded; the result of a sole block stands for both, and
/// a release counts as if everything was.
fn decoded(heard: Heard) -> [bool; 2] {
    let (blocks, first, second) = match heard {
        Heard::Grant(Grant { blocks, first, second, .. }) => (blocks, first, second),
        Heard::Block(Block { blocks, first, second }) => (blocks, first, second),
        Heard::Nothing | Heard::Release(_) => return [true, true],
    };
    [first != 0, if blocks == 1 { first != 0 } else { second != 0 }]
}

/// What a slot remembers, unless its kind does not exist.
fn heard(slot: Slot) -> Option<Heard> {
    let bit = |number: u32| u16::from(slot.results / 2u8.pow(number) % 2);
    let (blocks, first, second) = (1 + bit(2), bit(0), bit(1));
    let (cce, dai) = (slot.cce.into(), slot.dai.into());
    match slot.kind {
        0 => Some(Heard::Nothing),
        1 => Some(Heard::Grant(Grant { blocks, first, second, cce, dai })),
        2 => Some(Heard::Block(Block { blocks, first, second })),
        3 => Some(Heard::Release(Release { cce, dai })),
        _ => None,
    }
}

/// The slot that remembers what was heard. What a kind has not is 0.
fn slot(heard: Heard) -> Slot {
    let (cce, dai) = pdcch(heard).map_or((0, 0), |(cce, dai)| (cce as u8, dai as u8));
    let results = |blocks: u16, first: u16, second: u16| {
        u8::from(first != 0) + 2 * u8::from(second != 0) + 4 * u8::from(blocks == 2)
    };
    match heard {
        Heard::Nothing => Slot::NOTHING,
        Heard::Grant(Grant { blocks, first, second, .. }) => {
            Slot { kind: 1, cce, dai, results: results(blocks, first, second) }
        }
        Heard::Block(Block { blocks, first, second }) => {
            Slot { kind: 2, cce, dai, results: results(blocks, first, second) }
        }
        Heard::Release(_) => Slot { kind: 3, cce, dai, results: 0 },
    }
}
