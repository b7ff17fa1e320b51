//! The handset's side: making one, feeding it, and changing its mode.

use super::{bundles, cces, check, is_short, region, second, DOWNLINK, K, SPECIAL};
use crate::{Changed, Fed, Handset, Made, Settings, SilenceAnswer, Slot, NONE};

/// How long before its answer each window begins: its largest k; 0 where there is none.
const BEGINS: [[u8; 10]; 7] = beginnings();

const fn beginnings() -> [[u8; 10]; 7] {
    let mut beginnings = [[0; 10]; 7];
    let mut config = 0;
    while config < 7 {
        let mut n = 0;
        while n < 10 {
            let mut position = 0;
            while position < K[config][n].len() {
                if K[config][n][position] > beginnings[config][n] {
                    beginnings[config][n] = K[config][n][position];
                }
                position += 1;
            }
            n += 1;
        }
        config += 1;
    }
    beginnings
}

/// How many subframes later each downlink subframe is answered; 0 for an uplink one.
const DISTANCE: [[u8; 10]; 7] = distances();

const fn distances() -> [[u8; 10]; 7] {
    let mut distances = [[0; 10]; 7];
    let mut config = 0;
    while config < 7 {
        let mut n = 0;
        while n < 10 {
            let mut position = 0;
            while position < K[config][n].len() {
                let k = K[config][n][position];
                distances[config][(n + 20 - k as usize) % 10] = k;
                position += 1;
            }
            n += 1;
        }
        config += 1;
    }
    distances
}

/// What a position of a window is in the tables of the symbols.
#[derive(Clone, Copy, PartialEq, Eq)]
enum State {
    A,
    N,
    D,
}

/// What is sent for a window.
pub(super) struct Reply {
    pub kind: u16,
    pub resource: u16,
    pub bits: (u16, u16),
}

/// What a state that has been checked allows the next subframe to bring.
pub(super) struct Limits {
    /// The downlink subframes, special ones too, and those that carry data.
    downlink: u16,
    data: u16,
    blocks: u16,
    cces: u16,
    /// How much later each subframe of the frame is answered.
    distances: &'static [u8; 10],
    /// Whether a resource is set for scheduled blocks.
    scheduled: bool,
    /// The windows that have a scheduled block: bit 13 + d for the one that is
    /// answered d subframes after the next, where d may be below 0.
    taken: u32,
}

/// A fresh handset, under the signature of the C call.
#[inline(never)]
pub extern "C" fn plain_make(settings: Settings) -> Made {
    match check(&settings) {
        Ok(()) => Made { refusal: 0, handset: Handset::fresh(settings) },
        Err(refusal) => Made { refusal, handset: Handset::NONE },
    }
}

/// A feed of nothing, under the signature of the C call.
#[inline(never)]
pub extern "C" fn plain_feed_nothing(handset: Handset) -> Fed {
    feed_nothing(&handset)
}

/// The same with the cause of a silence, under the signature of the C call. A window that is
/// silent is looked at once more; a scheduled block in it was not the only thing heard.
#[inline(never)]
pub extern "C" fn plain_silence(handset: Handset) -> SilenceAnswer {
    let fed = feed_nothing(&handset);
    if fed.kind != Fed::SILENT {
        return SilenceAnswer::not_silent(fed);
    }
    let mut heard = 0;
    let (mut latest, mut v) = (u8::MAX, 0);
    for &k in K[usize::from(handset.settings.config)][usize::from(handset.next)] {
        let slot = handset.past[usize::from(k) - 1];
        if slot.kind & 1 == 1 {
            heard += 1;
            if k < latest {
                (latest, v) = (k, slot.dai);
            }
        }
    }
    match heard {
        0 => SilenceAnswer::nothing_heard(fed),
        _ => SilenceAnswer::miss_shown(fed, v.into(), (heard - 1) % 4 + 1),
    }
}

#[inline(always)]
fn feed_nothing(handset: &Handset) -> Fed {
    let Some(limits) = limits_of_good(handset) else {
        return Fed::refused(8, *handset);
    };
    let after = remember(handset, Slot::NOTHING);
    if limits.is_downlink(handset.next) {
        return Fed::answer(Fed::TAKEN, after);
    }
    match answered_next(handset) {
        None => Fed::answer(Fed::NO_WINDOW, after),
        Some(None) => Fed::answer(Fed::SILENT, after),
        Some(Some(Reply { kind, resource, bits })) => {
            Fed::reply(kind, resource, bits, after).with_second(second(&handset.settings, resource))
        }
    }
}

/// What a good state answers in the next subframe, if that has a window: a reply, or silence.
#[inline(always)]
pub(super) fn answered_next(handset: &Handset) -> Option<Option<Reply>> {
    let settings = &handset.settings;
    let (config, n) = (usize::from(settings.config), usize::from(handset.next));
    let window = K[config][n];
    if window.is_empty() {
        return None;
    }
    let mode = handset.modes >> (BEGINS[config][n] - 1) & 1;
    Some(reply(settings, mode, window, |k| handset.past[usize::from(k) - 1]))
}

/// A feed of a grant, under the signature of the C call.
#[inline(never)]
pub extern "C" fn plain_feed_grant(
    handset: Handset,
    blocks: u16,
    first: u16,
    second: u16,
    cce: u16,
    dai: u16,
) -> Fed {
    let Some(limits) = limits_of_good(&handset) else {
        return Fed::refused(8, handset);
    };
    if let Err(refusal) = limits.check_grant(handset.next, blocks, cce, dai) {
        return Fed::refused(refusal, handset);
    }
    let results = results(blocks, first, second);
    let slot = Slot { kind: Slot::GRANT, cce: cce as u8, dai: dai as u8, results };
    Fed::answer(Fed::TAKEN, remember(&handset, slot))
}

/// A feed of a scheduled block, under the signature of the C call.
#[inline(never)]
pub extern "C" fn plain_feed_scheduled(
    handset: Handset,
    blocks: u16,
    first: u16,
    second: u16,
) -> Fed {
    let Some(limits) = limits_of_good(&handset) else {
        return Fed::refused(8, handset);
    };
    if let Err(refusal) = limits.check_block(handset.next, blocks) {
        return Fed::refused(refusal, handset);
    }
    let results = results(blocks, first, second);
    let slot = Slot { kind: Slot::BLOCK, results, ..Slot::NOTHING };
    Fed::answer(Fed::TAKEN, remember(&handset, slot))
}

/// A feed of a release, under the signature of the C call.
#[inline(never)]
pub extern "C" fn plain_feed_release(handset: Handset, cce: u16, dai: u16) -> Fed {
    let Some(limits) = limits_of_good(&handset) else {
        return Fed::refused(8, handset);
    };
    if let Err(refusal) = limits.check_release(handset.next, cce, dai) {
        return Fed::refused(refusal, handset);
    }
    let slot = Slot { kind: Slot::RELEASE, cce: cce as u8, dai: dai as u8, results: 0 };
    Fed::answer(Fed::TAKEN, remember(&handset, slot))
}

/// A mode change, under the signature of the C call.
#[inline(never)]
pub extern "C" fn plain_change_mode(handset: Handset, mode: u16) -> Changed {
    if mode > 1 {
        Changed::refused(4, handset)
    } else if mode == 1 && handset.settings.config == 5 {
        Changed::refused(5, handset)
    } else if mode == 1 && handset.settings.ports == 2 {
        Changed::refused(24, handset)
    } else if limits_of_good(&handset).is_none() {
        Changed::refused(8, handset)
    } else {
        Changed::to(handset.in_mode(mode))
    }
}

impl Limits {
    /// The limits of settings that have been checked, where nothing was heard yet.
    pub fn new(settings: &Settings) -> Self {
        let config = usize::from(settings.config);
        Self {
            downlink: DOWNLINK[config],
            data: DOWNLINK[config] & !if is_short(settings) { SPECIAL[config] } else { 0 },
            blocks: settings.blocks,
            cces: cces(settings.nrb),
            distances: &DISTANCE[config],
            scheduled: settings.scheduled != NONE,
            taken: 0,
        }
    }

    /// Checks what a slot of an existing kind, not nothing, brings to the next subframe.
    pub fn check(&self, subframe: u16, slot: Slot) -> Result<(), u16> {
        let blocks = 1 + u16::from(slot.results >> 2 & 1);
        let (cce, dai) = (slot.cce.into(), slot.dai.into());
        match slot.kind {
            Slot::GRANT => self.check_grant(subframe, blocks, cce, dai),
            Slot::BLOCK => self.check_block(subframe, blocks),
            _ => self.check_release(subframe, cce, dai),
        }
    }

    /// Goes on by a subframe, which brought a scheduled block or did not.
    pub fn go_on(&mut self, subframe: u16, is_block: bool) {
        if is_block {
            self.taken |= self.window_of(subframe, 0);
        }
        self.taken >>= 1;
    }

    fn is_downlink(&self, subframe: u16) -> bool {
        self.downlink >> subframe & 1 == 1
    }

    fn check_grant(&self, subframe: u16, blocks: u16, cce: u16, dai: u16) -> Result<(), u16> {
        self.check_carried(subframe, blocks)?;
        self.check_pdcch(cce, dai)
    }

    fn check_release(&self, subframe: u16, cce: u16, dai: u16) -> Result<(), u16> {
        if !self.is_downlink(subframe) {
            return Err(9);
        }
        self.check_pdcch(cce, dai)
    }

    fn check_block(&self, subframe: u16, blocks: u16) -> Result<(), u16> {
        self.check_carried(subframe, blocks)?;
        if !self.scheduled || self.taken & self.window_of(subframe, 0) != 0 {
            return Err(18);
        }
        Ok(())
    }

    fn check_carried(&self, subframe: u16, blocks: u16) -> Result<(), u16> {
        if !self.is_downlink(subframe) {
            Err(9)
        } else if self.data >> subframe & 1 == 0 {
            Err(20)
        } else if blocks == 0 || blocks > self.blocks {
            Err(10)
        } else {
            Ok(())
        }
    }

    fn check_pdcch(&self, cce: u16, dai: u16) -> Result<(), u16> {
        if cce >= self.cces {
            Err(11)
        } else if dai == 0 || dai > 4 {
            Err(12)
        } else {
            Ok(())
        }
    }

    /// Whether what a slot remembers is bad by itself. The kinds are tested without
    /// a jump, since what a handset heard cannot be foretold.
    fn is_bad(&self, subframe: u16, slot: &Slot) -> bool {
        let is_pdcch = slot.kind & 1 == 1;
        let is_release = slot.kind == Slot::RELEASE;
        let carries_two = (slot.results & 4 != 0) & !is_release;
        let subframes = if is_release { self.downlink } else { self.data };
        (slot.kind > Slot::RELEASE)
            | (subframes >> subframe & 1 == 0)
            | (is_pdcch & ((u16::from(slot.cce) >= self.cces) | (slot.dai.wrapping_sub(1) > 3)))
            | (carries_two & (self.blocks == 1))
    }

    /// The bit of the window that a subframe is in, `age` before the next.
    fn window_of(&self, subframe: u16, age: u16) -> u32 {
        1 << (13 + u16::from(self.distances[usize::from(subframe)]) - age)
    }
}

/// The limits of a lent state, unless it is bad.
pub(super) fn limits_of_good(handset: &Handset) -> Option<Limits> {
    let settings = &handset.settings;
    check(settings).ok()?;
    let multiplexed = handset.modes & Handset::ALL_MULTIPLEXING != 0;
    let bundles_only = settings.config == 5 || settings.ports == 2;
    if handset.next > 9 || multiplexed && bundles_only {
        return None;
    }
    let mut limits = Limits::new(settings);
    let mut any_block = false;
    let mut subframe = handset.next;
    for slot in &handset.past {
        subframe = if subframe == 0 { 9 } else { subframe - 1 };
        if slot.kind != 0 {
            if limits.is_bad(subframe, slot) {
                return None;
            }
            any_block |= slot.kind == Slot::BLOCK;
        }
    }
    if any_block {
        limits.taken = windows_with_blocks(&limits, handset)?;
    }
    Some(limits)
}

/// The windows that have a scheduled block, unless one has two or no resource is set.
fn windows_with_blocks(limits: &Limits, handset: &Handset) -> Option<u32> {
    let mut taken = 0;
    let mut subframe = handset.next;
    for (slot, age) in handset.past.iter().zip(1..) {
        subframe = if subframe == 0 { 9 } else { subframe - 1 };
        if slot.kind == Slot::BLOCK {
            let window = limits.window_of(subframe, age);
            if !limits.scheduled || taken & window != 0 {
                return None;
            }
            taken |= window;
        }
    }
    Some(taken)
}

fn results(blocks: u16, first: u16, second: u16) -> u8 {
    u8::from(first != 0) | u8::from(second != 0) << 1 | u8::from(blocks == 2) << 2
}

pub(super) fn remember(handset: &Handset, slot: Slot) -> Handset {
    let mut after = *handset;
    after.past.copy_within(..12, 1);
    after.past[0] = slot;
    after.next = if handset.next == 9 { 0 } else { handset.next + 1 };
    after.modes = (handset.modes << 1 | handset.settings.mode) & Handset::ALL_MULTIPLEXING;
    after
}

/// What is sent for a window that is answered in a mode; `ago` has what was heard k
/// subframes ago.
#[inline(always)]
pub(super) fn reply(
    settings: &Settings,
    mode: u16,
    window: &[u8],
    ago: impl Fn(u8) -> Slot,
) -> Option<Reply> {
    let is_bundled = bundles(mode, window.len() as u16);
    let (kind, sent) = match is_bundled {
        true => (Fed::BUNDLED, bundled(settings, window, ago)),
        false => (Fed::MULTIPLEXED, multiplexed(settings, window, ago)),
    };
    sent.map(|(resource, bits)| Reply { kind, resource, bits })
}

#[inline(always)]
fn bundled(
    settings: &Settings,
    window: &[u8],
    ago: impl Fn(u8) -> Slot,
) -> Option<(u16, (u16, u16))> {
    let mut heard = 0;
    let mut acks = 0b11;
    let mut last: Option<(usize, u8)> = None;
    let mut scheduled = false;
    for (position, &k) in window.iter().enumerate() {
        let slot = ago(k);
        acks &= acks_of(slot);
        if slot.kind == Slot::BLOCK {
            scheduled = true;
        } else if slot.kind != 0 {
            heard += 1;
            if last.is_none_or(|(_, latest)| k < latest) {
                last = Some((position, k));
            }
        }
    }
    let b1 = if settings.blocks == 2 { acks >> 1 } else { 0 };
    let Some((position, k)) = last else {
        return scheduled.then_some((settings.scheduled, (acks & 1, b1)));
    };
    let slot = ago(k);
    if settings.config != 0 && slot.dai != (heard - 1) % 4 + 1 {
        return None;
    }
    Some((resource_of(settings, window.len(), position, slot), (acks & 1, b1)))
}

#[inline(always)]
fn multiplexed(
    settings: &Settings,
    window: &[u8],
    ago: impl Fn(u8) -> Slot,
) -> Option<(u16, (u16, u16))> {
    let mut states = [State::D; 4];
    for (state, &k) in states.iter_mut().zip(window) {
        let slot = ago(k);
        if slot.kind != 0 {
            *state = if acks_of(slot) == 0b11 { State::A } else { State::N };
        }
    }
    let (position, bits) = symbol(&states[..window.len()])?;
    let slot = ago(window[position]);
    match slot.kind {
        Slot::BLOCK => Some((settings.scheduled, bits)),
        _ => Some((resource_of(settings, window.len(), position, slot), bits)),
    }
}

/// The index and bits of a state, the first arm that fits.
fn symbol(states: &[State]) -> Option<(usize, (u16, u16))> {
    use State::{A, D, N};
    Some(match states {
        [A, A] => (1, (1, 1)),
        [A, _] => (0, (0, 1)),
        [_, A] => (1, (0, 0)),
        [_, N] => (1, (1, 0)),
        [N, D] => (0, (1, 0)),

        [A, A, A] => (2, (1, 1)),
        [A, A, _] => (1, (1, 1)),
        [A, _, A] => (0, (1, 1)),
        [A, _, _] => (0, (0, 1)),
        [_, A, A] => (2, (1, 0)),
        [_, A, _] => (1, (0, 0)),
        [_, _, A] => (2, (0, 0)),
        [N, _, _] => (0, (1, 0)),
        [D, N, _] => (1, (1, 0)),
        [D, D, N] => (2, (0, 1)),

        [A, A, A, A] => (1, (1, 1)),
        [A, A, _, _] => (1, (1, 0)),
        [_, _, A, A] => (3, (0, 1)),
        [A, _, A, _] => (2, (0, 1)),
        [A, _, _, A] => (0, (0, 1)),
        [A, _, _, _] => (0, (1, 1)),
        [_, A, A, _] => (2, (1, 0)),
        [_, A, _, A] => (3, (1, 0)),
        [_, A, _, _] => (1, (0, 1)),
        [_, _, A, _] => (2, (0, 0)),
        [_, _, _, A] => (3, (0, 0)),
        [_, _, _, N] => (3, (1, 1)),
        [_, _, N, D] => (2, (1, 1)),
        [_, N, D, D] => (1, (0, 0)),
        [N, D, D, D] => (0, (1, 0)),
        _ => return None,
    })
}

/// The ACK bits of a remembered subframe, bit 0 for the first block.
fn acks_of(slot: Slot) -> u16 {
    ACKS[usize::from(slot.kind & 3)][usize::from(slot.results & 7)].into()
}

/// By kind and results: all where no block was carried, and the result of a sole
/// block stands for both.
const ACKS: [[u8; 8]; 4] = [[3; 8], CARRIED, CARRIED, [3; 8]];
const CARRIED: [u8; 8] = [0, 3, 0, 3, 0, 1, 2, 3];

/// The resource of a remembered PDCCH, whose CCE has been checked.
fn resource_of(settings: &Settings, size: usize, position: usize, slot: Slot) -> u16 {
    let (size, position, cce) = (size as u16, position as u16, u16::from(slot.cce));
    let (lower, upper) = region(settings.nrb, 1, cce).unwrap_or((0, 0));
    (size - position - 1) * lower + position * upper + cce + settings.n1
}
