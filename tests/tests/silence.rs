//! The cause of a silence. Every window meets every way in which PDCCHs and a scheduled block are
//! not sent, lost and heard, and every DAI in every place, and what is told of it is held to the
//! papers' words and to plain Rust, and to the model, which of the two largest counts sees a part
//! or none. No window is sampled: one of nine has 3^9 ways to send nothing, lose a grant or hear
//! it. Rules that differ from the papers' in one point are shown to tell otherwise.

use feedback_tests::compare::{hold_beside_the_feed, Comparison};
use feedback_tests::every;
use feedback_tests::fates::{
    every_pattern, every_pattern_with_a_block, Cell, Fate, BLOCKS_OF_ONE, DECODED, FAILED, LOST,
};
use feedback_tests::model::{bundles, is_short, is_uplink, Model, Window};
use feedback_tests::plain::plain_silence;
use feedback_tests::silences::{Found, Listener};
use feedback_tests::{silence, Handset, Settings, SilenceAnswer, Slot, NONE};

/// N_RB and N1 of the cells, and the scheduled resource where one is set.
const NRB: [u16; 1] = [50];
const N1: [u16; 1] = [10];
const SCHEDULED: u16 = 9;

/// Nothing sent, two ways to lose a PDCCH, and three to hear one.
const FATES: [Fate; 6] =
    [Fate::Nothing, LOST, Fate::LostRelease, DECODED, FAILED, Fate::HeardRelease];
const OF_FATES: Ways = Ways { lost: 2, heard: 3 };

/// Nothing sent, a grant lost, and a grant heard.
const THIRDS: [Fate; 3] = [Fate::Nothing, LOST, DECODED];
const OF_THIRDS: Ways = Ways { lost: 1, heard: 1 };

/// In how many ways a PDCCH is lost and heard at a position; beside these nothing is sent there.
#[derive(Clone, Copy)]
struct Ways {
    lost: u64,
    heard: u64,
}

impl Ways {
    /// The patterns of so many positions in which nothing is heard.
    fn unheard(self, size: u64) -> u64 {
        (1 + self.lost).pow(size as u32)
    }

    /// The patterns in which a PDCCH is heard, counted by the place i in time of the last one,
    /// and by how many before it are lost and heard: those that fit. What is sent later is lost.
    fn patterns(self, size: u64, fits: impl Fn(u64, u64) -> bool) -> u64 {
        let mut patterns = 0;
        for i in 0..size {
            let later = self.heard * self.unheard(size - 1 - i);
            for lost in 0..=i {
                for heard in 0..=i - lost {
                    let chosen = choose(i, lost) * choose(i - lost, heard);
                    let ways = self.lost.pow(lost as u32) * self.heard.pow(heard as u32);
                    patterns += u64::from(fits(lost, heard)) * later * chosen * ways;
                }
            }
        }
        patterns
    }

    /// The patterns in which a miss is shown: 1 to 3 lost before the last heard one, or 5 to 7.
    fn misses(self, size: u64) -> u64 {
        self.patterns(size, |lost, _| lost % 4 != 0)
    }
}

/// The ways to choose so many places of some.
fn choose(places: u64, chosen: u64) -> u64 {
    (0..chosen).map(|c| places.saturating_sub(c)).product::<u64>() / (1..=chosen).product::<u64>()
}

/// Every window but that of nine, in both modes and with one block or two.
fn windows_up_to_four(model: &Model) -> Vec<(Settings, &Window)> {
    let all = every::window(model, NRB, &N1, &every::MODE_AND_BLOCKS);
    let windows: Vec<_> = all.filter(|(_, window)| window.config != 5).collect();
    assert_eq!(windows.len(), 4 * 20);
    windows
}

/// Of the windows but that of nine 11 are of one subframe, 4 of two, 1 of three and 4 of four:
/// the patterns of all of them, by those of a window of each size.
fn in_windows([one, two, three, four]: [u64; 4]) -> u64 {
    11 * one + 4 * two + three + 4 * four
}

/// The window of nine.
fn nine(model: &Model) -> (Settings, &Window) {
    let settings = Settings::plain(5, 50, 10, 0, 1).with_scheduled(SCHEDULED);
    (settings, model.window(5, 2).expect("a window"))
}

/// Whether a miss can be shown in a window of a cell.
fn reads_the_dai(settings: Settings, window: &Window) -> bool {
    settings.config != 0 && bundles(settings, window.size())
}

/// The same handset that also heard something in each downlink subframe outside of the window:
/// a PDCCH there with any DAI, and in the newest that has data a scheduled block, where a
/// resource is set.
fn surrounded(window: &Window, handset: Handset) -> Handset {
    let Handset { settings, next, .. } = handset;
    let mut around = handset;
    let mut block_due = settings.scheduled != NONE;
    for (ago, slot) in (1..).zip(&mut around.past) {
        let subframe = (next + 20 - ago) % 10;
        if window.k.contains(&ago) || is_uplink(settings.config, subframe) {
            continue;
        }
        let (cce, dai) = (ago as u8 % 7, (ago + next) as u8 % 4 + 1);
        *slot = match is_short(settings, subframe) {
            true => Slot::release(cce, dai),
            false if block_due => Slot::block(1),
            false => Slot::grant(cce, dai, 1),
        };
        block_due &= slot.kind != Slot::BLOCK;
    }
    around
}

/// The patterns of one window, each of which a handset hears from its start on.
struct Tried<'a> {
    cell: Cell<'a>,
    listener: Listener<'a>,
    found: Found,
}

impl<'a> Tried<'a> {
    fn new(settings: Settings, window: &'a Window) -> Self {
        let (cell, listener) = (Cell::new(settings, window), Listener::new(window));
        Self { cell, listener, found: Found::default() }
    }

    /// By the rule of the DAI, V is as far beyond the value expected as PDCCHs are lost before
    /// the last heard one, modulo 4; and a miss is shown exactly if it is beyond.
    fn hold(&mut self, pattern: &[Fate], handset: Handset, given: SilenceAnswer) {
        let Cell { settings, window, .. } = self.cell;
        let lost = self.cell.lost_before_the_last(pattern);
        let is_miss = given.cause == SilenceAnswer::MISS_SHOWN;
        let miss_due = reads_the_dai(settings, window) && !lost.is_multiple_of(4);
        let beyond = usize::from((given.v + 4 - given.expected) % 4);
        assert!(
            is_miss == miss_due && (!is_miss || beyond == lost % 4),
            "{pattern:?}, {handset:?}: {lost} lost before the last heard one, and told {given:?}"
        );
        if is_miss && window.size() <= 4 {
            assert_eq!(beyond, lost, "{pattern:?}, {handset:?}: {given:?}");
        }
        self.found.hold(&self.listener, handset, given);
    }

    /// A pattern as it is, and with something heard all around the window.
    fn both(&mut self, comparison: &mut Comparison, pattern: &[Fate]) {
        let handset = self.cell.hear(pattern);
        for handset in [handset, surrounded(self.cell.window, handset)] {
            let given = comparison.silence(handset);
            self.hold(pattern, handset, given);
        }
    }

    /// A pattern as it is.
    fn one(&mut self, comparison: &mut Comparison, pattern: &[Fate]) {
        let handset = self.cell.hear(pattern);
        let given = comparison.silence(handset);
        self.hold(pattern, handset, given);
    }

    /// As many of each cause as there should be.
    fn finish(self, patterns: u64, nothing_heard: u64, misses: u64) -> Found {
        let Cell { settings, window, .. } = self.cell;
        let due = [patterns - nothing_heard - misses, nothing_heard, misses];
        assert_eq!(self.found.causes, due, "{settings:?}, {window:?}: answers by cause");
        self.found
    }
}

/// Every window but that of nine: grants and releases lost and heard at every position, and at
/// most one scheduled block, lost or heard. Each pattern is tried as it is, and with something
/// heard all around the window.
#[test]
fn every_pattern_of_up_to_four() {
    let model = Model::new();
    let mut comparison = Comparison::with(&model);
    let mut all = Found::default();
    for (settings, window) in windows_up_to_four(&model) {
        let settings = settings.with_scheduled(SCHEDULED);
        let mut tried = Tried::new(settings, window);
        let size = window.size();
        every_pattern(&FATES, size, |pattern| tried.both(&mut comparison, pattern));
        every_pattern_with_a_block(&FATES, &BLOCKS_OF_ONE, size, |pattern| {
            tried.both(&mut comparison, pattern);
        });
        let size = u64::from(size);
        let blocks = BLOCKS_OF_ONE.len() as u64 * size;
        let misses = match reads_the_dai(settings, window) {
            true => OF_FATES.misses(size) + blocks * OF_FATES.misses(size - 1),
            false => 0,
        };
        // Of the blocks one is lost.
        let unheard = OF_FATES.unheard(size) + size * OF_FATES.unheard(size - 1);
        let patterns = 6u64.pow(size as u32) + blocks * 6u64.pow(size as u32 - 1);
        all.add(tried.finish(2 * patterns, 2 * unheard, 2 * misses));
    }
    // U is at most 4 here, and V by the rule of the DAI never less than the value expected. In a
    // window of one it is 1. The mode never changes.
    all.assert_caught_all_but(&[
        "the value expected without mod 4",
        "a miss only if V is the greater",
        "the standing mode",
        "the mode at the last subframe",
        "a miss told in configuration 0",
    ]);
    let with_a_block = [6 + 3, 36 + 6 * 6, 216 + 9 * 36, 1296 + 12 * 216];
    let compared = 4 * 2 * in_windows(with_a_block);
    comparison.finish(compared, compared);
}

/// The window of nine: 3^9 ways to send nothing, lose a grant or hear it.
#[test]
fn every_pattern_of_nine() {
    let model = Model::new();
    let mut comparison = Comparison::with(&model);
    let (settings, window) = nine(&model);
    let mut tried = Tried::new(settings, window);
    every_pattern(&THIRDS, 9, |pattern| tried.one(&mut comparison, pattern));
    let misses = OF_THIRDS.misses(9);
    let found = tried.finish(19_683, 512, misses);
    found.assert_caught_all_but(&[
        "a lone scheduled block is nothing heard",
        "the scheduled block counted in U",
        "releases not counted",
        "all that is remembered for the window",
        "the standing mode",
        "the mode at the last subframe",
        "a miss told in configuration 0",
        "a miss told beside a multiplexed reply",
    ]);
    for name in [
        "V and the value expected exchanged",
        "the value expected one on",
        "nothing heard for every silence",
    ] {
        assert_eq!(found.of_wrong(name), misses, "{name}");
    }
    // U is above 4 where four or more are heard before the last one.
    let above_four = OF_THIRDS.patterns(9, |lost, heard| lost % 4 != 0 && heard >= 4);
    assert_eq!(found.of_wrong("the value expected without mod 4"), above_four);
    let v_is_less = OF_THIRDS.patterns(9, |lost, heard| lost % 4 + heard % 4 >= 4);
    assert_eq!(found.of_wrong("a miss only if V is the greater"), v_is_less);
    // Each two values that differ occur.
    for v in 1..=4 {
        for expected in 1..=4 {
            let of_both = |lost: u64, heard: u64| {
                (heard % 4 + 1, (heard + lost) % 4 + 1) == (expected, v) && v != expected
            };
            let due = OF_THIRDS.patterns(9, of_both);
            assert_eq!(found.misses[v as usize][expected as usize], due, "{v}, {expected}");
            assert_eq!(due > 0, v != expected);
        }
    }
    comparison.finish(19_683, 19_683);
}

/// Likewise with a scheduled block at each position, lost or heard.
#[test]
fn every_pattern_of_nine_with_a_block() {
    let model = Model::new();
    let mut comparison = Comparison::with(&model);
    let (settings, window) = nine(&model);
    let mut tried = Tried::new(settings, window);
    every_pattern_with_a_block(&THIRDS, &BLOCKS_OF_ONE[..2], 9, |pattern| {
        tried.one(&mut comparison, pattern);
    });
    let patterns = 2 * 9 * 6561;
    let misses = 2 * 9 * OF_THIRDS.misses(8);
    let found = tried.finish(patterns, 9 * 256, misses);
    // A block that is heard alone, and one that is heard beside a miss.
    assert_eq!(found.of_wrong("a lone scheduled block is nothing heard"), 9 * 256);
    assert_eq!(found.of_wrong("the scheduled block counted in U"), misses / 2);
    comparison.finish(patterns, patterns);
}

/// Likewise with a release in place of any grant that is heard, and with something heard all
/// around the window: 4^9 patterns, of which one in 16 is shown to the model.
#[test]
fn every_pattern_of_nine_with_releases() {
    let model = Model::new();
    let mut comparison = Comparison::with(&model);
    let (settings, window) = nine(&model);
    let mut tried = Tried::new(settings, window);
    let mut number = 0;
    every_pattern(&[Fate::Nothing, LOST, DECODED, Fate::HeardRelease], 9, |pattern| {
        let handset = surrounded(window, tried.cell.hear(pattern));
        let (given, plain) = (silence(handset), plain_silence(handset));
        assert_eq!(given, plain, "{handset:?}: the engine, the plain implementation");
        hold_beside_the_feed(handset, given);
        tried.hold(pattern, handset, given);
        // Of 16 in a row one, each time another.
        if (number + number / 16) % 16 == 0 {
            comparison.silence(handset);
        }
        number += 1;
    });
    let ways = Ways { lost: 1, heard: 2 };
    let found = tried.finish(4u64.pow(9), 512, ways.misses(9));
    found.assert_caught_all_but(&[
        "a lone scheduled block is nothing heard",
        "the scheduled block counted in U",
        "the standing mode",
        "the mode at the last subframe",
        "a miss told in configuration 0",
        "a miss told beside a multiplexed reply",
    ]);
    comparison.finish(4u64.pow(9) / 16, 4u64.pow(9) / 16);
}

/// The windows of cells whose special subframes are too short for data, and of cells with two
/// ports; the window of nine once of each.
fn windows_of_other_cells(model: &Model) -> Vec<(Settings, &Window)> {
    let short = every::SHORT.into_iter().flat_map(|(prefix, special)| {
        every::cell(50, 10, SCHEDULED).map(move |cell| cell.with_special(prefix, special))
    });
    let cells = short.chain(every::two_port_cell(50, 10));
    let windows = cells.flat_map(|cell| {
        let of_cell = model.windows().iter().filter(move |window| window.config == cell.config);
        of_cell.map(move |window| (cell, window))
    });
    let (nines, mut windows): (Vec<_>, Vec<_>) =
        windows.partition(|(_, window)| window.size() == 9);
    windows.extend([nines[0], nines[nines.len() - 1]]);
    windows
}

/// The same pattern with releases where special subframes are too short for data.
fn with_releases(settings: Settings, window: &Window, pattern: &[Fate]) -> Vec<Fate> {
    let fate_at = |(m, fate): (usize, &Fate)| match (is_short(settings, window.subframe(m)), fate) {
        (true, Fate::Lost { .. }) => Fate::LostRelease,
        (true, Fate::Heard { .. }) => Fate::HeardRelease,
        _ => *fate,
    };
    pattern.iter().enumerate().map(fate_at).collect()
}

/// Special subframes too short for data bring releases, which count as grants do; and a handset
/// with two ports is silent for the same causes.
#[test]
fn every_pattern_of_other_cells() {
    let model = Model::new();
    let mut comparison = Comparison::with(&model);
    let mut all = Found::default();
    for (settings, window) in windows_of_other_cells(&model) {
        let mut tried = Tried::new(settings, window);
        every_pattern(&THIRDS, window.size(), |pattern| {
            tried.one(&mut comparison, &with_releases(settings, window, pattern));
        });
        let size = u64::from(window.size());
        let misses = match reads_the_dai(settings, window) {
            true => OF_THIRDS.misses(size),
            false => 0,
        };
        all.add(tried.finish(3u64.pow(size as u32), OF_THIRDS.unheard(size), misses));
    }
    // No scheduled block is sent here, nothing beside the window, and the mode never changes. In
    // a window of one DAI 1 is sent.
    all.assert_caught_all_but(&[
        "a lone scheduled block is nothing heard",
        "the scheduled block counted in U",
        "all that is remembered for the window",
        "the standing mode",
        "the mode at the last subframe",
        "a miss told in configuration 0",
    ]);
    // Four pairs of prefix and special configuration in two modes with one block or two, and two
    // ports with one or two.
    let compared = (4 * 4 + 2) * in_windows([3, 9, 27, 81]) + 2 * 19_683;
    comparison.finish(compared, compared);
}

/// A window as it is remembered, by position, in a mode that never changed.
fn remembering(settings: Settings, window: &Window, slots: &[Slot]) -> Handset {
    let mut handset = Handset { next: window.n, ..Handset::fresh(settings) };
    for (k, slot) in window.k.iter().zip(slots) {
        handset.past[usize::from(*k) - 1] = *slot;
    }
    handset
}

/// Every DAI in every place, not by the rule: at each position nothing, a grant or a release with
/// each DAI, or a scheduled block, of which there is at most one in a window.
#[test]
fn every_dai_of_up_to_four() {
    let model = Model::new();
    let mut comparison = Comparison::with(&model);
    let pdcchs = (1..=4).flat_map(|dai| [Slot::grant(5, dai, 1), Slot::release(60, dai)]);
    let choices: Vec<Slot> = [Slot::NOTHING, Slot::block(1)].into_iter().chain(pdcchs).collect();
    let mut all = Found::default();
    for (settings, window) in windows_up_to_four(&model) {
        if settings.blocks != 1 + (window.n + settings.mode) % 2 {
            continue;
        }
        let settings = settings.with_scheduled(SCHEDULED);
        let (mut found, listener) = (Found::default(), Listener::new(window));
        let size = u32::from(window.size());
        for number in 0..choices.len().pow(size) {
            let digit = |at| number / choices.len().pow(at) % choices.len();
            let slots: Vec<Slot> = (0..size).map(|at| choices[digit(at)]).collect();
            if slots.iter().filter(|slot| slot.kind == Slot::BLOCK).count() > 1 {
                continue;
            }
            let handset = remembering(settings, window, &slots);
            let given = comparison.silence(handset);
            found.hold(&listener, handset, given);
        }
        // Where a PDCCH is heard, one DAI in four is the one expected.
        let size = u64::from(size);
        let patterns = 9u64.pow(size as u32) + size * 9u64.pow(size as u32 - 1);
        let misses = match reads_the_dai(settings, window) {
            true => (patterns - 1 - size) / 4 * 3,
            false => 0,
        };
        assert_eq!(found.causes, [patterns - 1 - misses, 1, misses], "{settings:?}, {window:?}");
        all.add(found);
    }
    all.assert_caught_all_but(&[
        "the value expected without mod 4",
        "all that is remembered for the window",
        "the standing mode",
        "the mode at the last subframe",
    ]);
    let compared = 2 * in_windows([9 + 1, 81 + 2 * 9, 729 + 3 * 81, 6561 + 4 * 729]);
    comparison.finish(compared, compared);
}

/// Every DAI in every place of nine: 5^9 windows, by the plain implementation and by the papers'
/// words.
#[test]
fn every_dai_of_nine() {
    let model = Model::new();
    let (settings, window) = nine(&model);
    let (mut found, listener) = (Found::default(), Listener::new(window));
    let grants: Vec<Slot> = (1..=4).map(|dai| Slot::grant(dai, dai, 1)).collect();
    for number in 0..5usize.pow(9) {
        let (mut slots, mut rest) = ([Slot::NOTHING; 9], number);
        for slot in &mut slots {
            if rest % 5 > 0 {
                *slot = grants[rest % 5 - 1];
            }
            rest /= 5;
        }
        let handset = remembering(settings, window, &slots);
        let (given, plain) = (silence(handset), plain_silence(handset));
        assert!(given == plain, "{handset:?}: {given:?}, the plain implementation {plain:?}");
        found.hold_words(&listener, handset, given);
    }
    let heard = 5u64.pow(9) - 1;
    println!("{} windows, by cause {:?}", found.windows(), found.causes);
    assert_eq!(found.causes, [heard / 4, 1, heard / 4 * 3]);
}
