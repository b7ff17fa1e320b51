//! Mode changes on lent states, and the modes that a state remembers: every number as the
//! new mode, every number as the remembered modes, every byte of a handset, damaged states,
//! and the order 4, 5, 8. The engine is held to the model, and to what is written out here.
//! Handsets with two ports are in tests/ports_states.rs.

use feedback_tests::compare::Comparison;
use feedback_tests::every;
use feedback_tests::model::{is_uplink, Model};
use feedback_tests::random::Random;
use feedback_tests::{
    change_mode, feed, feed_nothing, make, Block, Changed, Fed, Grant, Handset, Heard, Release,
    Settings, Slot,
};
use std::mem::offset_of;

/// A handset that heard grants, releases and scheduled blocks, while its mode changed
/// between the feeds, and expects a subframe. It remembers both modes, but in configuration
/// 5, where the changes are refused.
fn full(settings: Settings, subframe: u16, random: &mut Random) -> Handset {
    let mut handset = make(settings).handset;
    for left in (0..20 + subframe).rev() {
        let mode = if left < 2 { left } else { random.below16(2) };
        handset = change_mode(handset, mode).handset;
        let heard = match (is_uplink(settings.config, handset.next), random.below(3)) {
            (true, _) => Heard::Nothing,
            (_, 0) => Heard::Grant(random.grant(settings)),
            (_, 1) => Heard::Release(random.release(settings)),
            _ => Heard::Block(random.block(settings)),
        };
        let fed = feed(handset, heard);
        handset = match fed.refusal {
            0 => fed.handset,
            _ => feed_nothing(handset).handset,
        };
    }
    assert_eq!(handset.next, subframe);
    assert_eq!(settings.config != 5, ![0, Handset::ALL_MULTIPLEXING].contains(&handset.modes));
    handset
}

/// Kind, resource and bits.
fn answer(fed: &Fed) -> (u16, u16, (u16, u16)) {
    (fed.kind, fed.resource, (fed.b0, fed.b1))
}

/// Holds a change to what is due by its refusal: a refused one leaves all 74 bytes, and
/// another all but those of the mode.
fn hold_bytes(handset: Handset, mode: u16, changed: Changed) {
    let mut due = handset.bytes();
    if changed.refusal == 0 {
        let at = offset_of!(Handset, settings) + offset_of!(Settings, mode);
        due[at..at + 2].copy_from_slice(&mode.to_ne_bytes());
    }
    assert_eq!(changed.handset.bytes(), due, "{handset:?} to mode {mode}: {changed:?}");
}

/// Every 16-bit number as the new mode, of good states and of bad ones.
#[test]
fn every_number_as_the_new_mode() {
    let model = Model::new();
    let mut comparison = Comparison::with(&model);
    let mut random = Random::new(20);
    let [two, five] = [2, 5].map(|config| {
        full(Settings::plain(config, 50, 10, 0, 2).with_scheduled(9), 7, &mut random)
    });
    // With the refusals of modes 0 and 1.
    let states = [
        (two, [0, 0]),
        (five, [0, 5]),
        (Handset { next: 10, ..two }, [8, 8]),
        (Handset { next: 10, ..five }, [8, 5]),
    ];
    for (handset, of_modes) in states {
        for mode in 0..=65535 {
            let changed = comparison.change_mode(handset, mode);
            let due = of_modes.get(usize::from(mode)).copied().unwrap_or(4);
            assert_eq!(changed.refusal, due, "{handset:?} to mode {mode}");
            hold_bytes(handset, mode, changed);
        }
    }
    comparison.finish(4 * 65536, 3);
}

/// States of every cell and subframe, with any bits above the thirteen: a change leaves
/// everything but the mode, and to the mode that stands it leaves everything.
#[test]
fn a_change_leaves_all_but_the_mode() {
    let model = Model::new();
    let mut comparison = Comparison::with(&model);
    let mut random = Random::new(21);
    for settings in every::mixed_cells() {
        for subframe in 0..10 {
            let state = full(settings, subframe, &mut random);
            for unused in 0..8 {
                let handset = Handset { modes: state.modes | unused << 13, ..state };
                for mode in [0, 1] {
                    let changed = comparison.change_mode(handset, mode);
                    let due = if (settings.config, mode) == (5, 1) { 5 } else { 0 };
                    assert_eq!(changed.refusal, due, "{handset:?} to mode {mode}");
                    hold_bytes(handset, mode, changed);
                }
                let same = comparison.change_mode(handset, handset.settings.mode);
                assert_eq!((same.refusal, same.handset.bytes()), (0, handset.bytes()));
            }
        }
    }
    comparison.finish(13 * 10 * 8 * 3, 13 * 10 * 8 * 3 - 10 * 8);
}

/// Every value of every byte of a handset, for a feed of nothing, with the cause of a silence
/// too, and for changes to a mode and to another number.
#[test]
fn every_byte_of_a_handset() {
    let model = Model::new();
    let mut comparison = Comparison::with(&model);
    let mut random = Random::new(22);
    for (settings, subframe) in [
        (Settings::plain(3, 50, 10, 0, 2).with_scheduled(9), 2),
        (Settings::plain(4, 6, 300, 1, 1).with_scheduled(0), 3),
        (Settings::plain(5, 110, 2047, 0, 2).with_scheduled(3), 2),
        (Settings::plain(1, 50, 10, 1, 2).with_scheduled(9).with_special(1, 4), 0),
    ] {
        let bytes = full(settings, subframe, &mut random).bytes();
        for at in 0..bytes.len() {
            for value in 0..=255 {
                let mut changed = bytes;
                changed[at] = value;
                let handset = Handset::from_bytes(changed);
                let fed = comparison.feed(handset, Heard::Nothing);
                assert!(fed.refusal == 0 || fed.handset.bytes() == changed, "{handset:?}");
                comparison.silence(handset);
                for mode in [0, 1, 2] {
                    let changed = comparison.change_mode(handset, mode);
                    hold_bytes(handset, mode, changed);
                    let same_verdict = changed.refusal == fed.refusal;
                    assert!(same_verdict || [4, 5, 24].contains(&changed.refusal), "{handset:?}");
                }
            }
        }
    }
    comparison.finish_with(4 * 74 * 256 * 5, &[0, 4, 5, 8, 24], &[0, 1, 2]);
}

/// Each field of a full handset with each of its special values, in every subframe of every
/// configuration, changed to both modes and to other numbers.
#[test]
fn damaged_states() {
    let model = Model::new();
    let mut comparison = Comparison::with(&model);
    let mut random = Random::new(23);
    for (at, settings) in every::cell(50, 10, 9).enumerate() {
        let settings = Settings { nrb: [6, 50, 110][at % 3], ..settings };
        for subframe in 0..10 {
            for handset in every::damaged(full(settings, subframe, &mut random)) {
                let refusals = [0, 1, 2, 65535].map(|mode| {
                    let changed = comparison.change_mode(handset, mode);
                    hold_bytes(handset, mode, changed);
                    changed.refusal
                });
                let [to_0, to_1, others @ ..] = refusals;
                let multiplexing = match (handset.settings.config, handset.settings.ports) {
                    (5, _) => 5,
                    (_, 2) => 24,
                    _ => to_0,
                };
                assert_eq!(others, [4, 4], "{handset:?}");
                assert_eq!(to_1, multiplexing, "{handset:?}");
                assert_eq!(to_0, feed_nothing(handset).refusal, "{handset:?}");
            }
        }
    }
    comparison.finish_with(26 * 10 * every::DAMAGED * 4, &[0, 4, 5, 8, 24], &[]);
}

/// What makes a state bad. The handset expects 2, so it remembers 1 and 0 first, and 2, which
/// is uplink, ten ago.
type Damage = fn(&mut Handset);

const DAMAGES: [Damage; 15] = [
    |handset| handset.settings.config = 7,
    |handset| handset.settings.nrb = 5,
    |handset| handset.settings.n1 = 2048,
    |handset| handset.settings.mode = 2,
    |handset| handset.settings.blocks = 0,
    |handset| handset.settings.scheduled = 65534,
    |handset| handset.settings.prefix = 2,
    |handset| handset.settings.special = 9,
    |handset| handset.next = 10,
    |handset| handset.past[0].kind = 4,
    |handset| handset.past[0] = Slot::grant(255, 1, 1),
    |handset| handset.past[0] = Slot::grant(0, 5, 1),
    |handset| handset.past[9] = Slot::release(0, 1),
    |handset| (handset.past[0], handset.past[1]) = (Slot::block(1), Slot::block(1)),
    |handset| handset.modes = 1,
];

/// 4 for what is no mode, then 5 for multiplexing in configuration 5, then 8 for a state that
/// is bad in any way: every set of damages, in every configuration.
#[test]
fn four_then_five_then_eight() {
    let mut counts = [0; 4];
    for config in 0..7 {
        let good = Settings::plain(config, 50, 10, 0, 1).with_scheduled(9);
        let good = Handset { next: 2, ..Handset::fresh(good) };
        for set in 0..1 << DAMAGES.len() {
            let mut handset = good;
            for (at, damage) in DAMAGES.iter().enumerate() {
                if set >> at & 1 == 1 {
                    damage(&mut handset);
                }
            }
            for mode in [0, 1, 2, 256, 257, 65535] {
                let (at, number) = match mode {
                    2.. => (1, 4),
                    1 if handset.settings.config == 5 => (2, 5),
                    _ if is_bad(config, set) => (3, 8),
                    _ => (0, 0),
                };
                let changed = change_mode(handset, mode);
                assert_eq!(changed.refusal, number, "{handset:?} to mode {mode}");
                hold_bytes(handset, mode, changed);
                counts[at] += 1;
            }
        }
    }
    println!("not refused, 4, 5, 8: {counts:?}");
    let [good, four, five, eight] = counts;
    let sets = 1 << DAMAGES.len();
    // In configuration 5 half of the sets leave the configuration.
    assert_eq!((four, five), (7 * sets * 4, sets / 2));
    assert_eq!(eight, 7 * sets * 2 - five - good);
    assert!(good > 0 && eight > 0);
}

/// Whether a set of damages makes a bad state. The two blocks of damage 13 come in place of
/// what 9 to 11 did to a slot. They are bad where 0 and 1 are in one window, as in
/// configurations 1, 2, 4 and 5; in the others each is in a window of its own. A remembered
/// mode 1, of damage 14, is bad in configuration 5.
fn is_bad(config: u16, set: usize) -> bool {
    let has = |at: usize| set >> at & 1 == 1;
    let by_slots = match has(13) {
        true => [1, 2, 4, 5].contains(&config),
        false => (9..12).any(has),
    };
    by_slots || has(12) || (0..9).any(has) || has(14) && config == 5
}

/// Windows for which every number of remembered modes is tried: configuration, subframe,
/// largest k, and whether the window is of more than one subframe.
const WINDOWS: [(u16, u16, u32, bool); 11] = [
    (0, 2, 6, false),
    (1, 7, 7, true),
    (1, 8, 4, false),
    (2, 2, 8, true),
    (2, 7, 8, true),
    (3, 2, 11, true),
    (3, 3, 6, true),
    (3, 4, 5, true),
    (4, 2, 12, true),
    (4, 3, 7, true),
    (6, 4, 5, false),
];

/// Every number as the remembered modes. The bit of the largest k decides alone, whatever
/// mode stands; a feed puts the standing mode behind twelve of the bits and drops the rest,
/// and a change leaves all sixteen.
#[test]
fn every_number_as_the_modes() {
    let model = Model::new();
    let mut comparison = Comparison::with(&model);
    for (config, subframe, largest, differ) in WINDOWS {
        for mode in [0, 1] {
            let state = every::granted(&model, Settings::plain(config, 50, 10, mode, 1), subframe);
            let due = [0, Handset::ALL_MULTIPLEXING]
                .map(|modes| answer(&feed_nothing(Handset { modes, ..state })));
            let kind = if differ { Fed::MULTIPLEXED } else { Fed::BUNDLED };
            assert_eq!(due.map(|(kind, ..)| kind), [Fed::BUNDLED, kind], "{state:?}");
            for modes in 0..=65535 {
                let handset = Handset { modes, ..state };
                let fed = comparison.feed(handset, Heard::Nothing);
                let bit = modes / 2u16.pow(largest - 1) % 2;
                assert_eq!(answer(&fed), due[usize::from(bit)], "{handset:?}");
                assert_eq!(fed.handset.modes, modes % 4096 * 2 + mode, "{handset:?}");
                let changed = comparison.change_mode(handset, 1 - mode);
                assert_eq!(changed, Changed::to(handset.in_mode(1 - mode)), "{handset:?}");
            }
        }
    }
    comparison.finish(11 * 2 * 65536 * 2, 11 * 2 * 65536 * 2);
}

/// In configuration 5 one of the thirteen bits makes a bad state, for feeds and for a change,
/// in uplink and in downlink. So eight numbers are left, and a feed drops their bits.
#[test]
fn every_number_as_the_modes_of_configuration_5() {
    let model = Model::new();
    let mut comparison = Comparison::with(&model);
    for subframe in [2, 3] {
        let mut state = every::granted(&model, Settings::plain(5, 50, 10, 0, 1), 2);
        state.next = subframe;
        if subframe == 3 {
            state.past = [Slot::NOTHING; 13];
        }
        let mut good = 0;
        for modes in 0..=65535 {
            let handset = Handset { modes, ..state };
            let fed = comparison.feed(handset, Heard::Nothing);
            let changed = comparison.change_mode(handset, 0);
            let refused = comparison.change_mode(handset, 1);
            assert_eq!(refused, Changed::refused(5, handset), "{handset:?}");
            if modes % 8192 == 0 {
                assert_eq!((fed.refusal, fed.handset.modes), (0, 0), "{handset:?}");
                assert_eq!(changed, Changed::to(handset), "{handset:?}");
                good += 1;
            } else {
                assert_eq!(fed, Fed::refused(8, handset), "{handset:?}");
                assert_eq!(changed, Changed::refused(8, handset), "{handset:?}");
            }
        }
        assert_eq!(good, 8);
    }
    comparison.finish(2 * 3 * 65536, 2 * 2 * 8);
}

/// One remembered mode at every age, in every subframe of configuration 5, for every kind of
/// feed: 8, before 9 and all others too.
#[test]
fn a_remembered_mode_at_every_age() {
    let model = Model::new();
    let mut comparison = Comparison::with(&model);
    let grant = Grant { blocks: 1, first: 1, second: 0, cce: 0, dai: 1 };
    let heard = [
        Heard::Nothing,
        Heard::Grant(grant),
        Heard::Grant(Grant { blocks: 0, cce: 61, dai: 5, ..grant }),
        Heard::Block(Block { blocks: 1, first: 1, second: 0 }),
        Heard::Release(Release { cce: 0, dai: 1 }),
    ];
    let cell = Settings::plain(5, 50, 10, 0, 1).with_scheduled(9);
    for next in 0..10 {
        let good = Handset { next, ..Handset::fresh(cell) };
        for bit in 0..13 {
            let handset = Handset { modes: 1 << bit, ..good };
            for heard in heard {
                let fed = comparison.feed(handset, heard);
                assert_eq!(fed, Fed::refused(8, handset), "{heard:?}");
            }
            let changed = comparison.change_mode(handset, 0);
            assert_eq!(changed, Changed::refused(8, handset));
        }
        for bit in 13..16 {
            let handset = Handset { modes: 1 << bit, ..good };
            assert_eq!(comparison.feed(handset, Heard::Nothing).refusal, 0, "{handset:?}");
            assert_eq!(comparison.change_mode(handset, 0), Changed::to(handset));
        }
    }
    comparison.finish(10 * (13 * 6 + 3 * 2), 10 * 3 * 2);
}

/// Every window: each bit alone, and all but one. Only that of the largest k moves the
/// answer, where there is more than one subframe.
#[test]
fn each_bit_of_every_window() {
    let model = Model::new();
    let mut comparison = Comparison::with(&model);
    let windows: Vec<_> = model.windows().iter().filter(|window| window.config != 5).collect();
    assert_eq!(windows.len(), 20);
    for window in windows {
        let largest = *window.k.iter().max().expect("a window has subframes");
        for mode in [0, 1] {
            let state =
                every::granted(&model, Settings::plain(window.config, 50, 10, mode, 2), window.n);
            let due = |modes| answer(&feed_nothing(Handset { modes, ..state }));
            let [bundled, other] = [0, Handset::ALL_MULTIPLEXING].map(due);
            assert_eq!(bundled != other, window.size() > 1, "{window:?}");
            for bit in 0..16 {
                let decides = bit + 1 == largest;
                let alone = Handset { modes: 1 << bit, ..state };
                let fed = comparison.feed(alone, Heard::Nothing);
                assert_eq!(answer(&fed), if decides { other } else { bundled }, "{alone:?}");
                let all_but_one = Handset { modes: !(1 << bit), ..state };
                let fed = comparison.feed(all_but_one, Heard::Nothing);
                assert_eq!(answer(&fed), if decides { bundled } else { other }, "{all_but_one:?}");
            }
        }
    }
    comparison.finish(20 * 2 * 16 * 2, 20 * 2 * 16 * 2);
}
