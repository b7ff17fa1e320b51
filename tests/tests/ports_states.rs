//! Lent handsets with two ports: what makes one bad, for every feed and for a mode change; the
//! order 4, 5, 24, 8; every number as the ports and as the remembered modes; every byte of a
//! handset, and damaged ones. What is due is written out here, and some is held to the model
//! too.

use feedback_tests::compare::Comparison;
use feedback_tests::every;
use feedback_tests::model::{is_uplink, Model};
use feedback_tests::random::Random;
use feedback_tests::{
    change_mode, feed, feed_nothing, make, Block, Changed, Fed, Grant, Handset, Heard, Release,
    Settings, NONE,
};
use std::mem::offset_of;

const GRANT: Grant = Grant { blocks: 1, first: 1, second: 0, cce: 0, dai: 1 };

/// Every kind of feed, and some with one thing wrong or with all.
const HEARD: [Heard; 8] = [
    Heard::Nothing,
    Heard::Grant(GRANT),
    Heard::Grant(Grant { blocks: 0, cce: 255, dai: 5, ..GRANT }),
    Heard::Block(Block { blocks: 1, first: 1, second: 0 }),
    Heard::Block(Block { blocks: 3, first: 1, second: 0 }),
    Heard::Release(Release { cce: 0, dai: 1 }),
    Heard::Release(Release { cce: 255, dai: 0 }),
    Heard::Release(Release { cce: 0, dai: 0 }),
];

/// A handset with two ports that heard grants and releases, and expects a subframe.
fn full(settings: Settings, subframe: u16, random: &mut Random) -> Handset {
    let mut handset = make(settings).handset;
    for _ in 0..20 + subframe {
        let heard = match (is_uplink(settings.config, handset.next), random.below(3)) {
            (true, _) => Heard::Nothing,
            (_, 0) => Heard::Release(random.release(settings)),
            _ => Heard::Grant(random.grant(settings)),
        };
        handset = feed(handset, heard).handset;
    }
    assert_eq!((handset.next, handset.settings, handset.modes), (subframe, settings, 0));
    handset
}

/// Holds a change to what is due: a refused one leaves all 74 bytes, and another all but those
/// of the mode.
fn hold_change(handset: Handset, mode: u16, number: u16) -> Changed {
    let changed = change_mode(handset, mode);
    let mut due = handset.bytes();
    if number == 0 {
        let at = offset_of!(Handset, settings) + offset_of!(Settings, mode);
        due[at..at + 2].copy_from_slice(&mode.to_ne_bytes());
    }
    let given = (changed.refusal, changed.handset.bytes());
    assert_eq!(given, (number, due), "{handset:?} to mode {mode}");
    changed
}

/// A bad state: every feed gives 8 and leaves all bytes.
fn hold_bad(handset: Handset) {
    for heard in HEARD {
        let fed = feed(handset, heard);
        let due = Fed::refused(8, handset);
        assert!(
            fed == due && fed.handset.bytes() == handset.bytes(),
            "a feed of {heard:?} to {handset:?} gives {fed:?}"
        );
    }
}

/// Every 16-bit number as the ports of a lent state: of one that may have two, of one with a
/// scheduled resource, of one in mode 1, and of one that remembers mode 1.
#[test]
fn every_number_as_the_ports() {
    let model = Model::new();
    let mut comparison = Comparison::with(&model);
    let cell = Settings::plain(2, 50, 10, 0, 2);
    let may_have_two = every::granted(&model, cell, 2);
    let scheduled = Handset { settings: cell.with_scheduled(9), ..may_have_two };
    let multiplexing = may_have_two.in_mode(1);
    let remembering = Handset { modes: 1 << 5, ..may_have_two };
    let states =
        [(may_have_two, true), (scheduled, false), (multiplexing, false), (remembering, false)];
    let (mut good, mut bad) = (0, 0);
    for (state, may_have_two) in states {
        for ports in 0..=65535 {
            let handset = Handset { settings: state.settings.with_ports(ports), ..state };
            let is_bad = ![1, 2].contains(&ports) || ports == 2 && !may_have_two;
            let number = if is_bad { 8 } else { 0 };
            hold_change(handset, 0, number);
            hold_change(handset, 1, if ports == 2 { 24 } else { number });
            hold_change(handset, 2, 4);
            match is_bad {
                true => hold_bad(handset),
                false => assert_eq!(feed_nothing(handset).refusal, 0, "{handset:?}"),
            }
            if ports < 4 || [257, 258, 32769, 65535].contains(&ports) {
                HEARD.into_iter().for_each(|heard| _ = comparison.feed(handset, heard));
                [0, 1, 2].into_iter().for_each(|mode| _ = comparison.change_mode(handset, mode));
            }
            good += u64::from(!is_bad);
            bad += u64::from(is_bad);
        }
    }
    assert_eq!((good, bad), (5, 4 * 65536 - 5));
    comparison.finish_with(4 * 8 * (8 + 3), &[0, 4, 8, 9, 24], &[0, 1]);
    assert_eq!(comparison.of_kind(Fed::BUNDLED), 5);
}

/// A state with two ports made bad, in one thing at a time: a number of ports that there is
/// not, mode 1, a scheduled resource, and mode 1 at one of the 13 feeds.
fn spoilt(good: Handset) -> Vec<Handset> {
    let with = |settings| Handset { settings, ..good };
    let ports = [0, 3, 257, 258, 65535].map(|ports| with(good.settings.with_ports(ports)));
    let scheduled = [0, 9].map(|resource| with(good.settings.with_scheduled(resource)));
    let remembering = (0..13).map(|bit| Handset { modes: good.modes | 1 << bit, ..good });
    [good.in_mode(1)].into_iter().chain(ports).chain(scheduled).chain(remembering).collect()
}

/// Each of them in every configuration and subframe: 8 for every feed, before 9 and all others
/// too, and for a change to mode 0. The good state is fed as one with one port is.
#[test]
fn bad_states_in_every_subframe() {
    let model = Model::new();
    let mut comparison = Comparison::with(&model);
    let mut random = Random::new(2);
    let mut bad = 0;
    for settings in every::two_port_cell(50, 10) {
        for subframe in 0..10 {
            let good = full(settings, subframe, &mut random);
            let one_port = Handset { settings: settings.with_ports(1), ..good };
            for heard in HEARD {
                let (fed, beside) = (comparison.feed(good, heard), feed(one_port, heard));
                let due = (beside.refusal, beside.kind, beside.resource);
                assert_eq!((fed.refusal, fed.kind, fed.resource), due, "{heard:?}, {good:?}");
            }
            hold_change(good, 0, 0);
            for handset in spoilt(good) {
                hold_bad(handset);
                HEARD.into_iter().for_each(|heard| _ = comparison.feed(handset, heard));
                let multiplexing = match (settings.config, handset.settings.ports) {
                    (5, _) => 5,
                    (_, 2) => 24,
                    _ => 8,
                };
                for (mode, number) in [(0, 8), (1, multiplexing), (2, 4)] {
                    let changed = comparison.change_mode(handset, mode);
                    assert_eq!(changed.refusal, number, "{handset:?} to mode {mode}");
                    hold_change(handset, mode, number);
                }
                bad += 1;
            }
        }
    }
    let states = 14 * 10;
    assert_eq!(bad, states * (1 + 5 + 2 + 13));
    let refusals = [0, 4, 5, 8, 9, 10, 11, 12, 18, 24];
    comparison.finish_with(8 * states + (8 + 3) * bad, &refusals, &[0, 1, 3, 4, 5]);
}

/// What can be wrong with a state, in any set of these. The ports, the mode, a schedule and the
/// remembered modes are bad only beside each other: where there is one port after all, a
/// schedule and mode 1 are good. The bits above the 13 say nothing.
type Damage = fn(&mut Handset);

const DAMAGES: [Damage; 15] = [
    |handset| handset.settings.config = 7,
    |handset| handset.settings.nrb = 5,
    |handset| handset.settings.n1 = 2048,
    |handset| handset.settings.mode = 2,
    |handset| handset.settings.mode = 1,
    |handset| handset.settings.blocks = 0,
    |handset| handset.settings.scheduled = 9,
    |handset| handset.settings.special = 9,
    |handset| handset.next = 10,
    |handset| handset.past[0].kind = 4,
    |handset| handset.modes = 1 << 12,
    |handset| handset.modes |= 7 << 13,
    |handset| handset.settings.ports = 1,
    |handset| handset.settings.ports = 0,
    |handset| handset.settings.ports = 3,
];

/// Whether a set of damages makes a bad state, and how many ports it has then. A later damage
/// to the same number comes in place of an earlier one.
fn judged(config: u16, set: usize) -> (bool, u16) {
    let has = |at: usize| set >> at & 1 == 1;
    let ports = match (has(12), has(13), has(14)) {
        (_, _, true) => 3,
        (_, true, _) => 0,
        (true, ..) => 1,
        _ => 2,
    };
    let mode = if has(4) { 1 } else { 2 * u16::from(has(3)) };
    let by_itself = [0, 1, 2, 5, 7, 8, 9].into_iter().any(has) || mode == 2;
    let beside = match ports {
        1 => config == 5 && (mode == 1 || has(10)),
        2 => mode == 1 || has(6) || has(10),
        _ => true,
    };
    (by_itself || beside, ports)
}

/// 4 for what is no mode, then 5 for multiplexing in configuration 5, then 24 for multiplexing
/// with two ports, then 8 for a state that is bad in any way: every set of damages, in every
/// configuration.
#[test]
fn four_five_twenty_four_eight() {
    let mut counts = [0; 25];
    for config in 0..7 {
        let good = Settings::plain(config, 50, 10, 0, 1).with_ports(2);
        let good = Handset { next: 2, ..Handset::fresh(good) };
        for set in 0..1 << DAMAGES.len() {
            let mut handset = good;
            for (_, damage) in DAMAGES.iter().enumerate().filter(|(at, _)| set >> at & 1 == 1) {
                damage(&mut handset);
            }
            let (is_bad, ports) = judged(config, set);
            for mode in [0, 1, 2, 257, 65535] {
                let number = match mode {
                    2.. => 4,
                    1 if handset.settings.config == 5 => 5,
                    1 if ports == 2 => 24,
                    _ if is_bad => 8,
                    _ => 0,
                };
                hold_change(handset, mode, number);
                counts[usize::from(number)] += 1;
            }
            let fed = feed_nothing(handset);
            assert_eq!(fed.refusal, if is_bad { 8 } else { 0 }, "{handset:?}");
        }
    }
    println!("by refusal {counts:?}");
    let sets = 1 << DAMAGES.len();
    // In configuration 5 half of the sets leave the configuration. One set in eight leaves the
    // two ports, in the six other configurations and where 5 has become 7.
    assert_eq!((counts[4], counts[5]), (7 * sets * 3, sets / 2));
    assert_eq!(counts[24], (6 * sets + sets / 2) / 8);
    // Good is what has two ports and nothing wrong, with the unused bits or without; and what
    // has one port, with them or without and with a schedule or not, in one of three ways to
    // get a mode, and remembering another or not. In configuration 5 one way is left, and
    // nothing to remember. To mode 1 goes what has one port in the other configurations.
    let (two_ports, one_port, one_port_of_5) = (7 * 2, 6 * 2 * 2 * 3 * 2, 2 * 2);
    assert_eq!(counts[0], two_ports + 2 * one_port + one_port_of_5);
    assert_eq!(counts.iter().sum::<u64>(), 7 * sets * 5);
}

/// Every number as the remembered modes, in every configuration: one of the 13 bits makes a bad
/// state, whatever window it is in, and the three above say nothing. So eight numbers are left;
/// they are answered as 0 is, and a feed drops their bits.
#[test]
fn every_number_as_the_modes() {
    let model = Model::new();
    let mut comparison = Comparison::with(&model);
    let mut good = 0;
    for config in 0..7 {
        let state = every::granted(&model, Settings::plain(config, 50, 10, 0, 1).with_ports(2), 2);
        let due = feed_nothing(state);
        assert_eq!((due.kind, due.second), (Fed::BUNDLED, due.resource + 1), "{state:?}");
        let multiplexing = if config == 5 { 5 } else { 24 };
        for modes in 0..=65535 {
            let handset = Handset { modes, ..state };
            let fed = feed_nothing(handset);
            let refusal = if modes % 8192 == 0 { 0 } else { 8 };
            match refusal {
                0 => assert_eq!(fed, due, "{handset:?}"),
                _ => assert_eq!(fed, Fed::refused(8, handset), "{handset:?}"),
            }
            hold_change(handset, 0, refusal);
            hold_change(handset, 1, multiplexing);
            if modes % 61 == 0 || refusal == 0 {
                comparison.feed(handset, Heard::Nothing);
                comparison.change_mode(handset, 0);
                comparison.change_mode(handset, 1);
            }
            good += u64::from(refusal == 0);
        }
    }
    assert_eq!(good, 7 * 8);
    // Of the multiples of 61 only 0 is one of the eight.
    comparison.finish(7 * (1075 + 7) * 3, 7 * 8 * 2);
}

/// Every value of every byte of a handset with two ports, for a feed of nothing and for changes
/// to each mode and to another number.
#[test]
fn every_byte_of_a_handset() {
    let model = Model::new();
    let mut comparison = Comparison::with(&model);
    let mut random = Random::new(3);
    for (settings, subframe) in [
        (Settings::plain(3, 50, 10, 0, 2), 2),
        (Settings::plain(5, 110, 2047, 0, 1), 2),
        (Settings::plain(1, 6, 300, 0, 2), 0),
    ] {
        let bytes = full(settings.with_ports(2), subframe, &mut random).bytes();
        for at in 0..bytes.len() {
            for value in 0..=255 {
                let mut changed = bytes;
                changed[at] = value;
                let handset = Handset::from_bytes(changed);
                let fed = comparison.feed(handset, Heard::Nothing);
                assert!(fed.refusal == 0 || fed.handset.bytes() == changed, "{handset:?}");
                for mode in [0, 1, 2] {
                    let number = comparison.change_mode(handset, mode).refusal;
                    hold_change(handset, mode, number);
                    let due = match (mode, handset.settings.config, handset.settings.ports) {
                        (2, ..) => 4,
                        (1, 5, _) => 5,
                        (1, _, 2) => 24,
                        _ => fed.refusal,
                    };
                    assert_eq!(number, due, "{handset:?} to mode {mode}");
                }
            }
        }
    }
    comparison.finish_with(3 * 74 * 256 * 4, &[0, 4, 5, 8, 24], &[0, 1, 3, 4]);
}

/// Each field of a full handset with each of its special values, in every subframe of every
/// configuration. Where one port is left, a schedule and the other mode are good.
#[test]
fn damaged_states() {
    let model = Model::new();
    let mut comparison = Comparison::with(&model);
    let mut random = Random::new(4);
    for (at, settings) in every::two_port_cell(50, 10).enumerate() {
        let settings = Settings { nrb: [6, 50, 110][at % 3], ..settings };
        for subframe in 0..10 {
            for handset in every::damaged(full(settings, subframe, &mut random)) {
                let heard = random.one_of(&HEARD);
                let refusal = comparison.feed(handset, Heard::Nothing).refusal;
                let fed = comparison.feed(handset, heard);
                assert_eq!(fed.refusal == 8, refusal == 8, "{heard:?}, {handset:?}");
                for mode in [0, 1, 257] {
                    let number = comparison.change_mode(handset, mode).refusal;
                    hold_change(handset, mode, number);
                }
                let Settings { scheduled, ports, .. } = handset.settings;
                assert!(refusal == 8 || ports == 1 || scheduled == NONE, "{handset:?}");
            }
        }
    }
    let refusals = [0, 4, 5, 8, 9, 10, 11, 12, 18, 24];
    comparison.finish_with(14 * 10 * every::DAMAGED * 5, &refusals, &[0, 1, 3, 4, 5]);
}
