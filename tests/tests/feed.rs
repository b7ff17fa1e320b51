//! The feeds of a handset beside the model: every number of a grant, damaged
//! states, and random runs. The whole answer is compared, handset included.

use feedback_tests::compare::{Comparison, BANDWIDTHS, CCES};
use feedback_tests::every;
use feedback_tests::model::{edge, is_short, is_uplink, Model, NRB};
use feedback_tests::random::Random;
use feedback_tests::{Fed, Grant, Handset, Settings, Slot};

/// The 26 ways to set configuration, mode and blocks.
fn cells(nrb: u16, n1: u16) -> impl Iterator<Item = Settings> {
    let modes = |config| (0..=u16::from(config != 5)).map(move |mode| (config, mode));
    (0..7).flat_map(modes).flat_map(move |(config, mode)| {
        [1, 2].map(|blocks| Settings::plain(config, nrb, n1, mode, blocks))
    })
}

/// A handset that has heard nothing and expects a subframe: a fresh one with `next`
/// set, as the header says.
fn expecting(comparison: &mut Comparison, settings: Settings, subframe: u16) -> Handset {
    let mut handset = comparison.make(settings);
    for _ in 0..subframe {
        handset = comparison.feed(handset, None).handset;
    }
    assert_eq!(handset, Handset { next: subframe, ..Handset::fresh(settings) });
    handset
}

/// A handset that heard an allowed grant in each of the last 13 downlink or
/// special subframes, and expects a subframe.
fn full(
    comparison: &mut Comparison,
    settings: Settings,
    subframe: u16,
    random: &mut Random,
) -> Handset {
    let mut handset = comparison.make(settings);
    for _ in 0..20 + subframe {
        let grant = random.grant(settings);
        let fed = comparison.feed(handset, Some(grant));
        handset = match fed.refusal {
            9 => comparison.feed(handset, None).handset,
            _ => fed.handset,
        };
    }
    assert_eq!(handset.next, subframe);
    handset
}

/// Grants with every number at its limits, one past them and far away, in every
/// subframe of every configuration.
#[test]
fn grants_in_every_subframe() {
    const BLOCKS: [u16; 6] = [0, 1, 2, 3, 257, 65535];
    const FLAGS: [(u16, u16); 5] = [(0, 0), (0, 1), (1, 0), (1, 1), (65535, 256)];
    const DAI: [u16; 8] = [0, 1, 2, 3, 4, 5, 257, 65535];
    let model = Model::new();
    let mut comparison = Comparison::with(&model);
    for (nrb, n1) in [(6, 2047), (110, 0)] {
        let cces = edge(nrb, 4);
        for settings in cells(nrb, n1) {
            for subframe in 0..10 {
                let handset = expecting(&mut comparison, settings, subframe);
                for blocks in BLOCKS {
                    for (first, second) in FLAGS {
                        for cce in [0, cces - 1, cces, 255, 256, 65535] {
                            for dai in DAI {
                                let grant = Grant { blocks, first, second, cce, dai };
                                comparison.feed(handset, Some(grant));
                            }
                        }
                    }
                }
            }
        }
    }
    // Of a grant's numbers, two CCEs and four DAIs are allowed, and one or two
    // numbers of blocks; 4, 6, 8, 7, 8, 9 and 5 subframes of a frame are downlink,
    // and only configuration 5 has one mode.
    let grants = 6 * 5 * 6 * 8;
    let downlink = 2 * (4 + 6 + 8 + 7 + 8 + 5) + 9;
    let taken = downlink * (1 + 2) * 5 * 2 * 4;
    let before = 26 * (0..10).map(|subframe| 1 + subframe).sum::<u64>();
    comparison.finish(2 * (26 * 10 * grants + before), 2 * (taken + before));
}

/// Every bandwidth has its own limit for the first CCE, of a grant brought and of
/// one remembered.
#[test]
fn every_cce_of_every_bandwidth() {
    let model = Model::new();
    let mut comparison = Comparison::with(&model);
    for nrb in NRB {
        let settings = Settings::plain(5, nrb, 10, 0, 1);
        let handset = comparison.make(settings);
        for cce in 0..=edge(nrb, 4) + 1 {
            let grant = Grant { blocks: 1, first: 1, second: 0, cce, dai: 1 };
            let fed = comparison.feed(handset, Some(grant));
            let mut remembering = fed.handset;
            remembering.next = 1;
            remembering.past[0].kind = 1;
            remembering.past[0].cce = cce as u8;
            remembering.past[0].dai = 1;
            comparison.feed(remembering, None);
        }
    }
    let makes = BANDWIDTHS;
    let compared = makes + (CCES + 2 * BANDWIDTHS) * 2;
    comparison.finish(compared, makes + CCES * 2);
}

/// Every 16-bit number as each number of a grant.
#[test]
fn every_number_as_each_argument() {
    let model = Model::new();
    let mut comparison = Comparison::with(&model);
    let settings = Settings::plain(2, 50, 10, 1, 2);
    let valid = Grant { blocks: 2, first: 1, second: 1, cce: 5, dai: 3 };
    for subframe in [0, 2] {
        let handset = expecting(&mut comparison, settings, subframe);
        for any in 0..=65535 {
            comparison.feed(handset, Some(Grant { blocks: any, ..valid }));
            comparison.feed(handset, Some(Grant { first: any, ..valid }));
            comparison.feed(handset, Some(Grant { second: any, ..valid }));
            comparison.feed(handset, Some(Grant { cce: any, ..valid }));
            comparison.feed(handset, Some(Grant { dai: any, ..valid }));
        }
    }
    // In subframe 0 two numbers of blocks, all flags, 61 CCEs and 4 DAIs are taken;
    // 2 is uplink. Two handsets are made, and one is fed twice.
    let before = 2 + 2;
    comparison.finish(2 * 5 * 65536 + before, 2 + 2 * 65536 + 61 + 4 + before);
}

/// Each field of the handset with each of its special values, in every subframe
/// of every configuration, empty and full, fed with nothing, an allowed grant and
/// one that meets every cause there is; and asked for the cause of a silence.
#[test]
fn damaged_states() {
    let model = Model::new();
    let mut comparison = Comparison::with(&model);
    let mut random = Random::new(4);
    let mut fed = 0;
    let all_wrong = Grant { blocks: 0, first: 0, second: 0, cce: 65535, dai: 0 };
    for (at, settings) in cells(50, 10).enumerate() {
        let settings = Settings { nrb: [6, 50, 110][at % 3], ..settings };
        for subframe in 0..10 {
            let empty = expecting(&mut comparison, settings, subframe);
            let full = full(&mut comparison, settings, subframe, &mut random);
            let prepared = comparison.total();
            for handset in every::damaged(empty).into_iter().chain(every::damaged(full)) {
                let grant = random.grant(settings);
                for heard in [None, Some(grant), Some(all_wrong)] {
                    comparison.feed(handset, heard);
                }
                comparison.silence(handset);
            }
            fed += comparison.total() - prepared;
        }
    }
    assert_eq!(fed, 26 * 10 * 2 * every::DAMAGED * (3 + 1));
    comparison.finish_with(comparison.total(), &[0, 8, 9, 10, 20], &[0, 1, 2, 3, 4, 5]);
    println!("silences by cause {:?}", comparison.of_causes());
    assert!(comparison.of_causes().iter().all(|number| *number > 1000));
}

/// Every byte as every field of every slot, fed with nothing and asked for the cause of a
/// silence.
#[test]
fn every_byte_of_every_slot() {
    let model = Model::new();
    let mut comparison = Comparison::with(&model);
    let mut random = Random::new(5);
    let mut fed = 0;
    for settings in [
        Settings::plain(5, 110, 2047, 0, 2),
        Settings::plain(2, 50, 10, 1, 1),
        Settings::plain(4, 6, 0, 1, 2),
    ] {
        let handset = full(&mut comparison, settings, 2, &mut random);
        let prepared = comparison.total();
        for at in 0..13 {
            for byte in 0..=255 {
                let set: [fn(&mut Slot, u8); 4] = [
                    |slot, byte| slot.kind = byte,
                    |slot, byte| slot.cce = byte,
                    |slot, byte| slot.dai = byte,
                    |slot, byte| slot.results = byte,
                ];
                for set in set {
                    let mut changed = handset;
                    set(&mut changed.past[at], byte);
                    comparison.feed(changed, None);
                    comparison.silence(changed);
                }
            }
        }
        fed += comparison.total() - prepared;
    }
    assert_eq!(fed, 3 * 13 * 256 * 4 * 2);
    comparison.finish_with(comparison.total(), &[0, 8], &[0, 1, 2]);
}

/// What the station of a random run sends next: nothing, a grant of any numbers,
/// or an allowed one with a DAI by the rule, or else with any.
fn sent(handset: Handset, dai: Option<u16>, random: &mut Random) -> Option<Grant> {
    let settings = handset.settings;
    match random.below(16) {
        0..=3 => None,
        4..=6 => Some(random.wild_grant(settings, 3)),
        _ if is_uplink(settings.config, handset.next) || is_short(settings, handset.next) => None,
        _ => {
            let grant = random.grant(settings);
            Some(Grant { dai: dai.unwrap_or(grant.dai), ..grant })
        }
    }
}

/// Random runs from a fresh handset, first windows included. Some grants are
/// lost, some feeds refused, and some go to a damaged state. A damaged state that
/// is not refused may go on as the run's handset.
#[test]
fn random_runs() {
    const RUNS: u64 = 1000;
    const FEEDS: u64 = 200;
    let model = Model::new();
    let mut comparison = Comparison::with(&model);
    for run in 0..RUNS {
        let mut random = Random::new(run);
        let mut handset = comparison.make(random.settings());
        let by_rule = random.once_in(2);
        let mut grants = 0;
        for _ in 0..FEEDS {
            let dai = by_rule.then_some(grants % 4 + 1);
            let sent = sent(handset, dai, &mut random);
            let heard = if random.once_in(5) { None } else { sent };
            if random.once_in(10) {
                let fed = comparison.feed(random.damage(handset), heard);
                if fed.refusal == 0 && random.once_in(3) {
                    handset = fed.handset;
                }
            } else {
                let fed = comparison.feed(handset, heard);
                handset = fed.handset;
                // Most windows lie between two uplink subframes.
                grants = match fed.kind {
                    0 => grants,
                    Fed::TAKEN => grants + u16::from(sent.is_some()),
                    _ => 0,
                };
            }
        }
    }
    let kinds = [0, 1, 2, 3, 4, 5];
    comparison.finish_with(RUNS * (1 + FEEDS), &[0, 8, 9, 10, 11, 12, 20], &kinds);
}
