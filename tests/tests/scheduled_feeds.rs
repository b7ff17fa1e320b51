//! The feeds of scheduled blocks and releases beside the model: every number of
//! them, states that remember them, damaged ones, and random runs. The whole answer
//! is compared, handset included.

use feedback_tests::compare::{Comparison, BANDWIDTHS, CCES};
use feedback_tests::every;
use feedback_tests::model::{edge, is_short, is_uplink, Model, NRB};
use feedback_tests::random::Random;
use feedback_tests::{answered, Block, Fed, Grant, Handset, Heard, Release, Settings, Slot, NONE};

/// 4, 6, 8, 7, 8, 9 and 5 subframes of a frame are downlink, and only configuration
/// 5 has one mode: so many they are over all configurations and modes.
const DOWNLINK: u64 = 2 * (4 + 6 + 8 + 7 + 8 + 5) + 9;

fn expecting(settings: Settings, subframe: u16) -> Handset {
    Handset { next: subframe, ..Handset::fresh(settings) }
}

/// Blocks and releases with every number at its limits, one past them and far away,
/// in every subframe of every configuration, where a resource is set and where none
/// is.
#[test]
fn blocks_and_releases_in_every_subframe() {
    const BLOCKS: [u16; 6] = [0, 1, 2, 3, 257, 65535];
    const FLAGS: [(u16, u16); 5] = [(0, 0), (0, 1), (1, 0), (1, 1), (65535, 256)];
    const DAI: [u16; 8] = [0, 1, 2, 3, 4, 5, 257, 65535];
    let model = Model::new();
    let mut comparison = Comparison::with(&model);
    for (nrb, n1, scheduled) in [(6, 2047, 2046), (110, 1, 0), (50, 10, NONE)] {
        let cces = edge(nrb, 4);
        for settings in every::cell(nrb, n1, scheduled) {
            for handset in (0..10).map(|subframe| expecting(settings, subframe)) {
                for blocks in BLOCKS {
                    for (first, second) in FLAGS {
                        let block = Block { blocks, first, second };
                        comparison.feed(handset, Heard::Block(block));
                    }
                }
                for cce in [0, cces - 1, cces, 255, 256, 65535] {
                    for dai in DAI {
                        comparison.feed(handset, Heard::Release(Release { cce, dai }));
                    }
                }
            }
        }
    }
    // One or two numbers of blocks are allowed, in the two cells with a resource; two
    // CCEs and four DAIs, in all three and with either setting of blocks.
    let blocks = 2 * DOWNLINK * (1 + 2) * 5;
    let releases = 3 * DOWNLINK * 2 * 2 * 4;
    comparison.finish(3 * 26 * 10 * (6 * 5 + 6 * 8), blocks + releases);
}

/// Every bandwidth has its own limit for the first CCE of a release, brought and
/// remembered.
#[test]
fn every_cce_of_every_bandwidth() {
    let model = Model::new();
    let mut comparison = Comparison::with(&model);
    for nrb in NRB {
        let handset = expecting(Settings::plain(5, nrb, 10, 0, 1), 1);
        for cce in 0..=edge(nrb, 4) + 1 {
            comparison.feed(handset, Heard::Release(Release { cce, dai: 1 }));
            let mut remembering = handset;
            remembering.past[0] = Slot { kind: Slot::RELEASE, cce: cce as u8, dai: 1, results: 0 };
            comparison.feed(remembering, Heard::Nothing);
        }
    }
    comparison.finish((CCES + 2 * BANDWIDTHS) * 2, CCES * 2);
}

/// Every 16-bit number as each number of a block and of a release.
#[test]
fn every_number_as_each_argument() {
    let model = Model::new();
    let mut comparison = Comparison::with(&model);
    let settings = Settings::plain(2, 50, 10, 1, 2).with_scheduled(9);
    let block = Block { blocks: 2, first: 1, second: 1 };
    let release = Release { cce: 5, dai: 3 };
    for subframe in [0, 2] {
        let handset = expecting(settings, subframe);
        for any in 0..=65535 {
            comparison.feed(handset, Heard::Block(Block { blocks: any, ..block }));
            comparison.feed(handset, Heard::Block(Block { first: any, ..block }));
            comparison.feed(handset, Heard::Block(Block { second: any, ..block }));
            comparison.feed(handset, Heard::Release(Release { cce: any, ..release }));
            comparison.feed(handset, Heard::Release(Release { dai: any, ..release }));
        }
    }
    // In subframe 0 two numbers of blocks, all flags, 61 CCEs and 4 DAIs are taken;
    // 2 is uplink.
    comparison.finish(2 * 5 * 65536, 2 + 2 * 65536 + 61 + 4);
}

const REMEMBERED: Slot = Slot { kind: Slot::BLOCK, cce: 0, dai: 0, results: 1 };

/// When the subframe so long before the next is answered, counted from the next; or
/// nothing, for an uplink one.
fn answered_in(settings: Settings, next: u16, ago: u16) -> Option<i32> {
    let answer = answered(settings, (next + 20 - ago) % 10);
    (answer.refusal == 0).then(|| i32::from(answer.k) - i32::from(ago))
}

/// The downlink subframes that a handset remembers, each with the time of its answer.
fn downlink_ago(settings: Settings, next: u16) -> Vec<(u16, i32)> {
    (1..=13).filter_map(|ago| Some((ago, answered_in(settings, next, ago)?))).collect()
}

/// Every two remembered blocks, of one window or of two, in answered windows and in
/// open ones: a bad state exactly where the window is one.
#[test]
fn two_remembered_blocks() {
    let model = Model::new();
    let mut comparison = Comparison::with(&model);
    let mut counts = [0; 2];
    for settings in every::cell(50, 10, 9) {
        for next in 0..10 {
            let downlink = downlink_ago(settings, next);
            for (one, time) in &downlink {
                for (other, other_time) in downlink.iter().filter(|(other, _)| other > one) {
                    let mut handset = expecting(settings, next);
                    for ago in [one, other] {
                        handset.past[usize::from(*ago) - 1] = REMEMBERED;
                    }
                    let refusal = comparison.feed(handset, Heard::Nothing).refusal;
                    let due = if time == other_time { 8 } else { 0 };
                    assert_eq!(refusal, due, "{settings:?}, next {next}, {one} and {other} ago");
                    counts[usize::from(due == 8)] += 1;
                }
            }
        }
    }
    let [good, bad] = counts;
    println!("{bad} pairs of one window, {good} of two");
    let both_modes = 2 * pairs(&[7, 6])
        + 2 * pairs(&[8, 7, 4, 6])
        + pairs(&[7, 6, 11])
        + pairs(&[6, 5])
        + pairs(&[5, 4])
        + pairs(&[12, 8, 7, 11])
        + pairs(&[6, 5, 4, 7]);
    assert_eq!(bad, 2 * (2 * both_modes + pairs(&[13, 12, 9, 8, 7, 5, 4, 11, 6])));
    assert!(good > bad);
}

/// How often two subframes of a window are remembered together, over all subframes
/// that may be next: 13 − d times if they lie d apart.
fn pairs(k: &[u64]) -> u64 {
    let of_one = |one: &u64| k.iter().filter(|k| *k < one).map(|k| 13 - (one - k)).sum::<u64>();
    k.iter().map(of_one).sum()
}

/// A block beside a remembered one: refused 18 exactly where both are in one window.
/// Grants and releases are not refused for it, and where no resource is set the
/// state is bad.
#[test]
fn a_block_beside_a_remembered_one() {
    let model = Model::new();
    let mut comparison = Comparison::with(&model);
    let mut counts = [0; 2];
    for settings in every::cell(50, 10, 9) {
        for next in (0..10).filter(|next| !is_uplink(settings.config, *next)) {
            for (ago, time) in downlink_ago(settings, next) {
                let mut handset = expecting(settings, next);
                handset.past[usize::from(ago) - 1] = REMEMBERED;
                let block = Heard::Block(Block { blocks: 1, first: 1, second: 0 });
                let same = answered_in(settings, next, 0) == Some(time);
                let due = if same { (18, 0) } else { (0, Fed::TAKEN) };
                let fed = comparison.feed(handset, block);
                assert_eq!((fed.refusal, fed.kind), due, "{settings:?}, {next}, {ago} ago");
                counts[usize::from(same)] += 1;
                let grant = Grant { blocks: 1, first: 0, second: 0, cce: 60, dai: 4 };
                let release = Release { cce: 60, dai: 4 };
                for other in [Heard::Grant(grant), Heard::Release(release), Heard::Nothing] {
                    assert_eq!(comparison.feed(handset, other).kind, Fed::TAKEN, "{other:?}");
                }
                let unset =
                    Handset { settings: Settings { scheduled: NONE, ..settings }, ..handset };
                assert_eq!(comparison.feed(unset, block), Fed::refused(8, unset));
                assert_eq!(comparison.feed(unset, Heard::Nothing), Fed::refused(8, unset));
            }
        }
    }
    let [first, second] = counts;
    println!("{second} are second in their window, {first} are not");
    // Each of the M positions of a window after the first in time has all before it:
    // M × (M − 1) / 2 pairs, in four windows of M = 2, one of 3 and four of 4 in both
    // modes, and in that of 9.
    let pairs = 2 * (4 + 3 + 4 * 6) + 36;
    assert_eq!(second, 2 * pairs);
    assert!(first > second);
}

/// A handset that heard something in each of the last 13 downlink or special
/// subframes, grants, releases and one block in each window, and expects a subframe.
fn full(
    settings: Settings,
    subframe: u16,
    comparison: &mut Comparison,
    random: &mut Random,
) -> Handset {
    let mut handset = Handset::fresh(settings);
    for _ in 0..20 + subframe {
        let heard = match (is_uplink(settings.config, handset.next), random.below(3)) {
            (true, _) => Heard::Nothing,
            (_, 0) => Heard::Grant(random.grant(settings)),
            (_, 1) => Heard::Release(random.release(settings)),
            _ => Heard::Block(random.block(settings)),
        };
        let fed = comparison.feed(handset, heard);
        handset = match fed.refusal {
            0 => fed.handset,
            _ => comparison.feed(handset, Heard::Grant(random.grant(settings))).handset,
        };
    }
    assert_eq!(handset.next, subframe);
    handset
}

/// Each field of a full handset with each of its special values, in every subframe
/// of every configuration, fed with everything that is allowed and with what meets
/// every cause there is.
#[test]
fn damaged_states() {
    let model = Model::new();
    let mut comparison = Comparison::with(&model);
    let mut random = Random::new(6);
    let mut fed = 0;
    let wrong_block = Heard::Block(Block { blocks: 0, first: 0, second: 0 });
    let wrong_release = Heard::Release(Release { cce: 65535, dai: 0 });
    for (at, settings) in every::cell(50, 10, 9).enumerate() {
        let settings = Settings { nrb: [6, 50, 110][at % 3], ..settings };
        for subframe in 0..10 {
            let full = full(settings, subframe, &mut comparison, &mut random);
            let prepared = comparison.total();
            for handset in every::damaged(full) {
                let block = Heard::Block(random.block(settings));
                let release = Heard::Release(random.release(settings));
                for heard in [Heard::Nothing, block, release, wrong_block, wrong_release] {
                    comparison.feed(handset, heard);
                }
            }
            fed += comparison.total() - prepared;
        }
    }
    assert_eq!(fed, 26 * 10 * every::DAMAGED * 5);
    let refusals = [0, 8, 9, 10, 11, 18];
    comparison.finish_with(comparison.total(), &refusals, &[0, 1, 2, 3, 4, 5]);
}

/// Every byte as every field of every slot.
#[test]
fn every_byte_of_every_slot() {
    let model = Model::new();
    let mut comparison = Comparison::with(&model);
    let mut random = Random::new(7);
    let mut fed = 0;
    for settings in [
        Settings::plain(5, 110, 2047, 0, 2).with_scheduled(0),
        Settings::plain(2, 50, 10, 1, 1).with_scheduled(9),
        Settings::plain(4, 6, 1, 1, 2).with_scheduled(0),
    ] {
        let handset = full(settings, 2, &mut comparison, &mut random);
        let prepared = comparison.total();
        for at in 0..13 {
            for byte in 0..=255 {
                let set: [fn(&mut Slot, u8); 4] = [
                    |slot, byte| slot.kind = byte,
                    |slot, byte| slot.cce = byte,
                    |slot, byte| slot.dai = byte,
                    |slot, byte| slot.results = byte,
                ];
                for set in set {
                    let mut changed = handset;
                    set(&mut changed.past[at], byte);
                    comparison.feed(changed, Heard::Nothing);
                }
            }
        }
        fed += comparison.total() - prepared;
    }
    assert_eq!(fed, 3 * 13 * 256 * 4);
    comparison.finish_with(comparison.total(), &[0, 8], &[0, 1, 2]);
}

/// What the station of a random run sends next: nothing, something of any numbers,
/// or something allowed, with a DAI by the rule, or else with any. In a special
/// subframe that is too short for data, a release.
fn sent(handset: Handset, dai: Option<u16>, random: &mut Random) -> Heard {
    let settings = handset.settings;
    let kind = random.below(16);
    if kind < 3 || (kind > 5 && is_uplink(settings.config, handset.next)) {
        return Heard::Nothing;
    }
    let is_short = is_short(settings, handset.next);
    match kind {
        3..=5 => random.wild_heard(settings, 3),
        6..=9 if !is_short => {
            let grant = random.grant(settings);
            Heard::Grant(Grant { dai: dai.unwrap_or(grant.dai), ..grant })
        }
        10..=12 if !is_short => Heard::Block(random.block(settings)),
        _ => {
            let release = random.release(settings);
            Heard::Release(Release { dai: dai.unwrap_or(release.dai), ..release })
        }
    }
}

/// Random runs from a fresh handset, first windows included. Some things are lost,
/// some feeds refused, and some go to a damaged state. A damaged state that is not
/// refused may go on as the run's handset.
#[test]
fn random_runs() {
    const RUNS: u64 = 1000;
    const FEEDS: u64 = 200;
    let model = Model::new();
    let mut comparison = Comparison::with(&model);
    let (mut on_scheduled, mut short_releases) = (0, 0);
    for run in 0..RUNS {
        let mut random = Random::new(1 << 40 | run);
        let mut handset = comparison.make(random.scheduled_settings());
        let by_rule = random.once_in(2);
        let mut pdcchs = 0;
        for _ in 0..FEEDS {
            let dai = by_rule.then_some(pdcchs % 4 + 1);
            let sent = sent(handset, dai, &mut random);
            let heard = if random.once_in(5) { Heard::Nothing } else { sent };
            if random.once_in(10) {
                let fed = comparison.feed(random.damage(handset), heard);
                if fed.refusal == 0 && random.once_in(3) {
                    handset = fed.handset;
                }
                continue;
            }
            let fed = comparison.feed(handset, heard);
            let is_taken_release = fed.refusal == 0 && matches!(heard, Heard::Release(_));
            let was_short = is_short(handset.settings, handset.next);
            short_releases += u64::from(is_taken_release && was_short);
            handset = fed.handset;
            let is_reply = [Fed::BUNDLED, Fed::MULTIPLEXED].contains(&fed.kind);
            on_scheduled += u64::from(is_reply && fed.resource == handset.settings.scheduled);
            // Most windows lie between two uplink subframes.
            pdcchs = match fed.kind {
                0 => pdcchs,
                Fed::TAKEN => {
                    pdcchs + u16::from(matches!(sent, Heard::Grant(_) | Heard::Release(_)))
                }
                _ => 0,
            };
        }
    }
    println!("{on_scheduled} replies on the scheduled resource");
    println!("{short_releases} releases in special subframes too short for data");
    assert!(on_scheduled > 1000 && short_releases > 1000);
    let refusals = [0, 8, 9, 10, 11, 12, 18, 20];
    comparison.finish_with(RUNS * (1 + FEEDS), &refusals, &[0, 1, 2, 3, 4, 5]);
}
