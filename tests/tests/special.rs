//! Special subframes too short for data: every prefix and special configuration in and
//! around its range, in every call, subframe and window, beside the model. What is due
//! is written out here once more, and the answers are counted. Some runs are worked by
//! hand.

use feedback_tests::compare::{Comparison, Lent, POSITIONS, WINDOWS};
use feedback_tests::every::{self, MODE_AND_BLOCKS};
use feedback_tests::form::Form;
use feedback_tests::model::{edge, is_uplink, Model, Window};
use feedback_tests::random::Random;
use feedback_tests::{
    answered, claims, claims_bits, feed, feed_grant, feed_nothing, feed_release, feed_scheduled,
    inverse, make, reading, resource, window, Block, Fed, Grant, Handset, Heard, ReadingAnswer,
    Release, Settings, Slot, NONE, NOT_TOLD,
};

const PREFIXES: [u16; 5] = [0, 1, 2, 3, 65535];
const SPECIALS: [u16; 12] = [0, 1, 2, 3, 4, 5, 6, 7, 8, 9, 10, 65535];

/// The pairs of them: how many there are, how many are allowed, and how many of these
/// are short.
const PAIRS: u64 = 5 * 12;
const ALLOWED: u64 = 9 + 7;
const SHORT: u64 = 4;

/// With the normal prefix and with the extended one, a letter for each special
/// configuration that there is: `s` where no data is allowed, `d` where it is.
const LETTERS: [&str; 2] = ["sddddsddd", "sdddsdd"];

/// The special subframes of each configuration.
const SUBFRAMES: [&[u16]; 7] = [&[1, 6], &[1, 6], &[1, 6], &[1], &[1], &[1], &[1, 6]];

/// In the 26 cells of every::cell: how many windows there are, how many downlink
/// subframes in a frame, and how many special ones. Configuration 5 has one mode.
const CELLS: u64 = 26;
const CELL_WINDOWS: u64 = 2 * (2 * WINDOWS - 1);
const CELL_DOWNLINK: u64 = 2 * (2 * POSITIONS - 9);
const CELL_SPECIAL: u64 = 2 * (2 * (2 + 2 + 2 + 1 + 1 + 2) + 1);

fn pairs() -> impl Iterator<Item = (u16, u16)> {
    PREFIXES.into_iter().flat_map(|prefix| SPECIALS.map(|special| (prefix, special)))
}

/// The letter of prefix and special configuration; none where 19 is due.
fn letter(settings: Settings) -> Option<char> {
    let letters = LETTERS.get(usize::from(settings.prefix))?;
    letters.chars().nth(settings.special.into())
}

fn is_short(settings: Settings, subframe: u16) -> bool {
    let is_special = SUBFRAMES[usize::from(settings.config)].contains(&subframe);
    is_special && letter(settings) == Some('s')
}

fn expecting(settings: Settings, next: u16) -> Handset {
    Handset { next, ..Handset::fresh(settings) }
}

const GRANT: Grant = Grant { blocks: 1, first: 1, second: 0, cce: 0, dai: 1 };
const BLOCK: Block = Block { blocks: 1, first: 1, second: 0 };
const RELEASE: Release = Release { cce: 0, dai: 1 };

#[test]
fn pairs_are_as_counted() {
    let letters = |each: fn(Option<char>) -> bool| {
        let cell = Settings::plain(1, 50, 10, 0, 1);
        let settings = pairs().map(move |(prefix, special)| cell.with_special(prefix, special));
        settings.filter(|settings| each(letter(*settings))).count() as u64
    };
    assert_eq!(letters(|_| true), PAIRS);
    assert_eq!(letters(|letter| letter.is_some()), ALLOWED);
    assert_eq!(letters(|letter| letter == Some('s')), SHORT);
    assert_eq!(every::cell(50, 10, 9).count() as u64, CELLS);
}

/// Every pair in every call that takes settings, with every subframe and the number
/// past them.
#[test]
fn every_pair_in_every_call() {
    let model = Model::new();
    let mut comparison = Comparison::with(&model);
    let mut lent = Lent::new(1);
    for (prefix, special) in pairs() {
        for settings in every::cell(6, 10, 9) {
            let settings = settings.with_special(prefix, special);
            comparison.make(settings);
            for n in 0..=10 {
                comparison.window(settings, n);
                comparison.answered(settings, n);
                comparison.resource(settings, n, 0, 0);
                comparison.inverse(settings, n, 10);
                comparison.reading(settings, n, NOT_TOLD, 10, 1, 0);
                comparison.claims(Form::Bytes, &mut lent, settings, n, &[0], &[7; 65]);
                comparison.claims(Form::Bits, &mut lent, settings, n, &[0], &[7; 10]);
            }
        }
    }
    // A list of claims is lent in two ways. Position 0 has a symbol 10 in every window.
    let calls = 11 * (5 + 2 + 2);
    let answers = CELLS + 8 * CELL_WINDOWS + CELL_DOWNLINK;
    comparison.finish(PAIRS * CELLS * (1 + calls), ALLOWED * answers);
    assert_eq!(comparison.refused(19), (PAIRS - ALLOWED) * CELLS * (1 + calls));
    assert_eq!(comparison.refused(7), ALLOWED * (CELLS * (1 + calls) - answers));
}

/// 19 stands between 17 and 7: with each cause before it that one is given, with a
/// subframe that has no window 19, in every call.
#[test]
fn nineteen_in_its_place() {
    let cell = Settings::plain(1, 50, 10, 0, 1).with_scheduled(9);
    let before = [
        (1, Settings { config: 7, ..cell }),
        (2, Settings { nrb: 5, ..cell }),
        (3, Settings { n1: 2048, ..cell }),
        (4, Settings { mode: 2, ..cell }),
        (5, Settings { mode: 1, config: 5, ..cell }),
        (6, Settings { blocks: 3, ..cell }),
        (17, Settings { scheduled: 10, ..cell }),
        (19, cell),
    ];
    let mut given = 0;
    for (number, settings) in before {
        for (prefix, special) in pairs() {
            let settings = settings.with_special(prefix, special);
            if letter(settings).is_some() {
                continue;
            }
            for n in [2, 4, 10, 65535] {
                let refusals = [
                    window(settings, n).refusal,
                    answered(settings, n).refusal,
                    resource(settings, n, 9, 61).refusal,
                    inverse(settings, n, 9).refusal,
                    reading(settings, n, 9, 8, 2, 2).refusal,
                    claims(settings, n, &[65535], &mut []).refusal,
                    claims_bits(settings, n, &[65535], &mut []).refusal,
                    make(settings).refusal,
                ];
                assert_eq!(refusals, [number; 8], "{settings:?}, n {n}");
                given += refusals.len() as u64;
            }
            assert_eq!(make(settings).handset, Handset::NONE, "{settings:?}");
        }
    }
    assert_eq!(given, 8 * (PAIRS - ALLOWED) * 4 * 8);
}

/// What is fed in these tests, with the causes from 10 on that each meets where a
/// resource is set and at most one block is carried.
const FED: [(Heard, u16); 11] = [
    (Heard::Nothing, 0),
    (Heard::Grant(GRANT), 0),
    (Heard::Grant(Grant { blocks: 0, cce: 61, dai: 5, ..GRANT }), 10),
    (Heard::Grant(Grant { cce: 61, dai: 5, ..GRANT }), 11),
    (Heard::Grant(Grant { dai: 5, ..GRANT }), 12),
    (Heard::Block(BLOCK), 0),
    (Heard::Block(Block { blocks: 3, ..BLOCK }), 10),
    (Heard::Block(Block { blocks: 0, ..BLOCK }), 10),
    (Heard::Release(RELEASE), 0),
    (Heard::Release(Release { cce: 61, dai: 5 }), 11),
    (Heard::Release(Release { dai: 5, ..RELEASE }), 12),
];

fn is_data(heard: Heard) -> bool {
    matches!(heard, Heard::Grant(_) | Heard::Block(_))
}

/// The refusal of a feed, written out: 8, 9, 20, then what comes after.
fn due(handset: Handset, heard: Heard, after: u16) -> u16 {
    let Handset { settings, next, .. } = handset;
    let unset = matches!(heard, Heard::Block(_)) && settings.scheduled == NONE;
    match heard {
        _ if letter(settings).is_none() => 8,
        Heard::Nothing => 0,
        _ if is_uplink(settings.config, next) => 9,
        _ if is_data(heard) && is_short(settings, next) => 20,
        _ if after == 0 && unset => 18,
        _ => after,
    }
}

/// Every pair, configuration, subframe and kind, with everything else allowed or not.
#[test]
fn every_kind_in_every_subframe() {
    let model = Model::new();
    let mut comparison = Comparison::with(&model);
    let mut taken_releases = 0;
    for (prefix, special) in pairs() {
        for cell in every::cell(50, 10, 9).chain(every::cell(50, 10, NONE)) {
            let settings = cell.with_special(prefix, special);
            for handset in (0..10).map(|next| expecting(settings, next)) {
                for (heard, after) in FED {
                    let fed = comparison.feed(handset, heard);
                    let due = due(handset, heard, after);
                    assert_eq!(fed.refusal, due, "{handset:?}, {heard:?}");
                    let in_short = due == 0 && is_short(settings, handset.next);
                    let is_release = matches!(heard, Heard::Release(_));
                    taken_releases += u64::from(in_short && is_release);
                }
            }
        }
    }
    let fed = FED.len() as u64;
    comparison.finish_with(PAIRS * 2 * CELLS * 10 * fed, &[0, 9, 18], &[0, 3, 4, 5]);
    assert_eq!(comparison.refused(8), (PAIRS - ALLOWED) * 2 * CELLS * 10 * fed);
    // Seven of the feeds bring data, which is 20 in the cells without a resource too; of
    // the three that bring a release one is taken.
    assert_eq!(comparison.refused(20), SHORT * 2 * CELL_SPECIAL * 7);
    assert_eq!(taken_releases, SHORT * 2 * CELL_SPECIAL);
    // In a subframe with data three are refused 10, a grant 11 and a grant 12.
    let with_data = ALLOWED * CELL_DOWNLINK - SHORT * CELL_SPECIAL;
    assert_eq!(comparison.refused(10), 2 * with_data * 3);
    let releases = 2 * ALLOWED * CELL_DOWNLINK;
    assert_eq!(comparison.refused(11), 2 * with_data + releases);
    assert_eq!(comparison.refused(12), 2 * with_data + releases);
}

/// A remembered grant, block or release at every age, with every pair: a bad state
/// exactly where the pair is not allowed, or the subframe is uplink or, but for a
/// release, too short for data. An answered window makes no difference.
#[test]
fn every_kind_remembered_at_every_age() {
    let model = Model::new();
    let mut comparison = Comparison::with(&model);
    let grant = Slot { kind: Slot::GRANT, cce: 60, dai: 4, results: 1 };
    let block = Slot { kind: Slot::BLOCK, ..grant };
    let release = Slot { kind: Slot::RELEASE, ..grant };
    let (mut short, mut answered_long_since, mut releases) = (0, 0, 0);
    let all_wrong = Heard::Grant(Grant { blocks: 0, cce: 61, dai: 5, ..GRANT });
    for (prefix, special) in pairs() {
        for settings in every::cell(50, 10, 9) {
            let settings = settings.with_special(prefix, special);
            for (next, ago) in (0..10).flat_map(|next| (1..=13).map(move |ago| (next, ago))) {
                let subframe = (next + 20 - ago) % 10;
                let uplink = is_uplink(settings.config, subframe);
                let is_short = is_short(settings, subframe);
                for slot in [grant, block, release] {
                    let mut handset = expecting(settings, next);
                    handset.past[usize::from(ago) - 1] = slot;
                    let is_release = slot.kind == Slot::RELEASE;
                    let bad = letter(settings).is_none() || uplink || (is_short && !is_release);
                    let context = || format!("{settings:?}, next {next}, {ago} ago, {slot:?}");
                    let refusal = comparison.feed(handset, Heard::Nothing).refusal;
                    assert_eq!(refusal, if bad { 8 } else { 0 }, "{}", context());
                    let refusal = comparison.feed(handset, all_wrong).refusal;
                    assert_eq!(refusal == 8, bad, "{}", context());
                    short += u64::from(is_short && bad);
                    releases += u64::from(is_short && !bad);
                    let is_old = is_short && bad && answered(settings, subframe).k < ago;
                    answered_long_since += u64::from(is_old);
                }
            }
        }
    }
    let states = PAIRS * CELLS * 10 * 13 * 3;
    comparison.finish_with(2 * states, &[0, 8, 9, 10, 20], &[0, 1, 2, 3, 4, 5]);
    // Of a cell's frames the other subframes than the downlink ones are uplink.
    let in_uplink = ALLOWED * (CELLS * 10 - CELL_DOWNLINK) * 13 * 3;
    let refused = (PAIRS - ALLOWED) * CELLS * 10 * 13 * 3;
    assert_eq!(comparison.refused(8), 2 * (refused + in_uplink + short));
    assert_eq!(short, SHORT * CELL_SPECIAL * 13 * 2);
    assert_eq!(releases, SHORT * CELL_SPECIAL * 13);
    // A special subframe is answered 6 later in configurations 0, 1 and 2, 7 later in 6,
    // and 11 later in 3, 4 and 5: one that was 7 to 13, 8 to 13, 12 or 13 ago is in an
    // answered window.
    let old = 2 * (2 * (3 * 2 * 7 + 2 * 6 + 2 * 2) + 2);
    assert_eq!(answered_long_since, SHORT * old * 2);
}

/// Every pair, window and position told, those past its end too, with a resource set
/// and without, on the resources around it and around the window's, with bits that are
/// read and bits that are not.
#[test]
fn every_position_told() {
    const BITS: [(u16, u16); 5] = [(0, 0), (0, 1), (1, 0), (1, 1), (2, 2)];
    let model = Model::new();
    let mut comparison = Comparison::with(&model);
    let (mut told_short, mut compared) = (0, 0);
    for (settings, window) in every::window(&model, [6], &[10], &MODE_AND_BLOCKS) {
        let past_last = 10 + window.size() * edge(6, 4);
        let resources = [8, 9, 10, past_last - 1, past_last, 65535];
        let beyond = [window.size(), window.size() + 1, 255, 256, 65534, NOT_TOLD];
        for (prefix, special) in pairs() {
            for (scheduled, told) in [9, NONE]
                .into_iter()
                .flat_map(|each| (0..window.size()).chain(beyond).map(move |told| (each, told)))
            {
                let settings = settings.with_scheduled(scheduled).with_special(prefix, special);
                let k = window.k.get(usize::from(told));
                let is_short = k.is_some_and(|k| is_short(settings, (window.n + 20 - k) % 10));
                let first = match told {
                    _ if (settings.config, settings.mode) == (5, 1) => 5,
                    _ if letter(settings).is_none() => 19,
                    NOT_TOLD => 0,
                    _ if is_short => 20,
                    _ if told >= window.size() => 11,
                    _ if scheduled == NONE => 18,
                    _ => 0,
                };
                for resource in resources {
                    for (b0, b1) in BITS {
                        let read = comparison.reading(settings, window.n, told, resource, b0, b1);
                        let after = [0, 13, 14].contains(&read.refusal);
                        let as_due = if first == 0 { after } else { read.refusal == first };
                        assert!(as_due, "{settings:?}, {window:?}, told {told}: {read:?}");
                        told_short += u64::from(first == 20);
                        compared += 1;
                    }
                }
            }
        }
    }
    let readings = 6 * 5;
    let tellings = 2 * 4 * (POSITIONS + 6 * WINDOWS);
    assert_eq!(compared, PAIRS * tellings * readings);
    let refusals = [0, 5, 11, 13, 14, 18, 19, 20];
    comparison.finish_with(compared, &refusals, &[0, 1, 2]);
    // Each special subframe is at one position of one window.
    assert_eq!(comparison.refused(20), SHORT * CELL_SPECIAL * 2 * readings);
    assert_eq!(comparison.refused(20), told_short);
    // Configuration 5 in mode 1, a window of nine in two numbers of blocks, is 5.
    let of_nine = 2 * 2 * (9 + 6);
    let refused = (PAIRS - ALLOWED) * (tellings - of_nine) * readings;
    assert_eq!(comparison.refused(19), refused);
}

/// M and K do not move: all calls that take settings, told nothing, answer alike for
/// any two pairs that are allowed.
#[test]
fn the_calls_with_settings_do_not_move() {
    let mut compared = 0;
    for before in every::cell(6, 10, 9) {
        for (prefix, special) in every::SPECIALS {
            let settings = before.with_special(prefix, special);
            for n in 0..=10 {
                assert_eq!(window(settings, n), window(before, n), "{settings:?}, n {n}");
                assert_eq!(answered(settings, n), answered(before, n), "{settings:?}, n {n}");
                let size = window(before, n).size;
                for (position, cce) in (0..=size).flat_map(|m| (0..=7).map(move |cce| (m, cce))) {
                    let (given, due) =
                        (resource(settings, n, position, cce), resource(before, n, position, cce));
                    assert_eq!(given, due, "{settings:?}, n {n}, ({position}, {cce})");
                    compared += 1;
                }
                for number in 8..=10 + 7 * size {
                    let (given, due) = (inverse(settings, n, number), inverse(before, n, number));
                    assert_eq!(given, due, "{settings:?}, n {n}, {number}");
                    for (b0, b1) in [(0, 0), (0, 1), (1, 0), (1, 1)] {
                        let given = reading(settings, n, NOT_TOLD, number, b0, b1);
                        let due = reading(before, n, NOT_TOLD, number, b0, b1);
                        assert_eq!(given, due, "{settings:?}, n {n}, {number}, {b0}{b1}");
                        compared += 1;
                    }
                }
                for list in [&[][..], &[0], &[0, 1, 0], &[1, 258, 0], &[0, 256, 256], &[7, 0]] {
                    for (form, room) in [(Form::Bytes, 65), (Form::Bits, 10)] {
                        let mut scratch = vec![7; room];
                        let mut scratch_before = scratch.clone();
                        let given = form.claims(settings, n, list, &mut scratch);
                        let due = form.claims(before, n, list, &mut scratch_before);
                        assert_eq!(given, due, "{form}({settings:?}, n {n}, {list:?})");
                        assert_eq!(
                            scratch, scratch_before,
                            "{form}({settings:?}, n {n}, {list:?})"
                        );
                        compared += 1;
                    }
                }
            }
        }
    }
    // Where there is no window size is 0, and one position and three resources are
    // tried.
    let sizes = CELL_DOWNLINK;
    let resources = (CELLS * 11 + sizes) * 8;
    let readings = (CELLS * 11 * 3 + sizes * 7) * 4;
    assert_eq!(compared, ALLOWED * (resources + readings + CELLS * 11 * 6 * 2));
}

/// What a position of a window may have heard, as a slot.
const HEARD: [Slot; 5] = [
    Slot::NOTHING,
    Slot { kind: Slot::RELEASE, cce: 3, dai: 1, results: 0 },
    Slot { kind: Slot::GRANT, cce: 5, dai: 1, results: 1 },
    Slot { kind: Slot::GRANT, cce: 6, dai: 2, results: 0 },
    Slot { kind: Slot::BLOCK, cce: 0, dai: 0, results: 1 },
];

/// The state before a window is answered, with these slots at its positions.
fn state(settings: Settings, window: &Window, slots: &[Slot]) -> Handset {
    let mut handset = expecting(settings, window.n);
    for (k, slot) in window.k.iter().zip(slots) {
        handset.past[usize::from(*k) - 1] = *slot;
    }
    handset
}

/// The answer of a window, for everything heard in it that is allowed in both of any
/// two cells: where its special subframe is too short in one of them, nothing or a
/// release. The window of nine is filled at random, with at most one block.
#[test]
fn the_answer_of_a_window_does_not_move() {
    let model = Model::new();
    let mut random = Random::new(9);
    let mut kinds = [0; 6];
    let mut released = 0;
    for (before, window) in every::window(&model, [50], &[10], &MODE_AND_BLOCKS) {
        if (before.config, before.mode) == (5, 1) {
            continue;
        }
        let before = before.with_scheduled(9);
        let size = window.size();
        let states = if size == 9 { 2000 } else { HEARD.len().pow(size.into()) };
        for number in 0..states {
            let slot = |m: u16| match size {
                9 => random.one_of(&HEARD[..4]),
                _ => HEARD[number / HEARD.len().pow(m.into()) % HEARD.len()],
            };
            let mut slots: Vec<Slot> = (0..size).map(slot).collect();
            if size == 9 && number % 2 == 0 {
                slots[random.below(9)] = HEARD[4];
            }
            let due = feed_nothing(state(before, window, &slots));
            if due.refusal != 0 {
                assert_eq!(due.refusal, 8, "two blocks: {slots:?}");
                continue;
            }
            for (prefix, special) in every::SPECIALS {
                let settings = before.with_special(prefix, special);
                let short = |k: &u16| is_short(settings, (window.n + 20 - k) % 10);
                let at = window.k.iter().position(short);
                let there = at.map_or(0, |at| slots[at].kind);
                let fed = feed_nothing(state(settings, window, &slots));
                if there == Slot::GRANT || there == Slot::BLOCK {
                    assert_eq!(fed.refusal, 8, "{settings:?}, {window:?}, {slots:?}");
                    continue;
                }
                let moved = Handset { settings: before, ..fed.handset };
                let fed = Fed { handset: moved, ..fed };
                assert_eq!(fed, due, "{settings:?}, {window:?}, {slots:?}");
                kinds[usize::from(fed.kind)] += 1;
                released += u64::from(there == Slot::RELEASE && fed.kind != Fed::SILENT);
            }
        }
    }
    println!("answers by kind {kinds:?}, {released} with a release in a short special");
    let [refused, bundled, multiplexed, silent, taken, no_window] = kinds;
    assert_eq!((refused, taken, no_window), (0, 0, 0));
    assert!(bundled > 10_000 && multiplexed > 10_000 && silent > 10_000 && released > 1000);
}

/// Every special subframe: the configuration, the subframe of a run in which it comes,
/// the one in which it is answered, and its position there. N_RB is 50 and N1 10, so
/// the resource of first CCE 0 is 10 + 11 × m.
const ANSWERED: [(u16, u16, u16, u16); 11] = [
    (0, 1, 7, 0),
    (0, 6, 12, 0),
    (1, 1, 7, 1),
    (1, 6, 12, 1),
    (2, 1, 7, 3),
    (2, 6, 12, 3),
    (3, 1, 12, 2),
    (4, 1, 12, 3),
    (5, 1, 12, 7),
    (6, 1, 8, 0),
    (6, 6, 13, 0),
];

fn after_nothing(mut handset: Handset, feeds: u16) -> Handset {
    for _ in 0..feeds {
        handset = feed_nothing(handset).handset;
    }
    handset
}

/// A release is heard in every short special subframe and answered, and read as the
/// release; a grant and a block are refused 20 there and leave the handset. With long
/// special subframes they are taken.
#[test]
fn a_release_in_every_special_subframe() {
    let (mut bundled, mut multiplexed) = (0, 0);
    for (config, sent, uplink, position) in ANSWERED {
        for (mode, blocks) in MODE_AND_BLOCKS {
            if (config, mode) == (5, 1) {
                continue;
            }
            for (prefix, special) in every::SPECIALS {
                let settings = Settings::plain(config, 50, 10, mode, blocks)
                    .with_scheduled(9)
                    .with_special(prefix, special);
                let made = make(settings);
                assert_eq!(made.refusal, 0, "{settings:?}");
                let handset = after_nothing(made.handset, sent);
                let fed = [feed_grant(handset, GRANT), feed_scheduled(handset, BLOCK)];
                if letter(settings) == Some('s') {
                    assert_eq!(fed, [Fed::refused(20, handset); 2], "{settings:?}");
                } else {
                    let answers = fed.map(|fed| (fed.refusal, fed.kind));
                    assert_eq!(answers, [(0, Fed::TAKEN); 2], "{settings:?}");
                }
                let fed = feed_release(handset, RELEASE);
                assert_eq!((fed.refusal, fed.kind), (0, Fed::TAKEN), "{settings:?}");
                let fed = feed_nothing(after_nothing(fed.handset, uplink - sent - 1));
                let multiplexes = mode == 1 && [1, 2, 3, 4].contains(&config);
                // Alone at the last position but for configuration 5: D,A, --A and ---A
                // send 00.
                let (kind, bits) = match multiplexes {
                    true => (Fed::MULTIPLEXED, (0, 0)),
                    false => (Fed::BUNDLED, (1, u16::from(blocks == 2))),
                };
                let number = 10 + 11 * position;
                assert_eq!((fed.kind, fed.resource, (fed.b0, fed.b1)), (kind, number, bits));
                let read = reading(settings, uplink % 10, NOT_TOLD, number, fed.b0, fed.b1);
                let due = match multiplexes {
                    true => ReadingAnswer::multiplexed(position, 0, 1 << position),
                    false => ReadingAnswer::bundled(position, 0, bits.0, bits.1),
                };
                assert_eq!(read, due, "{settings:?}");
                multiplexed += u64::from(multiplexes);
                bundled += u64::from(!multiplexes);
            }
        }
    }
    // Of eleven special subframes six are in windows that multiplex.
    assert_eq!((bundled, multiplexed), (ALLOWED * 2 * (10 + 1 + 4), ALLOWED * 2 * 6));
}

/// Configuration 1 with special configuration 0: the window of 7 is 0 and 1. A release
/// beside a grant counts in the DAI, and as decoded. (0,10) has resource 20, (1,0) has
/// 21.
#[test]
fn a_release_beside_a_grant() {
    let cell = Settings::plain(1, 50, 10, 0, 1).with_special(0, 0);
    let answer = |settings: Settings, decoded: u16, dai: u16, released: bool| {
        let grant = Grant { first: decoded, cce: 10, ..GRANT };
        let handset = feed_grant(make(settings).handset, grant).handset;
        assert_eq!(feed_grant(handset, GRANT), Fed::refused(20, handset));
        let second = match released {
            true => feed_release(handset, Release { cce: 0, dai }),
            false => feed_nothing(handset),
        };
        assert_eq!((second.refusal, second.kind), (0, Fed::TAKEN));
        let fed = feed_nothing(after_nothing(second.handset, 5));
        (fed.kind, fed.resource, (fed.b0, fed.b1))
    };
    assert_eq!(answer(cell, 1, 2, true), (Fed::BUNDLED, 21, (1, 0)));
    assert_eq!(answer(cell, 0, 2, true), (Fed::BUNDLED, 21, (0, 0)));
    assert_eq!(answer(cell, 1, 1, true), (Fed::SILENT, 0, (0, 0)));
    assert_eq!(answer(cell, 1, 2, false), (Fed::BUNDLED, 20, (1, 0)));
    // A,A is 1, 11; N,A is 1, 00; A,D is 0, 01.
    let multiplexing = Settings { mode: 1, ..cell };
    assert_eq!(answer(multiplexing, 1, 2, true), (Fed::MULTIPLEXED, 21, (1, 1)));
    assert_eq!(answer(multiplexing, 0, 2, true), (Fed::MULTIPLEXED, 21, (0, 0)));
    assert_eq!(answer(multiplexing, 1, 2, false), (Fed::MULTIPLEXED, 20, (0, 1)));
    let read = reading(multiplexing, 7, NOT_TOLD, 21, 1, 1);
    assert_eq!(read, ReadingAnswer::multiplexed(1, 0, 0b11));
}

/// The edges of the ranges and of the four pairs, written out: extended 7 and 8 are of
/// a later release and not there, normal 4 and extended 5 carry data, normal 5 and
/// extended 4 do not.
#[test]
fn the_edges() {
    let cell = Settings::plain(1, 50, 10, 0, 1).with_scheduled(9);
    for (prefix, special, refusal, in_one) in [
        (0, 0, 0, 20),
        (0, 1, 0, 0),
        (0, 4, 0, 0),
        (0, 5, 0, 20),
        (0, 6, 0, 0),
        (0, 8, 0, 0),
        (0, 9, 19, 8),
        (1, 0, 0, 20),
        (1, 3, 0, 0),
        (1, 4, 0, 20),
        (1, 5, 0, 0),
        (1, 6, 0, 0),
        (1, 7, 19, 8),
        (1, 8, 19, 8),
        (2, 1, 19, 8),
        (256, 1, 19, 8),
        (0, 256, 19, 8),
    ] {
        let settings = cell.with_special(prefix, special);
        assert_eq!(make(settings).refusal, refusal, "{settings:?}");
        let handset = expecting(settings, 1);
        assert_eq!(feed(handset, Heard::Grant(GRANT)).refusal, in_one, "{settings:?}");
        assert_eq!(feed(handset, Heard::Block(BLOCK)).refusal, in_one, "{settings:?}");
        let released = if in_one == 8 { 8 } else { 0 };
        assert_eq!(feed(handset, Heard::Release(RELEASE)).refusal, released, "{settings:?}");
        // In configuration 3 subframe 6 is no special one.
        let other = expecting(Settings { config: 3, ..settings }, 6);
        assert_eq!(feed(other, Heard::Grant(GRANT)).refusal, released, "{settings:?}");
        // Told, position 1 of the window of 7 is subframe 1.
        let told = if refusal == 0 { in_one } else { refusal };
        assert_eq!(reading(settings, 7, 1, 9, 1, 0).refusal, told, "{settings:?}");
        assert_eq!(reading(settings, 7, 1, 21, 1, 0).refusal, told, "{settings:?}");
        assert_eq!(reading(settings, 7, 0, 9, 1, 0).refusal, refusal, "{settings:?}");
        assert_eq!(reading(settings, 7, NOT_TOLD, 21, 1, 0).refusal, refusal, "{settings:?}");
    }
}
