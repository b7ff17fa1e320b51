//! The cause of a silence in windows worked by hand, through the C calls; and for each rule that
//! differs from the papers' in one point a window that it tells otherwise.

use feedback_tests::model::Model;
use feedback_tests::silences::{Listener, Told, WRONG};
use feedback_tests::{
    change_mode, feed, feed_nothing, make, silence, Block, Fed, Grant, Handset, Heard, Release,
    Settings, SilenceAnswer, Slot,
};

/// N_RB 50 and N1 10: with a first CCE below 11 the resource of (m, c) is 10 + 11 × m + c,
/// whatever M is. Scheduled blocks have 9.
const fn cell(config: u16, mode: u16) -> Settings {
    Settings::plain(config, 50, 10, mode, 1).with_scheduled(9)
}

/// A one-block grant that is decoded.
fn grant(cce: u16, dai: u16) -> Heard {
    Heard::Grant(Grant { blocks: 1, first: 1, second: 0, cce, dai })
}

fn release(cce: u16, dai: u16) -> Heard {
    Heard::Release(Release { cce, dai })
}

const BLOCK: Heard = Heard::Block(Block { blocks: 1, first: 1, second: 0 });

/// Kind, resource and bits of an answer; and cause, V and the value expected.
type Answer = (u16, u16, (u16, u16));

const SILENT: Answer = (Fed::SILENT, 0, (0, 0));

const NONE: Told = [SilenceAnswer::NOT_SILENT, 0, 0];
const NOTHING_HEARD: Told = [SilenceAnswer::NOTHING_HEARD, 0, 0];

const fn miss(v: u16, expected: u16) -> Told {
    [SilenceAnswer::MISS_SHOWN, v, expected]
}

/// The last answer of a run from a fresh handset, with what is heard in some subframes, and a
/// change of the mode before some, each with the new mode. In all other subframes the cause of a
/// silence is asked for, and what it answers goes on.
fn run(
    settings: Settings,
    heard: &[(u16, Heard)],
    changes: &[(u16, u16)],
    last: u16,
) -> (Answer, Told) {
    let mut handset = make(settings).handset;
    for s in 0.. {
        for (_, mode) in changes.iter().filter(|(at, _)| *at == s) {
            let changed = change_mode(handset, *mode);
            assert_eq!(changed.refusal, 0, "{settings:?}, s {s} to mode {mode}");
            handset = changed.handset;
        }
        let here = heard.iter().find(|(at, _)| *at == s);
        let given = match here {
            Some((_, heard)) => SilenceAnswer::not_silent(feed(handset, *heard)),
            None => silence(handset),
        };
        assert_eq!(given.fed.refusal, 0, "{settings:?}, s {s}");
        if s == last {
            let Fed { kind, resource, b0, b1, .. } = given.fed;
            return ((kind, resource, (b0, b1)), given.told());
        }
        handset = given.fed.handset;
    }
    unreachable!("the last subframe is answered")
}

/// Configuration 2, n = 7, mode 0: DAI 1 heard in 9 and DAI 3 in 3 is silent, and 2 was
/// expected. With DAI 2 there it is answered.
#[test]
fn the_case_of_the_papers() {
    let heard = |dai| [(9, grant(0, 1)), (13, grant(5, dai))];
    assert_eq!(run(cell(2, 0), &heard(3), &[], 17), (SILENT, miss(3, 2)));
    assert_eq!(run(cell(2, 0), &heard(2), &[], 17), ((Fed::BUNDLED, 37, (1, 0)), NONE));
}

/// Configuration 1, mode 1: the grant of subframe 5 is lost, and that of 6, with DAI 2, is heard.
/// U is 1, V is 2, and the state D, A is answered. In mode 0 it is silent.
#[test]
fn the_values_may_differ_beside_a_multiplexed_reply() {
    let heard = [(6, grant(0, 2))];
    assert_eq!(run(cell(1, 1), &heard, &[], 12), ((Fed::MULTIPLEXED, 21, (0, 0)), NONE));
    assert_eq!(run(cell(1, 0), &heard, &[], 12), (SILENT, miss(2, 1)));
}

/// Configuration 0 answers whatever the DAI is. Configuration 6, which has windows of one too,
/// reads it in both modes.
#[test]
fn configuration_0_does_not_read_the_dai() {
    for mode in [0, 1] {
        for dai in 1..=4 {
            let replies = run(cell(0, mode), &[(1, grant(3, dai))], &[], 7);
            assert_eq!(replies, ((Fed::BUNDLED, 13, (1, 0)), NONE), "mode {mode}, DAI {dai}");
            let given = run(cell(6, mode), &[(0, grant(3, dai))], &[], 7);
            let due = match dai {
                1 => ((Fed::BUNDLED, 13, (1, 0)), NONE),
                _ => (SILENT, miss(dai, 1)),
            };
            assert_eq!(given, due, "mode {mode}, DAI {dai}");
        }
    }
}

/// Before the start, and where what was heard is in other windows: in configuration 1 the grant
/// in 4 is answered in 8, and the one in 10 in 17, while 12 answers for 5 and 6.
#[test]
fn nothing_is_heard() {
    for mode in [0, 1] {
        for s in [2, 3, 7, 8] {
            assert_eq!(run(cell(1, mode), &[], &[], s), (SILENT, NOTHING_HEARD), "s {s}");
        }
        let heard = [(4, grant(0, 3)), (10, grant(0, 4)), (11, BLOCK)];
        assert_eq!(run(cell(1, mode), &heard, &[], 12), (SILENT, NOTHING_HEARD));
        assert_eq!(run(cell(1, mode), &heard, &[], 8), (SILENT, miss(3, 1)));
    }
}

/// In the downlink, and in the uplink where there is no window: configuration 0 has none in 3.
#[test]
fn other_answers_have_no_cause() {
    for mode in [0, 1] {
        assert_eq!(run(cell(0, mode), &[], &[], 0), ((Fed::TAKEN, 0, (0, 0)), NONE));
        assert_eq!(run(cell(0, mode), &[], &[], 1), ((Fed::TAKEN, 0, (0, 0)), NONE));
        assert_eq!(run(cell(0, mode), &[], &[], 3), ((Fed::NO_WINDOW, 0, (0, 0)), NONE));
        assert_eq!(run(cell(0, mode), &[], &[], 8), ((Fed::NO_WINDOW, 0, (0, 0)), NONE));
    }
}

/// A scheduled block that is the only thing heard is answered on its resource. Beside a PDCCH it
/// is not counted: with DAI 2 a miss is shown, and 1 was expected.
#[test]
fn a_scheduled_block_is_not_counted() {
    let in_bundled = |heard: &[(u16, Heard)]| run(cell(1, 0), heard, &[], 12);
    assert_eq!(in_bundled(&[(5, BLOCK)]), ((Fed::BUNDLED, 9, (1, 0)), NONE));
    assert_eq!(in_bundled(&[(6, BLOCK)]), ((Fed::BUNDLED, 9, (1, 0)), NONE));
    assert_eq!(in_bundled(&[(5, BLOCK), (6, grant(0, 1))]), ((Fed::BUNDLED, 21, (1, 0)), NONE));
    assert_eq!(in_bundled(&[(5, BLOCK), (6, grant(0, 2))]), (SILENT, miss(2, 1)));
    assert_eq!(in_bundled(&[(5, grant(0, 4)), (6, BLOCK)]), (SILENT, miss(4, 1)));
    let lone = run(cell(1, 1), &[(6, BLOCK)], &[], 12);
    assert_eq!(lone, ((Fed::MULTIPLEXED, 9, (0, 0)), NONE));
}

/// A release counts as a grant does, and V may be its DAI.
#[test]
fn releases_are_counted() {
    let in_two = |heard: &[(u16, Heard)]| run(cell(2, 0), heard, &[], 17);
    assert_eq!(in_two(&[(9, release(0, 1)), (13, release(5, 3))]), (SILENT, miss(3, 2)));
    assert_eq!(in_two(&[(9, release(0, 1)), (13, grant(5, 3))]), (SILENT, miss(3, 2)));
    assert_eq!(in_two(&[(9, grant(0, 1)), (13, release(5, 3))]), (SILENT, miss(3, 2)));
    assert_eq!(in_two(&[(13, release(5, 2))]), (SILENT, miss(2, 1)));
    let replies = in_two(&[(9, release(0, 1)), (13, release(5, 2))]);
    assert_eq!(replies, ((Fed::BUNDLED, 37, (1, 0)), NONE));
}

/// In 8,7,4,6 the latest subframe is m = 2: with 9 lost, DAI 2 heard in 11 and DAI 3 in 13, V is
/// 3. By the last position it would be 2, as expected.
#[test]
fn v_is_of_the_latest() {
    let heard = [(11, grant(0, 2)), (13, grant(5, 3))];
    assert_eq!(run(cell(2, 0), &heard, &[], 17), (SILENT, miss(3, 2)));
}

/// Configuration 5: s = 22 answers for 9, 10, 11 and 13 to 18, here with a grant sent in each.
/// With one lost and five heard V is 2, and of five 1 is expected. With three lost between two
/// heard and a third V is the lesser value. Four that are lost can't be seen.
#[test]
fn beyond_four() {
    let sent =
        (0..).zip([9, 10, 11, 13, 14, 15, 16, 17, 18]).map(|(j, s)| (s, grant(0, j % 4 + 1)));
    let sent: Vec<(u16, Heard)> = sent.collect();
    let heard = |places: &[usize]| {
        let heard: Vec<(u16, Heard)> = places.iter().map(|place| sent[*place]).collect();
        run(cell(5, 0), &heard, &[], 22)
    };
    assert_eq!(heard(&[1, 2, 3, 4, 5]), (SILENT, miss(2, 1)));
    assert_eq!(heard(&[0, 1, 5]), (SILENT, miss(2, 3)));
    assert_eq!(heard(&[7]), (SILENT, miss(4, 1)));
    assert_eq!(heard(&[1, 2, 3, 4, 5, 6, 7, 8]), (SILENT, miss(1, 4)));
    let (reply, told) = heard(&[4]);
    assert_eq!((reply.0, told), (Fed::BUNDLED, NONE));
    let (reply, told) = heard(&[8]);
    assert_eq!((reply.0, told), (Fed::BUNDLED, NONE));
}

/// Configuration 1, subframe 5 lost and 6 heard with DAI 2. The window of 12 has the mode in
/// which 5 was fed: in mode 0 it shows a miss, though mode 1 stands when it is answered, and in
/// mode 1 it replies, though mode 0 stands.
#[test]
fn the_mode_is_the_window_s_own() {
    let heard = [(6, grant(0, 2))];
    let silent = (SILENT, miss(2, 1));
    let replies = ((Fed::MULTIPLEXED, 21, (0, 0)), NONE);
    for place in 0..=12 {
        let begun = place > 5;
        let given = run(cell(1, 0), &heard, &[(place, 1)], 12);
        assert_eq!(given, if begun { silent } else { replies }, "to 1 before {place}");
        let given = run(cell(1, 1), &heard, &[(place, 0)], 12);
        assert_eq!(given, if begun { replies } else { silent }, "to 0 before {place}");
    }
}

/// In configuration 3 the window of 12 is 5, 6 and 1, which is the earliest and not the first in
/// K. Here 1 is lost, and 5 is heard with DAI 2.
#[test]
fn the_earliest_is_not_the_first_in_k() {
    let heard = [(5, grant(3, 2))];
    for place in [2, 3, 4, 5] {
        let given = run(cell(3, 0), &heard, &[(place, 1)], 12);
        assert_eq!(given, (SILENT, miss(2, 1)), "to 1 before {place}");
        let given = run(cell(3, 1), &heard, &[(place, 0)], 12);
        assert_eq!(given, ((Fed::MULTIPLEXED, 13, (0, 1)), NONE), "to 0 before {place}");
    }
    // Nothing heard is nothing heard in either mode.
    for (mode, place) in [(0, 3), (1, 3), (0, 12), (1, 12)] {
        let given = run(cell(3, mode), &[(7, grant(3, 1))], &[(place, 1 - mode)], 12);
        assert_eq!(given, (SILENT, NOTHING_HEARD), "to {} before {place}", 1 - mode);
    }
}

/// A bad state is refused 8 and left as it was, and has no cause, though its window was silent
/// before it was spoilt.
#[test]
fn a_refusal_has_no_cause() {
    for slots in [&[][..], &[(6, Slot::grant(0, 2, 1))]] {
        let good = lent(1, 2, 0, 0, slots);
        assert_eq!(silence(good).fed.kind, Fed::SILENT);
        let spoil: [fn(&mut Handset); 5] = [
            |handset| handset.settings.config = 7,
            |handset| handset.next = 12,
            |handset| handset.past[0].kind = 4,
            |handset| handset.past[6] = Slot::grant(0, 5, 1),
            |handset| handset.settings.ports = 0,
        ];
        for spoil in spoil {
            let mut bad = good;
            spoil(&mut bad);
            let given = silence(bad);
            assert_eq!(given, SilenceAnswer::not_silent(Fed::refused(8, bad)));
            assert_eq!(given.fed, feed_nothing(bad));
            assert_eq!(given.fed.handset.bytes(), bad.bytes());
        }
    }
}

/// A handset that answers the window of a subframe next, while a mode stands, with these modes
/// at its feeds and what it heard some subframes ago.
fn lent(config: u16, next: u16, mode: u16, modes: u16, slots: &[(usize, Slot)]) -> Handset {
    let mut handset = Handset { next, modes, ..Handset::fresh(cell(config, mode)) };
    slots.iter().for_each(|(ago, slot)| handset.past[ago - 1] = *slot);
    handset
}

/// Each wrong rule with a window, what is told of it, and what the rule tells.
#[test]
fn every_wrong_rule_tells_a_window_otherwise() {
    const ALL: u16 = Handset::ALL_MULTIPLEXING;
    let dai = |dai| Slot::grant(0, dai, 1);
    let block = Slot::block(1);
    let one_miss = &[(6, dai(2))][..];
    let five_of_nine = &[(12, dai(2)), (11, dai(3)), (9, dai(4)), (8, dai(1)), (7, dai(2))][..];
    let three_of_nine = &[(13, dai(1)), (12, dai(2)), (7, dai(2))][..];
    let witnesses: [(&str, Handset, Told, Told); WRONG.len()] = [
        (
            "the value expected without mod 4",
            lent(5, 2, 0, 0, five_of_nine),
            miss(2, 1),
            miss(2, 5),
        ),
        ("the value expected one on", lent(1, 2, 0, 0, one_miss), miss(2, 1), miss(2, 2)),
        ("V and the value expected exchanged", lent(1, 2, 0, 0, one_miss), miss(2, 1), miss(1, 2)),
        ("both values beside every answer", lent(1, 2, 0, 0, &[(7, dai(1))]), NONE, [0, 1, 1]),
        ("nothing heard for every silence", lent(1, 2, 0, 0, one_miss), miss(2, 1), NOTHING_HEARD),
        (
            "a miss only if V is the greater",
            lent(5, 2, 0, 0, three_of_nine),
            miss(2, 3),
            NOTHING_HEARD,
        ),
        (
            "a lone scheduled block is nothing heard",
            lent(1, 2, 0, 0, &[(7, block)]),
            NONE,
            NOTHING_HEARD,
        ),
        (
            "the scheduled block counted in U",
            lent(1, 2, 0, 0, &[(7, block), (6, dai(2))]),
            miss(2, 1),
            NONE,
        ),
        (
            "releases not counted",
            lent(1, 2, 0, 0, &[(6, Slot::release(0, 2))]),
            miss(2, 1),
            NOTHING_HEARD,
        ),
        ("V of the last position", lent(2, 7, 0, 0, &[(6, dai(2)), (4, dai(3))]), miss(3, 2), NONE),
        (
            "V of the first PDCCH",
            lent(2, 7, 0, 0, &[(8, dai(1)), (4, dai(3))]),
            miss(3, 2),
            miss(1, 2),
        ),
        (
            "all that is remembered for the window",
            lent(1, 2, 0, 0, &[(8, dai(2))]),
            NOTHING_HEARD,
            miss(2, 1),
        ),
        ("the standing mode", lent(1, 2, 1, 0, one_miss), miss(2, 1), NONE),
        ("the mode at the last subframe", lent(1, 2, 1, 1 << 5, one_miss), miss(2, 1), NONE),
        ("a miss told in configuration 0", lent(0, 7, 0, 0, &[(6, dai(3))]), NONE, miss(3, 1)),
        ("a miss told beside a multiplexed reply", lent(1, 2, 1, ALL, one_miss), NONE, miss(2, 1)),
    ];
    let model = Model::new();
    for ((name, wrong), (of, handset, told, told_wrongly)) in WRONG.into_iter().zip(witnesses) {
        assert_eq!(name, of);
        let given = silence(handset);
        assert_eq!(given.told(), told, "{name}: {handset:?}, {given:?}");
        let window = model.window(handset.settings.config, handset.next).expect("a window");
        let listener = Listener::new(window);
        let heard = listener.heard(handset, given.fed);
        assert_eq!(wrong(&heard), told_wrongly, "{name}: {handset:?}");
        assert_ne!(told, told_wrongly, "{name}");
    }
}
