//! Mode changes between feeds in windows worked by hand, through the C calls. The model
//! has no part here.

use feedback_tests::{
    change_mode, feed, make, reading, Changed, Fed, Grant, Handset, ReadingAnswer, Settings,
    NOT_TOLD,
};

/// N_RB 50 and N1 10: with a first CCE below 11 the resource of (m, c) is 10 + 11 × m + c,
/// whatever M is. Configuration and mode are set in each case.
const CELL: Settings = Settings::plain(0, 50, 10, 0, 1);

const fn cell(config: u16, mode: u16) -> Settings {
    Settings { config, mode, ..CELL }
}

/// A one-block grant.
fn grant(cce: u16, dai: u16, decoded: bool) -> Grant {
    Grant { blocks: 1, first: decoded.into(), second: 0, cce, dai }
}

/// Kind, resource and bits of an answer.
type Answer = (u16, u16, (u16, u16));

const SILENT: Answer = (Fed::SILENT, 0, (0, 0));

const fn bundled(resource: u16, bits: (u16, u16)) -> Answer {
    (Fed::BUNDLED, resource, bits)
}

const fn multiplexed(resource: u16, bits: (u16, u16)) -> Answer {
    (Fed::MULTIPLEXED, resource, bits)
}

/// The handset in another mode; the change is not refused.
fn changed(handset: Handset, mode: u16) -> Handset {
    let Changed { refusal, handset } = change_mode(handset, mode);
    assert_eq!(refusal, 0, "to mode {mode}: {handset:?}");
    handset
}

/// A run from a fresh handset with what is heard in some subframes, and a change of the mode
/// before some subframes, each with the new mode: its answers.
fn run(settings: Settings, heard: &[(u16, Grant)], changes: &[(u16, u16)]) -> [Answer; 30] {
    let mut handset = make(settings).handset;
    let mut s = 0;
    [SILENT; 30].map(|_| {
        for (_, mode) in changes.iter().filter(|(at, _)| *at == s) {
            handset = changed(handset, *mode);
        }
        let here = heard.iter().find(|(at, _)| *at == s);
        let fed = feed(handset, here.map(|(_, grant)| *grant));
        assert_eq!(fed.refusal, 0, "{settings:?}, s {s}");
        handset = fed.handset;
        s += 1;
        (fed.kind, fed.resource, (fed.b0, fed.b1))
    })
}

/// Configuration 3: the window of s = 12 has K 7, 6, 11, so it is 5, 6 and 1; that of
/// s = 13 is 7 and 8, that of s = 14 is 9 and 10. All three are open together.
const THREE: [(u16, bool); 7] =
    [(1, true), (5, true), (6, false), (7, true), (8, false), (9, false), (10, true)];

/// The same as grants: first CCE 2, 3, 4, .. and the DAIs 1, 2, 3 in the first window and 1,
/// 2 in the others.
fn three() -> Vec<(u16, Grant)> {
    let dais = [1, 2, 3, 1, 2, 1, 2];
    let numbered = (2..).zip(THREE).zip(dais);
    numbered.map(|((cce, (s, decoded)), dai)| (s, grant(cce, dai, decoded))).collect()
}

/// What is due for the three windows, bundled and multiplexed. Bundled: on the resource of
/// the last heard grant, NACK. Multiplexed: 5, 6, 1 are A, N, A, which is index 0 with 11;
/// 7 and 8 are A, N: 0 with 01; 9 and 10 are N, A: 1 with 00.
const THREE_BUNDLED: [Answer; 3] =
    [bundled(10 + 11 + 4, (0, 0)), bundled(10 + 11 + 6, (0, 0)), bundled(10 + 11 + 8, (0, 0))];
const THREE_MULTIPLEXED: [Answer; 3] =
    [multiplexed(10 + 3, (1, 1)), multiplexed(10 + 5, (0, 1)), multiplexed(10 + 11 + 8, (0, 0))];

/// The earliest subframe of s = 12 is 1, 11 before, and not 5, which is first in K. So a
/// change between 1 and 5 comes too late for it, while the windows of 13 and 14 have the
/// new mode.
#[test]
fn the_earliest_is_not_the_first_in_k() {
    let heard = three();
    let [m12, m13, m14] = THREE_MULTIPLEXED;
    let [b12, b13, b14] = THREE_BUNDLED;
    for place in [2, 3, 4, 5] {
        let answers = run(cell(3, 0), &heard, &[(place, 1)]);
        assert_eq!(answers[12..15], [b12, m13, m14], "before {place}");
        let answers = run(cell(3, 1), &heard, &[(place, 0)]);
        assert_eq!(answers[12..15], [m12, b13, b14], "before {place}");
    }
}

/// Every place of a change before the answers. The window of 12 begins with 1, that of 13
/// with 7, that of 14 with 9: a change counts if it comes before that subframe is fed.
#[test]
fn three_open_windows() {
    let heard = three();
    let begins = [1, 7, 9];
    let both = [THREE_BUNDLED, THREE_MULTIPLEXED];
    for made in [0, 1] {
        for place in 0..15 {
            let answers = run(cell(3, made), &heard, &[(place, 1 - made)]);
            for (at, begin) in begins.into_iter().enumerate() {
                let mode = if place <= begin { 1 - made } else { made };
                let due = both[usize::from(mode)][at];
                assert_eq!(answers[12 + at], due, "made in {made}, changed before {place}");
            }
        }
    }
    // With a change before each of 2, 8 and 10 each window has another mode than the one before.
    let answers = run(cell(3, 0), &heard, &[(2, 1), (8, 0), (10, 1)]);
    assert_eq!(answers[12..15], [THREE_BUNDLED[0], THREE_MULTIPLEXED[1], THREE_BUNDLED[2]]);
}

/// The readings of those replies in the mode of their window.
#[test]
fn three_readings() {
    let read = |mode, n, (_, resource, (b0, b1)): Answer| {
        reading(cell(3, mode), n, NOT_TOLD, resource, b0, b1)
    };
    let [b12, b13, b14] = THREE_BUNDLED;
    assert_eq!(read(0, 2, b12), ReadingAnswer::bundled(1, 4, 0, 0));
    assert_eq!(read(0, 3, b13), ReadingAnswer::bundled(1, 6, 0, 0));
    assert_eq!(read(0, 4, b14), ReadingAnswer::bundled(1, 8, 0, 0));
    let [m12, m13, m14] = THREE_MULTIPLEXED;
    assert_eq!(read(1, 2, m12), ReadingAnswer::multiplexed(0, 3, 0b101));
    assert_eq!(read(1, 3, m13), ReadingAnswer::multiplexed(0, 5, 0b01));
    assert_eq!(read(1, 4, m14), ReadingAnswer::multiplexed(1, 8, 0b10));
}

/// Configuration 4: the window of s = 13 has K 6, 5, 4, 7, so it is 7, 8, 9 and 6. The
/// earliest is 6, seven before, which is last in K. That of s = 12 has K 12, 8, 7, 11: 0, 4,
/// 5 and 1, and reaches twelve back.
#[test]
fn configuration_4() {
    let heard = [
        (6, grant(1, 1, true)),
        (7, grant(2, 2, true)),
        (8, grant(3, 3, false)),
        (9, grant(4, 4, true)),
    ];
    // 7, 8, 9, 6 are A, N, A, A: index 3 with 01, on the resource of 6. The last is 9.
    let (multi, bundle) = (multiplexed(10 + 33 + 1, (0, 1)), bundled(10 + 22 + 4, (0, 0)));
    for place in 0..14 {
        let (from_0, from_1) = if place <= 6 { (multi, bundle) } else { (bundle, multi) };
        assert_eq!(run(cell(4, 0), &heard, &[(place, 1)])[13], from_0, "before {place}");
        assert_eq!(run(cell(4, 1), &heard, &[(place, 0)])[13], from_1, "before {place}");
    }
    let read = reading(cell(4, 1), 3, NOT_TOLD, 44, 0, 1);
    assert_eq!(read, ReadingAnswer::multiplexed(3, 1, 0b1100));
    let read = reading(cell(4, 0), 3, NOT_TOLD, 36, 0, 0);
    assert_eq!(read, ReadingAnswer::bundled(2, 4, 0, 0));

    let heard = [(0, grant(1, 1, true)), (1, grant(2, 2, true)), (5, grant(3, 3, true))];
    // 0, 4, 5, 1 are A, D, A, A: index 3 with 01, on the resource of 1. The last is 5.
    let (multi, bundle) = (multiplexed(10 + 33 + 2, (0, 1)), bundled(10 + 22 + 3, (1, 0)));
    for place in 0..14 {
        let (from_0, from_1) = if place == 0 { (multi, bundle) } else { (bundle, multi) };
        assert_eq!(run(cell(4, 0), &heard, &[(place, 1)])[12], from_0, "before {place}");
        assert_eq!(run(cell(4, 1), &heard, &[(place, 0)])[12], from_1, "before {place}");
    }
}

/// Configuration 2: the window of s = 7 has K 8, 7, 4, 6, so it is -1, 0, 3 and 1. Its
/// earliest subframe lies before the start, and so it is answered in the mode that the
/// handset was made with, although all that was fed was fed in the other one.
#[test]
fn before_the_start_stands_the_made_mode() {
    let heard = [
        (0, grant(0, 1, true)),
        (1, grant(1, 2, true)),
        (3, grant(5, 3, true)),
        (4, grant(2, 1, true)),
        (8, grant(3, 2, true)),
    ];
    // -1, 0, 3, 1 are D, A, A, A: index 3 with 01, on the resource of 1. The last is 3.
    let (multi7, bundle7) = (multiplexed(10 + 33 + 1, (0, 1)), bundled(37, (1, 0)));
    // The window of s = 12 is 4, 5, 8 and 6: A, D, A, D is index 2 with 01. The last is 8.
    let (multi12, bundle12) = (multiplexed(10 + 22 + 3, (0, 1)), bundled(10 + 22 + 3, (1, 0)));
    for place in 0..=4 {
        let answers = run(cell(2, 1), &heard, &[(place, 0)]);
        assert_eq!((answers[7], answers[12]), (multi7, bundle12), "before {place}");
        let answers = run(cell(2, 0), &heard, &[(place, 1)]);
        assert_eq!((answers[7], answers[12]), (bundle7, multi12), "before {place}");
    }
    // Of the window of s = 2 all lies before the start.
    assert_eq!(run(cell(2, 1), &heard, &[(0, 0)])[2], SILENT);
    let read = reading(cell(2, 1), 7, NOT_TOLD, 44, 0, 1);
    assert_eq!(read, ReadingAnswer::multiplexed(3, 1, 0b1100));

    // In configuration 3 that of s = 4 is -1 and 0: D, A is index 1 with 00.
    let heard = [(0, grant(6, 1, true))];
    let answers = run(cell(3, 1), &heard, &[(0, 0)]);
    assert_eq!(answers[4], multiplexed(10 + 11 + 6, (0, 0)));
    let answers = run(cell(3, 0), &heard, &[(0, 1)]);
    assert_eq!(answers[4], bundled(10 + 11 + 6, (1, 0)));
}

/// In configuration 1 the window of s = 7 is 0 and 1, whole after the start: a change before
/// the first feed counts for it, and one before 1 does not.
#[test]
fn from_the_start_on_the_standing_mode_counts() {
    let heard = [(0, grant(0, 1, true)), (1, grant(1, 2, false))];
    let (multi, bundle) = (multiplexed(10, (0, 1)), bundled(10 + 11 + 1, (0, 0)));
    assert_eq!(run(cell(1, 1), &heard, &[(0, 0)])[7], bundle);
    assert_eq!(run(cell(1, 1), &heard, &[(1, 0)])[7], multi);
    assert_eq!(run(cell(1, 0), &heard, &[(0, 1)])[7], multi);
    assert_eq!(run(cell(1, 0), &heard, &[(1, 1)])[7], bundle);
}

/// Read in the mode that stands a reply would not say what was delivered. Configuration 2: a
/// grant in 4, first in K of s = 12, decoded, and multiplexing from 12 on. The reply is
/// bundled, and its bits would be index 0 with 10 in multiplexing: N, D, D, D.
#[test]
fn a_reply_is_read_in_the_mode_of_its_window() {
    let answers = run(cell(2, 0), &[(4, grant(5, 1, true))], &[(12, 1)]);
    assert_eq!(answers[12], bundled(15, (1, 0)));
    assert_eq!(reading(cell(2, 0), 2, NOT_TOLD, 15, 1, 0), ReadingAnswer::bundled(0, 5, 1, 0));
    assert_eq!(reading(cell(2, 1), 2, NOT_TOLD, 15, 1, 0), ReadingAnswer::multiplexed(0, 5, 0));
}

/// A window of one is bundled in both modes. Configuration 1: that of s = 13 is 9.
#[test]
fn a_window_of_one() {
    let heard = [(9, grant(7, 1, true))];
    for made in [0, 1] {
        for place in 0..14 {
            let answers = run(cell(1, made), &heard, &[(place, 1 - made)]);
            assert_eq!(answers[13], bundled(17, (1, 0)), "made in {made}, before {place}");
        }
    }
}

/// Of several changes between two feeds the last counts, and the modes in between were never
/// those of a feed.
#[test]
fn the_last_change_before_a_feed_counts() {
    let heard = three();
    let answers = run(cell(3, 0), &heard, &[(1, 1), (1, 0)]);
    assert_eq!(answers[12..15], THREE_BUNDLED);
    let answers = run(cell(3, 0), &heard, &[(1, 1), (1, 0), (1, 1)]);
    assert_eq!(answers[12..15], THREE_MULTIPLEXED);
}

/// A refused feed is no feed: the mode that stands at it is not remembered. Configuration 3:
/// the grant in 1 comes first with DAI 5, refused 12, and then as it was sent.
#[test]
fn the_mode_at_a_refused_feed_does_not_count() {
    let wrong = Grant { dai: 5, ..grant(2, 1, true) };
    // The mode at the refused feed, and at the one that is not.
    for (refused_in, accepted_in) in [(0, 0), (0, 1), (1, 0), (1, 1)] {
        let mut handset = feed(make(cell(3, 0)).handset, None).handset;
        handset = changed(handset, refused_in);
        assert_eq!(feed(handset, Some(wrong)), Fed::refused(12, handset));
        handset = changed(handset, accepted_in);
        handset = feed(handset, Some(grant(2, 1, true))).handset;
        assert_eq!(handset.modes, accepted_in, "{refused_in}, {accepted_in}");
        handset = changed(handset, 1 - accepted_in);
        for _ in 2..12 {
            handset = feed(handset, None).handset;
        }
        let fed = feed(handset, None);
        // The only grant is third in K: D, D, A is index 2 with 00.
        let due = match accepted_in {
            0 => bundled(10 + 22 + 2, (1, 0)),
            _ => multiplexed(10 + 22 + 2, (0, 0)),
        };
        assert_eq!((fed.kind, fed.resource, (fed.b0, fed.b1)), due);
    }
}

/// Configuration 5 has no multiplexing: 5, and for what is no mode 4. Both leave all 74
/// bytes, and to the mode that stands nothing changes.
#[test]
fn refused_changes() {
    let five = make(cell(5, 0)).handset;
    assert_eq!(change_mode(five, 1), Changed { refusal: 5, handset: five });
    for handset in [five, make(cell(3, 1)).handset] {
        let before = handset.bytes();
        for mode in [2, 3, 256, 257, 65535] {
            let Changed { refusal, handset } = change_mode(handset, mode);
            assert_eq!((refusal, handset.bytes()), (4, before), "mode {mode}");
        }
        let Changed { refusal, handset } = change_mode(handset, handset.settings.mode);
        assert_eq!((refusal, handset.bytes()), (0, before));
    }
    let bad = Handset { next: 10, ..five };
    assert_eq!(change_mode(bad, 2), Changed { refusal: 4, handset: bad });
    assert_eq!(change_mode(bad, 1), Changed { refusal: 5, handset: bad });
    assert_eq!(change_mode(bad, 0), Changed { refusal: 8, handset: bad });
}

/// The modes that a handset remembers, feed by feed: made in mode 1, with a change before
/// the feeds 0, 2 and 5.
#[test]
fn remembered_modes() {
    let mut handset = make(cell(1, 1)).handset;
    assert_eq!(handset.modes, 0b1_1111_1111_1111);
    let changes = [Some(0), None, Some(1), None, None, Some(0), None];
    let due = [
        0b1_1111_1111_1110,
        0b1_1111_1111_1100,
        0b1_1111_1111_1001,
        0b1_1111_1111_0011,
        0b1_1111_1110_0111,
        0b1_1111_1100_1110,
        0b1_1111_1001_1100,
    ];
    for (change, modes) in changes.into_iter().zip(due) {
        let before = handset.modes;
        handset = change.map_or(handset, |mode| changed(handset, mode));
        assert_eq!(handset.modes, before, "a change is no feed");
        handset = feed(handset, None).handset;
        assert_eq!(handset.modes, modes);
    }
    assert_eq!(make(cell(1, 0)).handset.modes, 0);
    assert_eq!(make(cell(5, 1)).handset, Handset::NONE);
}
