//! Two antenna ports: both resources of every pair, the inverse and the reading, which mean
//! the first port, refusal 24 in every call that takes settings, and the answers of a handset
//! with two ports beside those of one that has one. Claims and lent states have files of
//! their own.

use feedback_tests::compare::{Comparison, BANDWIDTHS, CCES, POSITIONS, WINDOWS};
use feedback_tests::every;
use feedback_tests::form::FORMS;
use feedback_tests::model::{edge, Model, NRB};
use feedback_tests::random::Random;
use feedback_tests::{
    answered, change_mode, feed, inverse, make, reading, resource, window, AnsweredAnswer, Block,
    Changed, ClaimsAnswer, Fed, Grant, Handset, Heard, InverseAnswer, Made, ReadingAnswer, Release,
    ResourceAnswer, Settings, Slot, WindowAnswer, NONE, NOT_TOLD,
};

/// Every window, bandwidth, position and CCE, and the first one beyond them: the second port
/// has the resource one above the first, which is that of one port; and one port has no second.
#[test]
fn both_resources_of_every_pair() {
    let model = Model::new();
    let mut comparison = Comparison::with(&model);
    for (settings, window) in every::window(&model, NRB, &[0, 10, 2047], &[(0, 2)]) {
        let (n, two) = (window.n, settings.with_ports(2));
        for position in 0..=window.size() {
            for cce in 0..=edge(settings.nrb, 4) {
                let one = resource(settings, n, position, cce);
                let both = resource(two, n, position, cce);
                let due = match one.refusal {
                    0 => ResourceAnswer::of_two(one.resource, one.resource + 1),
                    number => ResourceAnswer::refused(number),
                };
                assert!(
                    one.second == 0 && both == due,
                    "{settings:?}, n {n}, position {position}, cce {cce}: with one port {one:?}, \
                     with two {both:?}"
                );
                comparison.resource(two, n, position, cce);
            }
        }
    }
    let compared = (POSITIONS + WINDOWS) * (CCES + BANDWIDTHS) * 3;
    comparison.finish(compared, POSITIONS * CCES * 3);
    assert_eq!(comparison.refused(11), compared - POSITIONS * CCES * 3);
}

/// 02 prints (0, 10) with 20 and 21 and (1, 0) with 21 and 22. The last pair of the widest
/// window has the last two resources of all.
#[test]
fn resources_by_hand() {
    let cell = Settings::plain(1, 50, 10, 0, 1).with_ports(2);
    let of_two = ResourceAnswer::of_two;
    assert_eq!(resource(cell, 2, 0, 0), of_two(10, 11));
    assert_eq!(resource(cell, 2, 0, 10), of_two(20, 21));
    assert_eq!(resource(cell, 2, 1, 0), of_two(21, 22));
    assert_eq!(resource(cell, 2, 1, 10), of_two(31, 32));
    assert_eq!(resource(cell, 2, 0, 11), of_two(32, 33));
    assert_eq!(resource(cell, 2, 1, 60), of_two(131, 132));
    assert_eq!(resource(cell, 2, 1, 61), ResourceAnswer::refused(11));
    let widest = Settings::plain(5, 110, 2047, 0, 2).with_ports(2);
    assert_eq!(resource(widest, 2, 8, 133), of_two(3252, 3253));
    let lowest = Settings::plain(0, 6, 0, 0, 1).with_ports(2);
    assert_eq!(resource(lowest, 4, 0, 0), of_two(0, 1));
    assert_eq!(resource(lowest.with_ports(1), 4, 0, 0), ResourceAnswer::of(0));
    // 21 is the second of one pair and the first of another: it is read as the other. 132 is
    // only ever a second, and so it is no resource that could be read.
    assert_eq!(inverse(cell, 2, 21), InverseAnswer::of(1, 0));
    assert_eq!(inverse(cell, 2, 132), InverseAnswer::refused(13));
    assert_eq!(reading(cell, 2, NOT_TOLD, 21, 1, 0), ReadingAnswer::bundled(1, 0, 1, 0));
    assert_eq!(reading(cell, 2, NOT_TOLD, 132, 1, 0), ReadingAnswer::refused(13));
    assert_eq!(reading(cell, 2, NOT_TOLD, 9, 1, 0), ReadingAnswer::refused(13));
}

/// Every window, bandwidth and resource, and those around them: the inverse is that of one
/// port, so that 13 is given for the same resources, and what it gives has that resource first.
#[test]
fn the_inverse_means_the_first_port() {
    let model = Model::new();
    let mut comparison = Comparison::with(&model);
    for (settings, window) in every::window(&model, NRB, &[3, 2047], &[(0, 1)]) {
        let (n, two) = (window.n, settings.with_ports(2));
        let past_last = settings.n1 + window.size() * edge(settings.nrb, 4);
        for number in settings.n1 - 3..past_last + 3 {
            let (one, both) = (inverse(settings, n, number), inverse(two, n, number));
            assert_eq!(both, one, "{settings:?}, n {n}, resource {number}");
            let is_first = (settings.n1..past_last).contains(&number);
            assert_eq!(both.refusal, if is_first { 0 } else { 13 }, "{two:?}, {n}, {number}");
            if is_first {
                let back = resource(two, n, both.position, both.cce);
                assert_eq!(back, ResourceAnswer::of_two(number, number + 1), "{two:?}, n {n}");
            }
            comparison.inverse(two, n, number);
        }
    }
    let answered = POSITIONS * CCES * 2;
    comparison.finish(answered + WINDOWS * BANDWIDTHS * 6 * 2, answered);
}

/// The same for the reading, with bits that are a reply and bits that are none, and told a
/// position or not: no scheduled resource can be set.
#[test]
fn the_reading_means_the_first_port() {
    let model = Model::new();
    let mut comparison = Comparison::with(&model);
    for (settings, window) in every::window(&model, [6, 25, 50, 110], &[3, 2047], &[(0, 1), (0, 2)])
    {
        let (n, two) = (window.n, settings.with_ports(2));
        let past_last = settings.n1 + window.size() * edge(settings.nrb, 4);
        for number in settings.n1 - 3..past_last + 3 {
            for (b0, b1) in [(0, 0), (0, 1), (1, 0), (1, 1), (2, 0), (0, 2)] {
                let one = reading(settings, n, NOT_TOLD, number, b0, b1);
                let both = comparison.reading(two, n, NOT_TOLD, number, b0, b1);
                assert_eq!(both, one, "{settings:?}, n {n}, resource {number}, {b0} {b1}");
            }
            let told = number % (window.size() + 1);
            let both = comparison.reading(two, n, told, number, 1, 0);
            let due = if told < window.size() { 18 } else { 11 };
            assert_eq!(both, ReadingAnswer::refused(due), "{two:?}, n {n}, told {told}");
        }
    }
    // N_4 is 7, 30, 61 and 134. With one block two of the bits are a reply, with two four.
    let resources = POSITIONS * (7 + 30 + 61 + 134) * 2;
    let compared = (resources + WINDOWS * 4 * 2 * 6) * 2 * 7;
    comparison.finish(compared, resources * (2 + 4));
}

/// The settings and subframes of a call: n for those of an uplink one, and the downlink one
/// of which `feedback_answered` is asked.
#[derive(Clone, Copy, Debug)]
struct Asked {
    settings: Settings,
    n: u16,
    subframe: u16,
}

/// The calls that take settings.
const CALLS: usize = 8;

/// The whole answers of all of them to settings that are refused by this number. Only making a
/// handset has nothing to do with the subframe, and is not refused 7.
fn hold_refused(asked: Asked, number: u16) {
    let Asked { settings, n, subframe } = asked;
    assert_eq!(window(settings, n), WindowAnswer::refused(number), "{asked:?}");
    assert_eq!(answered(settings, subframe), AnsweredAnswer::refused(number), "{asked:?}");
    assert_eq!(resource(settings, n, 0, 0), ResourceAnswer::refused(number), "{asked:?}");
    assert_eq!(inverse(settings, n, settings.n1), InverseAnswer::refused(number), "{asked:?}");
    let read = reading(settings, n, NOT_TOLD, settings.n1, 1, 0);
    assert_eq!(read, ReadingAnswer::refused(number), "{asked:?}");
    for form in FORMS {
        // Neither the bad claim nor the short scratch is looked at.
        for (list, room) in [(&[0, 1][..], 1300), (&[65535], 0)] {
            let mut scratch = vec![5; room];
            let given = form.claims(settings, n, list, &mut scratch);
            assert_eq!(given, ClaimsAnswer::refused(number, 0), "{form}, {asked:?}");
            assert!(scratch.iter().all(|byte| *byte == 5), "{form}, {asked:?}");
        }
    }
    if number != 7 {
        let none = Made { refusal: number, handset: Handset::NONE };
        assert_eq!(make(settings), none, "{asked:?}");
    }
}

/// None of them is refused.
fn hold_answered(asked: Asked) {
    let Asked { settings, n, subframe } = asked;
    let mut refusals = vec![
        window(settings, n).refusal,
        answered(settings, subframe).refusal,
        resource(settings, n, 0, 0).refusal,
        inverse(settings, n, settings.n1).refusal,
        reading(settings, n, NOT_TOLD, settings.n1, 1, 0).refusal,
        make(settings).refusal,
    ];
    refusals.extend(FORMS.map(|form| form.claims(settings, n, &[0], &mut [5; 1300]).refusal));
    assert_eq!(refusals, [0; CALLS], "{asked:?}");
}

/// Every 16-bit number of ports in every call: of a cell that may have two, of one with a
/// scheduled resource, and of one that multiplexes.
#[test]
fn every_number_of_ports() {
    let cell = Settings::plain(1, 6, 10, 0, 2).with_special(1, 4);
    let cells = [cell, cell.with_scheduled(9), Settings { mode: 1, ..cell }];
    let (mut given, mut refused) = ([0; 3], 0);
    for (at, cell) in cells.into_iter().enumerate() {
        for ports in 0..=65535 {
            let asked = Asked { settings: cell.with_ports(ports), n: 2, subframe: 5 };
            match ports {
                1 => hold_answered(asked),
                2 if at == 0 => hold_answered(asked),
                _ => {
                    hold_refused(asked, 24);
                    refused += 1;
                    continue;
                }
            }
            given[at] += 1;
        }
    }
    assert_eq!((given, refused), ([2, 1, 1], 3 * 65536 - 4));
}

/// What settings and the subframe can have wrong beside the ports. 5 is met where the mode
/// is 1 in configuration 5.
type Cause = fn(&mut Asked);

const CAUSES: [(u16, Cause); 9] = [
    (1, |asked| asked.settings.config = 7),
    (2, |asked| asked.settings.nrb = 111),
    (3, |asked| asked.settings.n1 = 2048),
    (4, |asked| asked.settings.mode = 2),
    (6, |asked| asked.settings.blocks = 3),
    (17, |asked| asked.settings.scheduled = 65534),
    (19, |asked| asked.settings.special = 9),
    (19, |asked| asked.settings.prefix = 2),
    (7, |asked| (asked.n, asked.subframe) = (10, 10)),
];

/// Ports, mode and scheduled resource: allowed first, and then such that 24 is due.
const PORTS: [(u16, u16, u16); 8] = [
    (2, 0, NONE),
    (1, 0, 9),
    (0, 0, NONE),
    (3, 1, NONE),
    (65535, 0, 9),
    (2, 1, NONE),
    (2, 0, 9),
    (2, 1, 0),
];

/// 24 stands directly behind 19 and before 7: every set of the other causes with every way to
/// be refused 24 or not, in every configuration, for every call. The order is written out by
/// hand.
#[test]
fn twenty_four_in_its_place() {
    const ORDER: [u16; 10] = [1, 2, 3, 4, 5, 6, 17, 19, 24, 7];
    let mut counts = [0; 25];
    for config in 0..7 {
        for (at, (ports, mode, scheduled)) in PORTS.into_iter().enumerate() {
            for set in 0..1 << CAUSES.len() {
                let settings = Settings::plain(config, 50, 10, mode, 1).with_scheduled(scheduled);
                let settings = settings.with_ports(ports);
                // In every configuration 2 has a window and 0 is downlink.
                let mut asked = Asked { settings, n: 2, subframe: 0 };
                let in_set = CAUSES.iter().enumerate().filter(|(at, _)| set >> at & 1 == 1);
                let mut met: Vec<u16> = if at < 2 { vec![] } else { vec![24] };
                for (_, (number, cause)) in in_set {
                    cause(&mut asked);
                    met.push(*number);
                }
                if (asked.settings.config, asked.settings.mode) == (5, 1) {
                    met.push(5);
                }
                let first = ORDER.into_iter().find(|number| met.contains(number));
                match first {
                    None => hold_answered(asked),
                    Some(number) => hold_refused(asked, number),
                }
                if first == Some(7) {
                    let made = Made { refusal: 0, handset: Handset::fresh(asked.settings) };
                    assert_eq!(make(asked.settings), made, "{asked:?}");
                }
                counts[usize::from(first.unwrap_or(0))] += 1;
            }
        }
    }
    println!("by refusal {counts:?}");
    // Six ways of eight are refused 24; of the three with mode 1 those in configuration 5 are
    // refused 5. 7 is one of the two sets without any other cause.
    assert_eq!(counts[24], (7 * 6 - 3) * 2);
    assert_eq!((counts[0], counts[7]), (7 * 2, 7 * 2));
    assert!(ORDER.into_iter().all(|number| counts[usize::from(number)] > 0));
}

/// What a slot as in a trace says that a subframe heard.
fn heard(slot: Slot) -> Heard {
    let Slot { kind, cce, dai, results } = slot;
    let bit = |bit: u8| u16::from(results & bit != 0);
    let (blocks, first, second) = (1 + bit(Slot::TWO), bit(Slot::FIRST), bit(Slot::SECOND));
    let (cce, dai) = (cce.into(), dai.into());
    match kind {
        Slot::GRANT => Heard::Grant(Grant { blocks, first, second, cce, dai }),
        Slot::BLOCK => Heard::Block(Block { blocks, first, second }),
        Slot::RELEASE => Heard::Release(Release { cce, dai }),
        _ => Heard::Nothing,
    }
}

fn with_ports(handset: Handset, ports: u16) -> Handset {
    Handset { settings: handset.settings.with_ports(ports), ..handset }
}

/// What a handset with two ports answers if one with one port and the same memory answers
/// this.
fn of_two_ports(fed: Fed) -> Fed {
    let second = if fed.kind == Fed::BUNDLED { fed.resource + 1 } else { 0 };
    Fed { second, handset: with_ports(fed.handset, 2), ..fed }
}

/// Lists of feeds to two handsets, of which one has two ports: they answer alike but for the
/// second resource, whatever was lost and refused on the way, and the reading of the first
/// resource gives the same grant back. All configurations, with one block and two.
#[test]
fn a_handset_with_two_ports_answers_as_one_with_one() {
    const FEEDS: usize = 150;
    let model = Model::new();
    let mut comparison = Comparison::with(&model);
    let mut random = Random::new(90);
    let (mut replies, mut refused) = ([0; 7], 0);
    let bandwidths = [(6, 0), (50, 10), (110, 2047)];
    for settings in bandwidths.into_iter().flat_map(|(nrb, n1)| every::two_port_cell(nrb, n1)) {
        for (prefix, special) in every::SPECIALS {
            let settings = settings.with_special(prefix, special);
            let mut two = comparison.make(settings);
            let mut one = make(settings.with_ports(1)).handset;
            for slot in random.records(&model, settings, FEEDS) {
                let lost = random.once_in(8);
                let wild = random.once_in(8).then(|| random.wild_heard(settings, 3));
                let brought = if lost { Heard::Nothing } else { heard(slot) };
                for brought in wild.into_iter().chain([brought]) {
                    let given = comparison.feed(two, brought);
                    let beside = feed(one, brought);
                    let due = of_two_ports(beside);
                    assert_eq!(given, due, "{brought:?} to {two:?}");
                    if given.kind == Fed::BUNDLED {
                        let Fed { resource, b0, b1, .. } = given;
                        let [of_two, of_one] = [two, one].map(|handset: Handset| {
                            let Handset { settings, next, .. } = handset;
                            reading(settings, next, NOT_TOLD, resource, b0, b1)
                        });
                        assert!(of_two.refusal == 0 && of_two == of_one, "{of_two:?}, {of_one:?}");
                        replies[usize::from(settings.config)] += 1;
                    }
                    refused += u64::from(given.refusal != 0);
                    (two, one) = (given.handset, beside.handset);
                }
            }
        }
    }
    println!("{replies:?} replies by configuration, {refused} refused");
    let refusals = [0, 9, 10, 11, 12, 18, 20];
    comparison.finish_with(comparison.total(), &refusals, &[0, 1, 3, 4, 5]);
    assert_eq!(comparison.of_kind(Fed::MULTIPLEXED), 0);
    assert!(comparison.total() > (3 * 14 * 16 * FEEDS) as u64);
    assert!(replies.iter().all(|number| *number > 400) && refused > 4_000);
}

/// Mode changes to multiplexing are refused 24 at every place, in configuration 5 with 5, and
/// those to another number with 4: all is answered as if they had not been asked for.
#[test]
fn refused_changes_between_feeds() {
    let model = Model::new();
    let mut comparison = Comparison::with(&model);
    let mut random = Random::new(91);
    let mut replies = 0;
    for settings in every::two_port_cell(50, 10) {
        let records = random.records(&model, settings, 100);
        let mut without = make(settings).handset;
        let mut handset = without;
        for slot in records {
            let multiplexing = if settings.config == 5 { 5 } else { 24 };
            for (number, mode) in [(multiplexing, 1), (4, 2), (4, 257), (4, 65535), (0, 0)] {
                let changed = comparison.change_mode(handset, mode);
                let due = Changed { refusal: number, handset };
                assert_eq!(changed, due, "to mode {mode}: {handset:?}");
                handset = changed.handset;
            }
            let (given, due) = (feed(handset, heard(slot)), feed(without, heard(slot)));
            assert_eq!(given, due, "{slot:?} to {handset:?}");
            replies += u64::from(given.kind == Fed::BUNDLED && given.second > 0);
            (handset, without) = (given.handset, due.handset);
        }
    }
    comparison.finish(14 * 100 * 5, 14 * 100);
    assert_eq!(comparison.refused(24), 12 * 100);
    assert_eq!(comparison.refused(5), 2 * 100);
    println!("{replies} replies");
    assert!(replies > 150);
}

/// Kind, both resources and bits of an answer.
type Answer = (u16, [u16; 2], (u16, u16));

/// The answers of a run from a fresh handset with what is heard in some subframes.
fn run(settings: Settings, heard: &[(u16, Grant)]) -> [Answer; 30] {
    let mut handset = make(settings).handset;
    let mut s = 0;
    [(); 30].map(|()| {
        let here = heard.iter().find(|(at, _)| *at == s);
        let fed = feed(handset, here.map(|(_, grant)| *grant));
        assert_eq!(fed.refusal, 0, "{settings:?}, s {s}");
        handset = fed.handset;
        s += 1;
        (fed.kind, [fed.resource, fed.second], (fed.b0, fed.b1))
    })
}

const SILENT: Answer = (Fed::SILENT, [0, 0], (0, 0));

/// A one-block grant.
fn grant(cce: u16, dai: u16, decoded: bool) -> Grant {
    Grant { blocks: 1, first: decoded.into(), second: 0, cce, dai }
}

/// Configuration 2, n = 7, as the papers print it: the grant in 3, third in K, with first CCE
/// 5 has the resource 37, and so the second port 38. With DAI 3 instead of 2 a miss is shown,
/// and nothing is sent on either.
#[test]
fn replies_by_hand() {
    let settings = Settings::plain(2, 50, 10, 0, 1).with_ports(2);
    let heard = |dai| [(9, grant(0, 1, true)), (13, grant(5, dai, true))];
    let answers = run(settings, &heard(2));
    assert_eq!(answers[17], (Fed::BUNDLED, [37, 38], (1, 0)));
    assert_eq!(answers[12], SILENT);
    assert_eq!(answers[9], (Fed::TAKEN, [0, 0], (0, 0)));
    assert_eq!(run(settings, &heard(3))[17], SILENT);
    assert_eq!(run(settings.with_ports(1), &heard(2))[17], (Fed::BUNDLED, [37, 0], (1, 0)));
    assert_eq!(reading(settings, 7, NOT_TOLD, 37, 1, 0), ReadingAnswer::bundled(2, 5, 1, 0));
    // 38 would be read as another grant, of the same position.
    assert_eq!(reading(settings, 7, NOT_TOLD, 38, 1, 0), ReadingAnswer::bundled(2, 6, 1, 0));

    // Configuration 0 has windows of one; the uplink subframe 3 has none. Resource 0 is one.
    let settings = Settings::plain(0, 6, 0, 0, 2).with_ports(2);
    let answers = run(settings, &[(6, grant(0, 4, false)), (10, grant(6, 4, true))]);
    assert_eq!(answers[12], (Fed::BUNDLED, [0, 1], (0, 0)));
    assert_eq!(answers[13], (Fed::NO_WINDOW, [0, 0], (0, 0)));
    assert_eq!(answers[14], (Fed::BUNDLED, [6, 7], (1, 1)));

    // Configuration 5: the window of s = 22 has s = 14 at position 3, and s = 18, the last
    // heard, at position 6. N_3 is 97: 2 × 97 + 6 × 134 + 133 above N1.
    let settings = Settings::plain(5, 110, 2047, 0, 1).with_ports(2);
    let answers = run(settings, &[(14, grant(1, 1, true)), (18, grant(133, 2, true))]);
    assert_eq!(answers[22], (Fed::BUNDLED, [3178, 3179], (1, 0)));
    let handset = make(settings).handset;
    assert_eq!(change_mode(handset, 1), Changed::refused(5, handset));
}

/// A schedule has no place beside two ports: a scheduled block is refused 18, as where no
/// resource is set, and a release is answered on both ports.
#[test]
fn blocks_and_releases() {
    let settings = Settings::plain(1, 50, 10, 0, 2).with_ports(2);
    let mut handset = make(settings).handset;
    let block = Block { blocks: 1, first: 1, second: 1 };
    assert_eq!(feed(handset, Heard::Block(block)), Fed::refused(18, handset));
    handset = feed(handset, Heard::Release(Release { cce: 10, dai: 1 })).handset;
    assert_eq!(feed(handset, Heard::Block(block)), Fed::refused(18, handset));
    for _ in 1..7 {
        handset = feed(handset, Heard::Nothing).handset;
    }
    let fed = feed(handset, Heard::Nothing);
    let due = Fed::reply(Fed::BUNDLED, 20, (1, 1), fed.handset).with_second(21);
    assert_eq!(fed, due);
}
