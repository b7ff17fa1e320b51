//! The refusals and their order: each argument at its limits, one past them and
//! far away, alone, in pairs, and all together.

use feedback_tests::compare::{Comparison, Lent};
use feedback_tests::form::{Form, FORMS};
use feedback_tests::model::Model;
use feedback_tests::{
    answered, inverse, make, reading, resource, window, AnsweredAnswer, ClaimsAnswer, Handset,
    InverseAnswer, ReadingAnswer, ResourceAnswer, Settings, WindowAnswer, NONE, NOT_TOLD,
};

/// The settings' special values: 0, each limit, one past it, 65535, and numbers
/// that would be allowed if only their low eight bits were read.
const CONFIG: &[u16] = &[0, 1, 5, 6, 7, 257, 65535];
const NRB: &[u16] = &[0, 5, 6, 50, 110, 111, 306, 65535];
const N1: &[u16] = &[0, 10, 2047, 2048, 65535];
const MODE: &[u16] = &[0, 1, 2, 256, 257, 65535];
const BLOCKS: &[u16] = &[0, 1, 2, 3, 257, 65535];

/// The special values of the other arguments.
const N: &[u16] = &[0, 2, 3, 9, 10, 258, 65535];
const POSITION: &[u16] = &[0, 1, 8, 9, 256, 65535];
const CCE: &[u16] = &[0, 6, 7, 133, 134, 256, 65535];
const RESOURCE: &[u16] = &[0, 9, 10, 131, 132, 2046, 2047, 3252, 3253, 32768, 65535];
const BIT: &[u16] = &[0, 1, 2, 257];
const CLAIM: &[u16] = &[0, 6, 7, 133, 134, 256, 2181, 2304, 65535];
const ROOM: &[u16] = &[0, 6, 7, 121, 122, 1205, 1206, 1207];
const BIT_ROOM: &[u16] = &[0, 1, 15, 16, 122, 150, 151, 152];

/// The arguments of each call, in order, by their special values. Of the claims,
/// the second of three and the length of the scratch are arguments; by bits the length
/// has special values of its own.
const SUBFRAME_CALL: [&[u16]; 6] = [CONFIG, NRB, N1, MODE, BLOCKS, N];
const RESOURCE_CALL: [&[u16]; 8] = [CONFIG, NRB, N1, MODE, BLOCKS, N, POSITION, CCE];
const INVERSE_CALL: [&[u16]; 7] = [CONFIG, NRB, N1, MODE, BLOCKS, N, RESOURCE];
const READING_CALL: [&[u16]; 9] = [CONFIG, NRB, N1, MODE, BLOCKS, N, RESOURCE, BIT, BIT];
const CLAIMS_CALL: [&[u16]; 8] = [CONFIG, NRB, N1, MODE, BLOCKS, N, CLAIM, ROOM];
const BIT_CLAIMS_CALL: [&[u16]; 8] = [CONFIG, NRB, N1, MODE, BLOCKS, N, CLAIM, BIT_ROOM];
const MAKE_CALL: [&[u16]; 5] = [CONFIG, NRB, N1, MODE, BLOCKS];

/// Arguments that are not refused, from which the changes start.
const WINDOW_STARTS: [[u16; 6]; 4] =
    [[1, 50, 10, 0, 1, 2], [5, 110, 2047, 0, 2, 2], [0, 6, 0, 1, 1, 9], [3, 25, 100, 1, 2, 3]];
const ANSWERED_STARTS: [[u16; 6]; 4] =
    [[1, 50, 10, 0, 1, 9], [5, 110, 2047, 0, 2, 9], [0, 6, 0, 1, 1, 1], [3, 25, 100, 1, 2, 8]];
const RESOURCE_STARTS: [[u16; 8]; 4] = [
    [1, 50, 10, 0, 1, 2, 1, 60],
    [5, 110, 2047, 0, 2, 2, 8, 133],
    [0, 6, 0, 1, 1, 9, 0, 6],
    [3, 25, 100, 1, 2, 3, 1, 20],
];
const INVERSE_STARTS: [[u16; 7]; 4] = [
    [1, 50, 10, 0, 1, 2, 131],
    [5, 110, 2047, 0, 2, 2, 3252],
    [0, 6, 0, 1, 1, 9, 6],
    [3, 25, 100, 1, 2, 3, 101],
];
const READING_STARTS: [[u16; 9]; 4] = [
    [1, 50, 10, 0, 1, 2, 131, 1, 0],
    [5, 110, 2047, 0, 2, 2, 3252, 0, 1],
    [0, 6, 0, 1, 1, 9, 6, 0, 0],
    [3, 25, 100, 1, 2, 3, 101, 0, 1],
];
const CLAIMS_STARTS: [[u16; 8]; 4] = [
    [1, 50, 10, 0, 1, 2, 256, 122],
    [5, 110, 2047, 0, 2, 2, 2181, 1206],
    [0, 6, 0, 1, 1, 9, 6, 7],
    [3, 25, 100, 1, 2, 3, 1, 122],
];
const BIT_CLAIMS_STARTS: [[u16; 8]; 4] = [
    [1, 50, 10, 0, 1, 2, 256, 16],
    [5, 110, 2047, 0, 2, 2, 2181, 151],
    [0, 6, 0, 1, 1, 9, 6, 1],
    [3, 25, 100, 1, 2, 3, 1, 16],
];

/// The calls on claims: the arguments by their special values, and where they start.
const CLAIMS_CALLS: [(Form, [&[u16]; 8], [[u16; 8]; 4]); 2] =
    [(Form::Bytes, CLAIMS_CALL, CLAIMS_STARTS), (Form::Bits, BIT_CLAIMS_CALL, BIT_CLAIMS_STARTS)];
const MAKE_STARTS: [[u16; 5]; 4] =
    [[1, 50, 10, 0, 1], [5, 110, 2047, 0, 2], [0, 6, 0, 1, 1], [3, 25, 100, 1, 2]];

fn compare_window(comparison: &mut Comparison, arguments: [u16; 6]) {
    let [config, nrb, n1, mode, blocks, n] = arguments;
    comparison.window(Settings::plain(config, nrb, n1, mode, blocks), n);
}

fn compare_answered(comparison: &mut Comparison, arguments: [u16; 6]) {
    let [config, nrb, n1, mode, blocks, subframe] = arguments;
    comparison.answered(Settings::plain(config, nrb, n1, mode, blocks), subframe);
}

fn compare_resource(comparison: &mut Comparison, arguments: [u16; 8]) {
    let [config, nrb, n1, mode, blocks, n, position, cce] = arguments;
    comparison.resource(Settings::plain(config, nrb, n1, mode, blocks), n, position, cce);
}

fn compare_inverse(comparison: &mut Comparison, arguments: [u16; 7]) {
    let [config, nrb, n1, mode, blocks, n, resource] = arguments;
    comparison.inverse(Settings::plain(config, nrb, n1, mode, blocks), n, resource);
}

fn compare_reading(comparison: &mut Comparison, arguments: [u16; 9]) {
    let [config, nrb, n1, mode, blocks, n, resource, b0, b1] = arguments;
    let settings = Settings::plain(config, nrb, n1, mode, blocks);
    comparison.reading(settings, n, NOT_TOLD, resource, b0, b1);
}

fn compare_claims(comparison: &mut Comparison, form: Form, lent: &mut Lent, arguments: [u16; 8]) {
    let [config, nrb, n1, mode, blocks, n, claim, room] = arguments;
    let settings = Settings::plain(config, nrb, n1, mode, blocks);
    comparison.claims(form, lent, settings, n, &[5, claim, 5], &vec![7; room.into()]);
}

/// Where the calls on claims start, each with its form.
fn claims_starts() -> impl Iterator<Item = (Form, [u16; 8])> {
    let of_form = |(form, _, starts): (Form, _, [[u16; 8]; 4])| starts.map(|start| (form, start));
    CLAIMS_CALLS.into_iter().flat_map(of_form)
}

fn compare_make(comparison: &mut Comparison, arguments: [u16; 5]) {
    let [config, nrb, n1, mode, blocks] = arguments;
    comparison.make(Settings::plain(config, nrb, n1, mode, blocks));
}

/// Every change of one argument to every 16-bit number.
fn alone<const A: usize>(start: [u16; A], mut each: impl FnMut([u16; A])) {
    (0..A).for_each(|at| alone_at(at, start, &mut each));
}

/// Every change of this argument to every 16-bit number.
fn alone_at<const A: usize>(at: usize, start: [u16; A], mut each: impl FnMut([u16; A])) {
    for value in 0..=65535 {
        let mut arguments = start;
        arguments[at] = value;
        each(arguments);
    }
}

/// Every change of two arguments to special values.
fn in_pairs<const A: usize>(start: [u16; A], call: [&[u16]; A], mut each: impl FnMut([u16; A])) {
    for (first, second) in pairs_below(A) {
        for one in call[first] {
            for other in call[second] {
                let mut arguments = start;
                arguments[first] = *one;
                arguments[second] = *other;
                each(arguments);
            }
        }
    }
}

/// The number of changes that `in_pairs` makes: half of what the square of the
/// sum has beyond the sum of the squares.
fn number_of_pairs(call: &[&[u16]]) -> u64 {
    let sizes = call.iter().map(|values| values.len() as u64);
    let square = sizes.clone().sum::<u64>().pow(2);
    (square - sizes.map(|size| size * size).sum::<u64>()) / 2
}

fn pairs_below(end: usize) -> impl Iterator<Item = (usize, usize)> {
    (0..end).flat_map(move |first| (first + 1..end).map(move |second| (first, second)))
}

/// Every way to give all arguments special values: a count in which each
/// argument is one digit.
fn all_together<const A: usize>(call: [&[u16]; A], mut each: impl FnMut([u16; A])) {
    for number in 0..number_of_all(&call) {
        let mut rest = number as usize;
        each(call.map(|values| {
            let digit = rest % values.len();
            rest /= values.len();
            values[digit]
        }));
    }
}

fn number_of_all(call: &[&[u16]]) -> u64 {
    call.iter().map(|values| values.len() as u64).product()
}

/// Of all ways together, those refused 1 to 6, counted by hand from the lists
/// above: what is refused n passed n − 1 causes. `others` counts the ways to
/// give the arguments that are not settings.
fn assert_settings_refused(comparison: &Comparison, others: u64) {
    let after_nrb = 5 * 6 * 6 * others;
    assert_eq!(comparison.refused(1), 3 * 8 * after_nrb);
    assert_eq!(comparison.refused(2), 4 * 5 * after_nrb);
    assert_eq!(comparison.refused(3), 4 * 3 * 2 * 6 * 6 * others);
    assert_eq!(comparison.refused(4), 4 * 3 * 3 * 4 * 6 * others);
    assert_eq!(comparison.refused(5), 3 * 3 * 6 * others);
    assert_eq!(comparison.refused(6), 7 * 3 * 3 * 4 * others);
}

#[test]
fn window_and_answered_with_arguments_changed() {
    let model = Model::new();
    type Compare = fn(&mut Comparison, [u16; 6]);
    let calls: [(Compare, _); 2] =
        [(compare_window, WINDOW_STARTS), (compare_answered, ANSWERED_STARTS)];
    for (compare, starts) in calls {
        let mut comparison = Comparison::with(&model);
        for start in starts {
            alone(start, |arguments| compare(&mut comparison, arguments));
            in_pairs(start, SUBFRAME_CALL, |arguments| compare(&mut comparison, arguments));
        }
        let compared = 4 * (6 * 65536 + number_of_pairs(&SUBFRAME_CALL));
        comparison.finish_with(compared, &[0, 1, 2, 3, 4, 5, 6, 7], &[]);
    }
}

#[test]
fn window_and_answered_with_all_arguments_special() {
    let model = Model::new();
    let mut comparison = Comparison::with(&model);
    all_together(SUBFRAME_CALL, |arguments| {
        compare_window(&mut comparison, arguments);
        compare_answered(&mut comparison, arguments);
    });
    comparison.finish_with(2 * number_of_all(&SUBFRAME_CALL), &[0, 7], &[]);
    assert_settings_refused(&comparison, 2 * 7);
}

#[test]
fn resource_with_one_argument_changed() {
    let model = Model::new();
    let mut comparison = Comparison::with(&model);
    for start in RESOURCE_STARTS {
        alone(start, |arguments| compare_resource(&mut comparison, arguments));
    }
    comparison.finish_with(4 * 8 * 65536, &[0, 1, 2, 3, 4, 5, 6, 7, 11], &[]);
}

#[test]
fn inverse_with_one_argument_changed() {
    let model = Model::new();
    let mut comparison = Comparison::with(&model);
    for start in INVERSE_STARTS {
        alone(start, |arguments| compare_inverse(&mut comparison, arguments));
    }
    comparison.finish_with(4 * 7 * 65536, &[0, 1, 2, 3, 4, 5, 6, 7, 13], &[]);
}

#[test]
fn resource_with_two_arguments_changed() {
    let model = Model::new();
    let mut comparison = Comparison::with(&model);
    for start in RESOURCE_STARTS {
        in_pairs(start, RESOURCE_CALL, |arguments| compare_resource(&mut comparison, arguments));
    }
    comparison.finish_with(4 * number_of_pairs(&RESOURCE_CALL), &[0, 1, 2, 3, 4, 5, 6, 7, 11], &[]);
}

#[test]
fn inverse_with_two_arguments_changed() {
    let model = Model::new();
    let mut comparison = Comparison::with(&model);
    for start in INVERSE_STARTS {
        in_pairs(start, INVERSE_CALL, |arguments| compare_inverse(&mut comparison, arguments));
    }
    comparison.finish_with(4 * number_of_pairs(&INVERSE_CALL), &[0, 1, 2, 3, 4, 5, 6, 7, 13], &[]);
}

#[test]
fn resource_with_all_arguments_special() {
    let model = Model::new();
    let mut comparison = Comparison::with(&model);
    all_together(RESOURCE_CALL, |arguments| compare_resource(&mut comparison, arguments));
    comparison.finish_with(7 * 8 * 5 * 6 * 6 * 7 * 6 * 7, &[], &[]);
    assert_settings_refused(&comparison, 7 * 6 * 7);
}

#[test]
fn inverse_with_all_arguments_special() {
    let model = Model::new();
    let mut comparison = Comparison::with(&model);
    all_together(INVERSE_CALL, |arguments| compare_inverse(&mut comparison, arguments));
    comparison.finish_with(7 * 8 * 5 * 6 * 6 * 7 * 11, &[], &[]);
    assert_settings_refused(&comparison, 7 * 11);
}

#[test]
fn reading_with_one_argument_changed() {
    let model = Model::new();
    let mut comparison = Comparison::with(&model);
    for start in READING_STARTS {
        alone(start, |arguments| compare_reading(&mut comparison, arguments));
    }
    comparison.finish_with(4 * 9 * 65536, &[0, 1, 2, 3, 4, 5, 6, 7, 13, 14], &[0, 1, 2]);
}

#[test]
fn reading_with_two_arguments_changed() {
    let model = Model::new();
    let mut comparison = Comparison::with(&model);
    for start in READING_STARTS {
        in_pairs(start, READING_CALL, |arguments| compare_reading(&mut comparison, arguments));
    }
    let compared = 4 * number_of_pairs(&READING_CALL);
    comparison.finish_with(compared, &[0, 1, 2, 3, 4, 5, 6, 7, 13, 14], &[0, 1, 2]);
}

#[test]
fn reading_with_all_arguments_special() {
    let model = Model::new();
    let mut comparison = Comparison::with(&model);
    all_together(READING_CALL, |arguments| compare_reading(&mut comparison, arguments));
    let compared = 7 * 8 * 5 * 6 * 6 * 7 * 11 * 4 * 4;
    comparison.finish_with(compared, &[0, 1, 2, 3, 4, 5, 6, 7, 13, 14], &[0, 1, 2]);
    assert_settings_refused(&comparison, 7 * 11 * 4 * 4);
}

#[test]
fn claims_with_two_arguments_changed() {
    let model = Model::new();
    let mut comparison = Comparison::with(&model);
    let mut lent = Lent::new(3);
    for (form, call, starts) in CLAIMS_CALLS {
        for start in starts {
            in_pairs(start, call, |arguments| {
                compare_claims(&mut comparison, form, &mut lent, arguments);
            });
        }
    }
    let compared = 4 * (number_of_pairs(&CLAIMS_CALL) + number_of_pairs(&BIT_CLAIMS_CALL)) * 2;
    comparison.finish_with(compared, &[0, 1, 2, 3, 4, 5, 6, 7, 15, 16], &[0, 2]);
}

#[test]
fn claims_with_all_arguments_special() {
    let model = Model::new();
    let mut comparison = Comparison::with(&model);
    let mut lent = Lent::new(3);
    let settings: [&[u16]; 5] = [&[1, 5, 7], &[50, 111], &[10, 2048], &[0, 1, 2], &[2, 3]];
    let [config, nrb, n1, mode, blocks] = settings;
    for (form, rooms) in [(Form::Bytes, ROOM), (Form::Bits, BIT_ROOM)] {
        let call = [config, nrb, n1, mode, blocks, &[2, 3, 10], &[6, 256, 65535], rooms];
        all_together(call, |arguments| compare_claims(&mut comparison, form, &mut lent, arguments));
    }
    let compared = 2 * 3 * 2 * 2 * 3 * 2 * 3 * 3 * 8 * 2;
    comparison.finish_with(compared, &[0, 1, 2, 3, 4, 5, 6, 7, 15, 16], &[0, 2]);
}

#[test]
fn make_with_arguments_changed() {
    let model = Model::new();
    let mut comparison = Comparison::with(&model);
    for start in MAKE_STARTS {
        alone(start, |arguments| compare_make(&mut comparison, arguments));
        in_pairs(start, MAKE_CALL, |arguments| compare_make(&mut comparison, arguments));
    }
    let compared = 4 * (5 * 65536 + number_of_pairs(&MAKE_CALL));
    comparison.finish_with(compared, &[0, 1, 2, 3, 4, 5, 6], &[]);
}

#[test]
fn make_with_all_arguments_special() {
    let model = Model::new();
    let mut comparison = Comparison::with(&model);
    all_together(MAKE_CALL, |arguments| compare_make(&mut comparison, arguments));
    // Three configurations have both modes, and 5 has one.
    comparison.finish(7 * 8 * 5 * 6 * 6, 7 * 3 * 3 * 2);
    assert_settings_refused(&comparison, 1);
}

/// One cause after another is put right, and the next number is answered: the
/// order, written out by hand.
#[test]
fn lowest_number_first() {
    let steps: [(u16, Settings, u16); 8] = {
        let all = Settings::plain(7, 5, 2048, 2, 0);
        let nrb = Settings { config: 5, ..all };
        let n1 = Settings { nrb: 6, ..nrb };
        let mode = Settings { n1: 2047, ..n1 };
        let no_multiplexing = Settings { mode: 1, ..mode };
        let blocks = Settings { mode: 0, ..no_multiplexing };
        let none = Settings { blocks: 1, ..blocks };
        [
            (1, all, 10),
            (2, nrb, 10),
            (3, n1, 10),
            (4, mode, 10),
            (5, no_multiplexing, 10),
            (6, blocks, 10),
            (7, none, 10),
            (0, none, 2),
        ]
    };
    for (number, settings, n) in steps {
        let last = |last| if number == 0 { last } else { number };
        let (here, answer) = match number {
            0 => {
                let window = [13, 12, 9, 8, 7, 5, 4, 11, 6];
                let order = [0, 1, 7, 2, 3, 4, 8, 5, 6];
                (WindowAnswer::of(&window, &order), AnsweredAnswer::refused(7))
            }
            _ => (WindowAnswer::refused(number), AnsweredAnswer::refused(number)),
        };
        assert_eq!(window(settings, n), here, "{settings:?}, n {n}");
        assert_eq!(answered(settings, n), answer, "{settings:?}, subframe {n}");
        let (pair, other) = (ResourceAnswer::refused(last(11)), InverseAnswer::refused(last(13)));
        assert_eq!(resource(settings, n, 9, 7), pair, "{settings:?}, n {n}, position 9, cce 7");
        assert_eq!(inverse(settings, n, 2046), other, "{settings:?}, n {n}, resource 2046");

        let read = ReadingAnswer::refused(last(13));
        assert_eq!(
            reading(settings, n, NOT_TOLD, 2046, 2, 2),
            read,
            "{settings:?}, n {n}, resource 2046"
        );
        let judged = ClaimsAnswer::refused(last(15), 0);
        for (form, mut scratch) in [(Form::Bytes, vec![3; 62]), (Form::Bits, vec![3; 7])] {
            let given = form.claims(settings, n, &[65535], &mut scratch);
            assert_eq!(given, judged, "{form}({settings:?}, n {n})");
            assert!(scratch.iter().all(|byte| *byte == 3), "{form}({settings:?}, n {n})");
        }
        let (made, refusal) = (make(settings), if number < 7 { number } else { 0 });
        let handset = if refusal == 0 { Handset::fresh(settings) } else { Handset::NONE };
        assert_eq!((made.refusal, made.handset), (refusal, handset), "{settings:?}");
    }
    // The last causes of the two longer calls: 14 after 13, and 16 after 15.
    let settings = Settings::plain(5, 6, 2047, 0, 1);
    assert_eq!(reading(settings, 2, NOT_TOLD, 2047, 2, 2), ReadingAnswer::refused(14));
    assert_eq!(reading(settings, 2, NOT_TOLD, 2047, 0, 1), ReadingAnswer::refused(14));
    assert_eq!(reading(settings, 2, NOT_TOLD, 2047, 1, 0), ReadingAnswer::bundled(0, 0, 1, 0));
    // Of 9 × 7 resources, a byte for each or a bit.
    for (form, mut scratch) in [(Form::Bytes, vec![3; 63]), (Form::Bits, vec![3; 8])] {
        let bad = form.claims(settings, 2, &[0, 0, 7], &mut scratch);
        assert_eq!(bad, ClaimsAnswer::refused(16, 2), "{form}");
        assert!(scratch.iter().all(|byte| *byte == 3), "{form}");
        let clash = form.claims(settings, 2, &[0, 0, 6], &mut scratch);
        assert_eq!(clash, ClaimsAnswer::clash(1), "{form}");
        assert_eq!((scratch[0], scratch[1..].iter().max()), (1, Some(&0)), "{form}");
    }
}

/// The special values of the scheduled resource and of the position told.
const SCHEDULED: &[u16] = &[0, 9, 10, 2046, 2047, 2048, 65534, 65535];
const TOLD: &[u16] = &[0, 1, 2, 8, 9, 256, 65534, 65535];

/// The settings with the scheduled resource among them, and the subframe.
const SCHEDULED_CALL: [&[u16]; 7] = [CONFIG, NRB, N1, MODE, BLOCKS, SCHEDULED, N];

/// The reading with all of its arguments.
const TOLD_CALL: [&[u16]; 11] =
    [CONFIG, NRB, N1, MODE, BLOCKS, SCHEDULED, N, TOLD, RESOURCE, BIT, BIT];

/// Arguments that are not refused: on a resource of the window, and on the scheduled
/// one, bundled and multiplexed.
const SCHEDULED_STARTS: [[u16; 7]; 4] = [
    [1, 50, 10, 0, 1, 9, 2],
    [5, 110, 2047, 0, 2, 2046, 2],
    [0, 6, 1, 1, 1, 0, 9],
    [3, 25, 100, 1, 2, 65535, 3],
];
const TOLD_STARTS: [[u16; 11]; 4] = [
    [1, 50, 10, 0, 1, 9, 2, 1, 131, 1, 0],
    [5, 110, 2047, 0, 2, 2046, 2, 8, 2046, 0, 1],
    [1, 50, 10, 1, 2, 9, 2, 1, 9, 1, 1],
    [3, 25, 100, 1, 1, 0, 3, 0, 0, 0, 1],
];

/// The calls that compare_all makes.
const CALLS: u64 = 6;

/// All calls that take settings and no list, with other arguments that are allowed
/// where settings and subframe are.
fn compare_all(comparison: &mut Comparison, settings: Settings, n: u16) {
    comparison.window(settings, n);
    comparison.answered(settings, n);
    comparison.resource(settings, n, 0, 0);
    comparison.inverse(settings, n, settings.n1);
    comparison.reading(settings, n, NOT_TOLD, settings.n1, 1, 0);
    comparison.make(settings);
}

fn compare_scheduled(comparison: &mut Comparison, arguments: [u16; 7]) {
    let [config, nrb, n1, mode, blocks, scheduled, n] = arguments;
    let settings = Settings::plain(config, nrb, n1, mode, blocks).with_scheduled(scheduled);
    compare_all(comparison, settings, n);
}

fn compare_told(comparison: &mut Comparison, arguments: [u16; 11]) {
    let [config, nrb, n1, mode, blocks, scheduled, n, told, resource, b0, b1] = arguments;
    let settings = Settings::plain(config, nrb, n1, mode, blocks).with_scheduled(scheduled);
    comparison.reading(settings, n, told, resource, b0, b1);
}

#[test]
fn scheduled_resource_with_arguments_changed() {
    let model = Model::new();
    let mut comparison = Comparison::with(&model);
    for start in SCHEDULED_STARTS {
        alone(start, |arguments| compare_scheduled(&mut comparison, arguments));
        in_pairs(start, SCHEDULED_CALL, |arguments| compare_scheduled(&mut comparison, arguments));
    }
    let compared = 4 * (7 * 65536 + number_of_pairs(&SCHEDULED_CALL)) * CALLS;
    comparison.finish_with(compared, &[0, 1, 2, 3, 4, 5, 6, 7, 17], &[]);
}

#[test]
fn scheduled_resource_with_all_arguments_special() {
    let model = Model::new();
    let mut comparison = Comparison::with(&model);
    all_together(SCHEDULED_CALL, |arguments| compare_scheduled(&mut comparison, arguments));
    comparison.finish_with(number_of_all(&SCHEDULED_CALL) * CALLS, &[0, 7], &[]);
    assert_settings_refused(&comparison, 8 * 7 * CALLS);
    // Of configuration and mode seven pairs pass, of N_RB three, of blocks two. Not
    // below N1 are seven scheduled resources where that is 0, five where it is 10
    // and three where it is 2047; 65535 is none.
    assert_eq!(comparison.refused(17), 7 * 3 * 2 * (7 + 5 + 3) * 7 * CALLS);
}

#[test]
fn claims_with_a_scheduled_resource() {
    let model = Model::new();
    let mut comparison = Comparison::with(&model);
    let mut lent = Lent::new(3);
    for (form, start) in claims_starts() {
        let [config, nrb, n1, mode, blocks, n, claim, room] = start;
        let around = [n1.saturating_sub(1), n1, n1 + 1];
        for scheduled in SCHEDULED.iter().copied().chain(around) {
            for (n1, n) in [(n1, n), (n1, 10), (2048, n)] {
                let settings = Settings::plain(config, nrb, n1, mode, blocks);
                let settings = settings.with_scheduled(scheduled);
                let scratch = vec![7; room.into()];
                comparison.claims(form, &mut lent, settings, n, &[5, claim, 5], &scratch);
                comparison.claims(form, &mut lent, settings, n, &[65535], &[]);
            }
        }
    }
    comparison.finish_with(2 * 4 * 11 * 3 * 2 * 2, &[0, 3, 7, 15, 17], &[0, 2]);
}

#[test]
fn told_reading_with_arguments_changed() {
    let model = Model::new();
    let mut comparison = Comparison::with(&model);
    for start in TOLD_STARTS {
        alone(start, |arguments| compare_told(&mut comparison, arguments));
        in_pairs(start, TOLD_CALL, |arguments| compare_told(&mut comparison, arguments));
    }
    let compared = 4 * (11 * 65536 + number_of_pairs(&TOLD_CALL));
    let refusals = [0, 1, 2, 3, 4, 5, 6, 7, 11, 13, 14, 17, 18];
    comparison.finish_with(compared, &refusals, &[0, 1, 2]);
}

#[test]
fn told_reading_with_all_arguments_special() {
    let model = Model::new();
    let mut comparison = Comparison::with(&model);
    let settings: [&[u16]; 5] = [&[1, 5, 7], &[50, 111], &[0, 10, 2048], &[0, 1, 2], &[1, 2, 3]];
    let [config, nrb, n1, mode, blocks] = settings;
    let (resource, bit): (&[u16], &[u16]) = (&[0, 9, 10, 131, 132, 65535], &[0, 1, 2]);
    let scheduled = &[0, 9, 10, 65534, 65535];
    let n = &[2, 3, 10];
    let call = [config, nrb, n1, mode, blocks, scheduled, n, TOLD, resource, bit, bit];
    all_together(call, |arguments| compare_told(&mut comparison, arguments));
    let refusals = [0, 1, 2, 3, 4, 5, 6, 7, 11, 13, 14, 17, 18];
    let replies = 6 * 3 * 3;
    let compared = 3 * 2 * 3 * 3 * 3 * 5 * 3 * 8 * replies;
    comparison.finish_with(compared, &refusals, &[0, 1, 2]);
    // Three pairs of configuration and mode and two numbers of blocks pass. Where N1
    // is 0 four scheduled resources are not below it, where it is 10 two are not; what
    // is left is none, or 0, 9 and none.
    assert_eq!(comparison.refused(17), 3 * 2 * (4 + 2) * 3 * 8 * replies);
    // Configuration 1 has windows of M = 2 and M = 1 here, in both modes, and 5 one of
    // 9: not below M are five, six and three of the told positions, below it two, one
    // and four.
    assert_eq!(comparison.refused(11), 2 * (1 + 3) * (2 * (5 + 6) + 3) * replies);
    assert_eq!(comparison.refused(18), 2 * (1 + 1) * (2 * (2 + 1) + 4) * replies);
}

/// The values tried of the prefix and of the special configuration.
const PREFIX: &[u16] = &[0, 1, 2, 256, 65535];
const SPECIAL: &[u16] = &[0, 4, 5, 6, 7, 8, 9, 263, 65535];

/// Prefix and special configuration behind the scheduled resource, among the settings
/// and the subframe, and among all arguments of the reading.
const SPECIAL_CALL: [&[u16]; 9] = [CONFIG, NRB, N1, MODE, BLOCKS, SCHEDULED, PREFIX, SPECIAL, N];
const SPECIAL_TOLD_CALL: [&[u16]; 13] =
    [CONFIG, NRB, N1, MODE, BLOCKS, SCHEDULED, PREFIX, SPECIAL, N, TOLD, RESOURCE, BIT, BIT];

/// Arguments that are not refused: with special subframes that carry data and with
/// short ones.
const SPECIAL_STARTS: [[u16; 9]; 4] = [
    [1, 50, 10, 0, 1, 9, 0, 7, 2],
    [5, 110, 2047, 0, 2, 2046, 1, 4, 2],
    [0, 6, 1, 1, 1, 0, 0, 5, 9],
    [3, 25, 100, 1, 2, 65535, 1, 6, 3],
];
const SPECIAL_TOLD_STARTS: [[u16; 13]; 4] = [
    [1, 50, 10, 0, 1, 9, 0, 8, 2, 1, 131, 1, 0],
    [5, 110, 2047, 0, 2, 2046, 1, 5, 2, 7, 2046, 0, 1],
    [1, 50, 10, 1, 2, 9, 0, 4, 2, 1, 9, 1, 1],
    [3, 25, 100, 1, 1, 0, 1, 0, 3, 0, 0, 0, 1],
];

fn compare_special(comparison: &mut Comparison, arguments: [u16; 9]) {
    let [config, nrb, n1, mode, blocks, scheduled, prefix, special, n] = arguments;
    let settings = Settings::plain(config, nrb, n1, mode, blocks).with_scheduled(scheduled);
    compare_all(comparison, settings.with_special(prefix, special), n);
}

fn compare_special_told(comparison: &mut Comparison, arguments: [u16; 13]) {
    let [config, nrb, n1, mode, blocks, scheduled, prefix, special, n, told, resource, b0, b1] =
        arguments;
    let settings = Settings::plain(config, nrb, n1, mode, blocks).with_scheduled(scheduled);
    let settings = settings.with_special(prefix, special);
    comparison.reading(settings, n, told, resource, b0, b1);
}

/// Where prefix and special configuration stand among the arguments.
const PREFIX_AND_SPECIAL: [usize; 2] = [6, 7];

#[test]
fn special_configuration_with_arguments_changed() {
    let model = Model::new();
    let mut comparison = Comparison::with(&model);
    for start in SPECIAL_STARTS {
        for at in PREFIX_AND_SPECIAL {
            alone_at(at, start, |arguments| compare_special(&mut comparison, arguments));
        }
        in_pairs(start, SPECIAL_CALL, |arguments| compare_special(&mut comparison, arguments));
    }
    let compared = 4 * (2 * 65536 + number_of_pairs(&SPECIAL_CALL)) * CALLS;
    comparison.finish_with(compared, &[0, 1, 2, 3, 4, 5, 6, 7, 17, 19], &[]);
}

#[test]
fn special_configuration_with_all_arguments_together() {
    let model = Model::new();
    let mut comparison = Comparison::with(&model);
    let settings: [&[u16]; 5] = [&[1, 5, 7], &[50, 111], &[0, 10, 2048], &[0, 1, 2], &[1, 2, 3]];
    let [config, nrb, n1, mode, blocks] = settings;
    let scheduled = &[0, 9, 10, 65535];
    let n = &[2, 3, 10];
    let call = [config, nrb, n1, mode, blocks, scheduled, PREFIX, SPECIAL, n];
    all_together(call, |arguments| compare_special(&mut comparison, arguments));
    let refusals = [0, 1, 2, 3, 4, 5, 6, 7, 17, 19];
    comparison.finish_with(3 * 2 * 3 * 3 * 3 * 4 * 45 * 3 * CALLS, &refusals, &[]);
    // Three pairs of configuration and mode and two numbers of blocks pass. Of the
    // scheduled resources three are not below N1 where that is 0, and one where it is
    // 10: one and three pass. Of the 45 pairs of prefix and special configuration six
    // and four are there.
    assert_eq!(comparison.refused(17), 3 * 2 * (3 + 1) * 45 * 3 * CALLS);
    assert_eq!(comparison.refused(19), 3 * 2 * (1 + 3) * (45 - 6 - 4) * 3 * CALLS);
}

#[test]
fn claims_with_a_special_configuration() {
    let model = Model::new();
    let mut comparison = Comparison::with(&model);
    let mut lent = Lent::new(3);
    for (form, start) in claims_starts() {
        let [config, nrb, n1, mode, blocks, n, claim, room] = start;
        for prefix in PREFIX {
            for special in SPECIAL {
                for (scheduled, n) in [(NONE, n), (NONE, 10), (2047, n)] {
                    let settings = Settings::plain(config, nrb, n1, mode, blocks);
                    let settings = settings.with_scheduled(scheduled);
                    let settings = settings.with_special(*prefix, *special);
                    let scratch = vec![7; room.into()];
                    comparison.claims(form, &mut lent, settings, n, &[5, claim, 5], &scratch);
                    comparison.claims(form, &mut lent, settings, n, &[65535], &[]);
                }
            }
        }
    }
    // Each list is lent in two ways, and in two forms. 19 comes behind 17, and before 7
    // and 15.
    comparison.finish_with(2 * 4 * 45 * 3 * 2 * 2, &[0, 7, 15, 17, 19], &[0, 2]);
    assert_eq!(comparison.refused(17), 2 * 4 * 45 * 2 * 2);
    assert_eq!(comparison.refused(19), 2 * 4 * 35 * 2 * 2 * 2);
    assert_eq!(comparison.refused(7), 2 * 4 * 10 * 2 * 2);
}

#[test]
fn told_short_special_with_arguments_changed() {
    let model = Model::new();
    let mut comparison = Comparison::with(&model);
    for start in SPECIAL_TOLD_STARTS {
        let mut compare = |arguments| compare_special_told(&mut comparison, arguments);
        for at in PREFIX_AND_SPECIAL {
            alone_at(at, start, &mut compare);
        }
        in_pairs(start, SPECIAL_TOLD_CALL, &mut compare);
    }
    let compared = 4 * (2 * 65536 + number_of_pairs(&SPECIAL_TOLD_CALL));
    let refusals = [0, 1, 2, 3, 4, 5, 6, 7, 11, 13, 14, 17, 18, 19, 20];
    comparison.finish_with(compared, &refusals, &[0, 1, 2]);
}

#[test]
fn told_short_special_with_all_arguments_together() {
    let model = Model::new();
    let mut comparison = Comparison::with(&model);
    let (config, mode, blocks): (&[u16], &[u16], &[u16]) = (&[1, 5, 7], &[0, 1, 2], &[1, 3]);
    let (prefix, special): (&[u16], &[u16]) = (&[0, 1, 2], &[0, 4, 5, 6, 7, 9]);
    let (scheduled, n): (&[u16], &[u16]) = (&[9, 10, 65535], &[2, 3, 10]);
    let told: &[u16] = &[0, 1, 2, 7, 8, 9, 256, 65534, 65535];
    let (resource, bit): (&[u16], &[u16]) = (&[9, 10, 131, 65535], &[0, 1, 2]);
    let settings = [config, &[50], &[10], mode, blocks, scheduled, prefix, special];
    let [config, nrb, n1, mode, blocks, scheduled, prefix, special] = settings;
    let call =
        [config, nrb, n1, mode, blocks, scheduled, prefix, special, n, told, resource, bit, bit];
    all_together(call, |arguments| compare_special_told(&mut comparison, arguments));
    let replies = 4 * 3 * 3;
    let compared = 3 * 3 * 2 * 3 * 18 * 3 * 9 * replies;
    comparison.finish_with(compared, &[0, 1, 4, 5, 6, 7, 11, 13, 14, 17, 18, 19, 20], &[0, 1, 2]);
    // Three pairs of configuration and mode pass, one number of blocks and two scheduled
    // resources, 9 and none. Of prefix and special configuration nine pairs are there,
    // and four of them are short.
    assert_eq!(comparison.refused(19), 3 * 2 * (18 - 9) * 3 * 9 * replies);
    // In configuration 1 the window of 2 has the special subframe 6 at position 1, and
    // that of 3 none; in 5 the window of 2 has 1 at position 7.
    assert_eq!(comparison.refused(20), 2 * 4 * (2 + 1) * replies);
    // Not below M are six, seven and three of the told positions, below it two, one and
    // five: of these one is short in the first and in the last.
    assert_eq!(comparison.refused(11), 2 * 9 * (2 * (6 + 7) + 3) * replies);
    assert_eq!(comparison.refused(18), (2 * (9 * (2 + 1) - 4) + 9 * 5 - 4) * replies);
}

/// The values tried of the ports.
const PORTS: &[u16] = &[0, 1, 2, 3, 257, 258, 65535];

/// The ports behind the special configuration, among the settings and the subframe.
const PORTS_CALL: [&[u16]; 10] =
    [CONFIG, NRB, N1, MODE, BLOCKS, SCHEDULED, PREFIX, SPECIAL, PORTS, N];

/// Arguments that are not refused: with two ports, and with one in a cell that may not have
/// two.
const PORTS_STARTS: [[u16; 10]; 4] = [
    [1, 50, 10, 0, 1, 65535, 0, 7, 2, 2],
    [5, 110, 2047, 0, 2, 65535, 1, 4, 2, 2],
    [0, 6, 1, 1, 1, 65535, 0, 5, 1, 9],
    [3, 25, 100, 0, 2, 99, 1, 6, 1, 3],
];

/// Where the ports stand among the arguments.
const PORTS_AT: usize = 8;

fn compare_ports(comparison: &mut Comparison, arguments: [u16; 10]) {
    let [config, nrb, n1, mode, blocks, scheduled, prefix, special, ports, n] = arguments;
    let settings = Settings::plain(config, nrb, n1, mode, blocks).with_scheduled(scheduled);
    compare_all(comparison, settings.with_special(prefix, special).with_ports(ports), n);
}

#[test]
fn ports_with_arguments_changed() {
    let model = Model::new();
    let mut comparison = Comparison::with(&model);
    for start in PORTS_STARTS {
        alone_at(PORTS_AT, start, |arguments| compare_ports(&mut comparison, arguments));
        in_pairs(start, PORTS_CALL, |arguments| compare_ports(&mut comparison, arguments));
    }
    let compared = 4 * (65536 + number_of_pairs(&PORTS_CALL)) * CALLS;
    comparison.finish_with(compared, &[0, 1, 2, 3, 4, 5, 6, 7, 17, 19, 24], &[]);
}

#[test]
fn ports_with_all_arguments_together() {
    let model = Model::new();
    let mut comparison = Comparison::with(&model);
    let settings: [&[u16]; 5] = [&[1, 5, 7], &[50, 111], &[0, 10, 2048], &[0, 1, 2], &[1, 3]];
    let [config, nrb, n1, mode, blocks] = settings;
    let (scheduled, n): (&[u16], &[u16]) = (&[0, 9, 10, 65535], &[2, 3, 10]);
    let (prefix, special): (&[u16], &[u16]) = (&[0, 1, 2], &[4, 7, 9]);
    let call = [config, nrb, n1, mode, blocks, scheduled, prefix, special, PORTS, n];
    all_together(call, |arguments| compare_ports(&mut comparison, arguments));
    let refusals = [0, 1, 2, 3, 4, 5, 6, 7, 17, 19, 24];
    comparison.finish_with(3 * 2 * 3 * 3 * 2 * 4 * 9 * 7 * 3 * CALLS, &refusals, &[]);
    // Three pairs of configuration and mode pass. Of the scheduled resources three are not
    // below N1 where that is 0, and one where it is 10; then one passes, that is none, and
    // two others beside it. Of the nine pairs of prefix and special configuration three are
    // there.
    assert_eq!(comparison.refused(17), 3 * (3 + 1) * 9 * 7 * 3 * CALLS);
    assert_eq!(comparison.refused(19), 3 * (1 + 3) * (9 - 3) * 7 * 3 * CALLS);
    // Five of the numbers are no number of ports. Two ports are refused in mode 1, which is
    // one of the three pairs, and with the two scheduled resources.
    let two_refused = (1 + 3) + 2 * 2;
    assert_eq!(comparison.refused(24), (3 * (1 + 3) * 5 + two_refused) * 3 * 3 * CALLS);
}

#[test]
fn claims_with_ports() {
    let model = Model::new();
    let mut comparison = Comparison::with(&model);
    let mut lent = Lent::new(3);
    for (form, start) in claims_starts() {
        let [config, nrb, n1, _, blocks, n, claim, room] = start;
        for ports in PORTS.iter().copied() {
            for (mode, scheduled, special, n) in
                [(0, NONE, 7, n), (0, NONE, 7, 10), (1, NONE, 7, n), (0, NONE, 9, n), (0, 0, 7, n)]
            {
                let settings = Settings::plain(config, nrb, n1, mode, blocks).with_ports(ports);
                let settings = settings.with_scheduled(scheduled).with_special(0, special);
                let scratch = vec![7; room.into()];
                comparison.claims(form, &mut lent, settings, n, &[5, claim, 5], &scratch);
                let more = vec![7; usize::from(room) + 1];
                comparison.claims(form, &mut lent, settings, n, &[5, claim, 5], &more);
                comparison.claims(form, &mut lent, settings, n, &[65535], &[]);
            }
        }
    }
    // Each list is lent in two ways, and in two forms. Of the four cells the second has no
    // multiplexing, and in the third N1 is 0, so that no resource is below it.
    let (lists, bad) = (3 * 2 * 2, 5);
    comparison.finish_with(4 * 7 * 5 * lists, &[0, 5, 7, 15, 17, 19, 24], &[0, 2]);
    assert_eq!(comparison.refused(5), 7 * lists);
    assert_eq!(comparison.refused(17), 7 * lists);
    assert_eq!(comparison.refused(19), 4 * 7 * lists);
    assert_eq!(comparison.refused(24), (4 * 2 * bad + 3 * (bad + 1) * 2) * lists);
    assert_eq!(comparison.refused(7), 4 * (7 - bad) * lists);
}

/// The order with 17, 19 and 24 directly behind 6, 20 directly behind 9 and 18 directly
/// behind 12, written out by hand: of a reading all causes are met, and one after another
/// is put right. A position that is not below M has no subframe, so 20 and 11 are never
/// met together.
#[test]
fn later_numbers_in_their_place() {
    let cells = Settings::one_cause_less();
    let [refused @ .., (_, short), (_, long)] = cells;
    let set = Settings { scheduled: 2046, ..long };
    let of_settings = refused.map(|(number, settings)| (number, settings, 10, 7, 2045));
    let of_reading: [(u16, Settings, u16, u16, u16); 7] = [
        (7, short, 10, 7, 2045),
        (20, short, 2, 7, 2045),
        (11, short, 2, 9, 2045),
        (18, short, 2, 8, 2045),
        (18, long, 2, 7, 2045),
        (13, set, 2, 7, 2045),
        (14, set, 2, 7, 2046),
    ];
    for (number, settings, n, told, resource) in of_settings.into_iter().chain(of_reading) {
        let read = reading(settings, n, told, resource, 2, 2);
        assert_eq!(read, ReadingAnswer::refused(number), "{settings:?}, n {n}, told {told}");
    }
    for told in [7, 8] {
        let read = ReadingAnswer::bundled(told, 0, 1, 0).as_block();
        assert_eq!(reading(set, 2, told, 2046, 1, 0), read);
    }
    let short_and_set = Settings { scheduled: 2046, ..short };
    for resource in [2045, 2046, 2047] {
        let read = reading(short_and_set, 2, 7, resource, 1, 0);
        assert_eq!(read, ReadingAnswer::refused(20), "on {resource}");
    }

    // 17, 19 and 24 come before 7 in every call with a subframe, and end the list of make.
    let [_, _, _, _, _, _, before_seven @ ..] = refused;
    assert_eq!(before_seven.map(|(number, _)| number), [17, 19, 19, 19, 24, 24]);
    for (number, settings) in before_seven {
        assert_eq!(window(settings, 10), WindowAnswer::refused(number));
        assert_eq!(answered(settings, 10), AnsweredAnswer::refused(number));
        assert_eq!(resource(settings, 10, 9, 7), ResourceAnswer::refused(number));
        assert_eq!(inverse(settings, 10, 2045), InverseAnswer::refused(number));
        for form in FORMS {
            let mut scratch = [3; 5];
            let refused = ClaimsAnswer::refused(number, 0);
            assert_eq!(form.claims(settings, 10, &[65535], &mut scratch), refused, "{form}");
            assert_eq!(scratch, [3; 5], "{form}");
        }
        let made = make(settings);
        assert_eq!((made.refusal, made.handset), (number, Handset::NONE));
    }
    assert_eq!(make(short_and_set).handset, Handset::fresh(short_and_set));
    assert_eq!(cells.map(|(_, settings)| make(settings).refusal), cells.map(|(number, _)| number));
}
