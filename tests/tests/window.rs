//! feedback_window and feedback_answered beside the model: Table 10.1-1 from
//! either side.

use feedback_tests::compare::{Comparison, BANDWIDTHS, POSITIONS, WINDOWS};
use feedback_tests::every::{self, MODE_AND_BLOCKS};
use feedback_tests::model::{frame, is_uplink, Model};
use feedback_tests::{answered, inverse, resource, window, AnsweredAnswer, Settings, WindowAnswer};

const TABLE: &str = include_str!("../data/table-10.1-1.csv");

fn cell(config: u16) -> Settings {
    Settings::plain(config, 50, 10, 0, 1)
}

/// Every configuration, subframe and bandwidth, allowed or not.
#[test]
fn every_subframe_and_bandwidth() {
    let model = Model::new();
    let (mut windows, mut answers) = (Comparison::with(&model), Comparison::with(&model));
    let bandwidths = (0..=255).chain([1000, 65535]);
    for (settings, subframe) in every::subframe(bandwidths, &[0, 2047, 2048], &MODE_AND_BLOCKS) {
        windows.window(settings, subframe);
        answers.answered(settings, subframe);
    }
    // Configuration 5, with its one window of nine, has one of the two modes.
    let compared = 10 * 259 * 258 * 3 * 4;
    windows.finish(compared, (2 * WINDOWS - 1) * BANDWIDTHS * 2 * 2);
    answers.finish(compared, (2 * POSITIONS - 9) * BANDWIDTHS * 2 * 2);
}

/// Every 16-bit number as the subframe of every configuration, and of the one past
/// them.
#[test]
fn every_number_as_the_subframe() {
    let model = Model::new();
    let (mut windows, mut answers) = (Comparison::with(&model), Comparison::with(&model));
    for config in 0..=7 {
        for any in 0..=65535 {
            windows.window(cell(config), any);
            answers.answered(cell(config), any);
        }
    }
    windows.finish(8 * 65536, WINDOWS);
    answers.finish(8 * 65536, POSITIONS);
}

/// The windows as the table prints them, one row of the file after the other,
/// and none in the other subframes.
#[test]
fn windows_as_printed() {
    let mut printed = vec![vec![WindowAnswer::refused(7); 21]; 7];
    for row in TABLE.lines().skip(1) {
        let fields: Vec<&str> = row.split(',').collect();
        let [config, n, k] = fields[..] else { panic!("three fields: {row}") };
        let number = |text: &str| text.parse::<u16>().expect("a number of the table");
        let k: Vec<u16> = k.split(' ').map(number).collect();
        // Time order is k falling: 13 comes first, if it is there, then 12, and so on.
        let place = |member: u16| k.iter().position(|k| *k == member).map(|place| place as u16);
        let order: Vec<u16> = (1..=13).rev().filter_map(place).collect();
        let [config, n] = [config, n].map(|text| usize::from(number(text)));
        printed[config][n] = WindowAnswer::of(&k, &order);
    }
    for (config, row) in (0..7).zip(&printed) {
        for (n, due) in (0..=20).zip(row) {
            assert_eq!(window(cell(config), n), *due, "configuration {config}, n {n}");
        }
        assert_eq!(window(cell(config), 65535), WindowAnswer::refused(7), "{config}");
    }
    let there = printed.iter().flatten().filter(|due| due.refusal == 0);
    assert_eq!(there.count() as u64, WINDOWS);
}

/// Each call undoes the other: what a window holds at a position is answered by
/// that window at that position, and every downlink subframe is in one.
#[test]
fn either_side_leads_to_the_other() {
    let (mut held, mut downlink) = (0, 0);
    for config in 0..7 {
        for n in 0..10 {
            let WindowAnswer { size, k, order, .. } = window(cell(config), n);
            for position in 0..size {
                let k = k[usize::from(position)];
                let subframe = (n + 20 - k) % 10;
                let due = AnsweredAnswer::of(n, k, position);
                assert_eq!(answered(cell(config), subframe), due, "{config}, {subframe}");
                held += 1;
            }
            let mut times: Vec<u16> = order.map(|at| k[usize::from(at)]).to_vec();
            times.truncate(size.into());
            assert!(times.windows(2).all(|two| two[0] > two[1]), "{config}, {n}: {times:?}");
        }
        for subframe in 0..10 {
            let AnsweredAnswer { refusal, n, k, position } = answered(cell(config), subframe);
            if is_uplink(config, subframe) {
                assert_eq!((refusal, n, k, position), (7, 0, 0, 0), "{config}, {subframe}");
                continue;
            }
            let here = window(cell(config), n);
            assert_eq!((refusal, n), (0, (subframe + k) % 10), "{config}, {subframe}");
            assert!(position < here.size, "{config}, {subframe}");
            assert_eq!(here.k[usize::from(position)], k, "{config}, {subframe}");
            downlink += 1;
        }
    }
    let letters = (0..7).flat_map(|config| frame(config).chars());
    assert_eq!(letters.filter(|letter| *letter != 'U').count() as u64, POSITIONS);
    assert_eq!((held, downlink), (POSITIONS, POSITIONS));
}

/// What a scheduler does: it looks up who answers for a grant, and asks for the
/// resource there.
#[test]
fn from_a_grant_to_its_resource() {
    let settings = cell(2);
    let answer = answered(settings, 3);
    assert_eq!(answer, AnsweredAnswer::of(7, 4, 2));
    assert_eq!(window(settings, 7), WindowAnswer::of(&[8, 7, 4, 6], &[0, 1, 3, 2]));
    let there = resource(settings, answer.n, answer.position, 5);
    assert_eq!((there.refusal, there.resource), (0, 37));
    let back = inverse(settings, answer.n, there.resource);
    assert_eq!((back.refusal, back.position, back.cce), (0, 2, 5));
}
