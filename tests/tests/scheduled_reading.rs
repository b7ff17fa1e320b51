//! feedback_reading beside the model, told of a scheduled block; and what a
//! scheduled resource leaves as it was.

use feedback_tests::compare::{Comparison, Lent, POSITIONS, WINDOWS};
use feedback_tests::every::{self, MODE_AND_BLOCKS};
use feedback_tests::form::FORMS;
use feedback_tests::model::{edge, Model};
use feedback_tests::random::Random;
use feedback_tests::{
    answered, inverse, reading, resource, window, ReadingAnswer, Settings, NONE, NOT_TOLD,
};

/// Two bandwidths, with N_4 7 and 61.
const NRB: [u16; 2] = [6, 50];
const CCES: u64 = 7 + 61;

/// N1 and a scheduled resource below it.
const SCHEDULED: [(u16, u16); 4] = [(1, 0), (10, 9), (10, 3), (2047, 2046)];

/// Both bits, each a bit, or one past it, or the largest number.
const BITS: [u16; 4] = [0, 1, 2, 65535];

fn pairs(values: &[u16]) -> impl Iterator<Item = (u16, u16)> + '_ {
    values.iter().flat_map(move |one| values.iter().map(move |other| (*one, *other)))
}

/// A bundled reply has two meanings with one bit and four with two, at each position.
/// In mode 1 eleven windows bundle, four of M = 2 have 5 symbols, one of M = 3 has 10,
/// four of M = 4 have 15, and that of configuration 5 is refused.
const BUNDLED: u64 = (POSITIONS + 11) * (2 + 4);
const MULTIPLEXED: u64 = (4 * 5 + 10 + 4 * 15) * 2;

/// Every window and told position, those past its end too, on the resources around
/// the scheduled one and around the window's, with all bits.
#[test]
fn every_told_position_of_every_window() {
    let model = Model::new();
    let mut comparison = Comparison::with(&model);
    let mut as_block = [0; 3];
    let mut compared = 0;
    for (n1, scheduled) in SCHEDULED.into_iter().chain([(0, NONE), (10, NONE)]) {
        for (settings, window) in every::window(&model, NRB, &[n1], &MODE_AND_BLOCKS) {
            let settings = settings.with_scheduled(scheduled);
            let past_last = n1 + window.size() * edge(settings.nrb, 4);
            let mut resources = vec![0, n1.saturating_sub(1), n1, past_last - 1, past_last, 65534];
            resources.extend([scheduled.wrapping_sub(1), scheduled, scheduled.wrapping_add(1)]);
            resources.sort();
            resources.dedup();
            let beyond = [255, 256, 65534, NOT_TOLD];
            for told in (0..=window.size() + 1).chain(beyond) {
                for resource in resources.iter().copied() {
                    for (b0, b1) in pairs(&BITS) {
                        let read = comparison.reading(settings, window.n, told, resource, b0, b1);
                        as_block[usize::from(read.kind)] += u64::from(read.scheduled);
                        compared += 1;
                    }
                }
            }
        }
    }
    let refusals = [0, 5, 11, 13, 14, 18];
    comparison.finish_with(compared, &refusals, &[0, 1, 2]);
    assert_eq!(as_block, [0, 4 * 2 * BUNDLED, 4 * 2 * MULTIPLEXED]);
}

/// Every 16-bit number as the position told and as the resource.
#[test]
fn every_number_as_each_argument() {
    let model = Model::new();
    let mut comparison = Comparison::with(&model);
    for (settings, window) in every::window(&model, [50], &[10], &[(0, 2)]) {
        let settings = settings.with_scheduled(9);
        for any in 0..=65535 {
            comparison.reading(settings, window.n, any, 9, 0, 1);
            comparison.reading(settings, window.n, any, 10, 1, 0);
            comparison.reading(settings, window.n, 0, any, 1, 1);
        }
    }
    // On the scheduled resource the positions are read, on another one "not told" too,
    // and told a position the scheduled resource beside the window's own.
    let answered = POSITIONS + (POSITIONS + WINDOWS) + (POSITIONS * 61 + WINDOWS);
    comparison.finish(WINDOWS * 65536 * 3, answered);
}

/// On the window's own resources it makes no difference what is told and whether a
/// resource is set: a resource of the told position too is read as a grant.
#[test]
fn the_windows_own_resources() {
    let model = Model::new();
    let mut compared = 0;
    for (settings, window) in every::window(&model, NRB, &[10], &MODE_AND_BLOCKS) {
        let with = settings.with_scheduled(9);
        for number in 10..10 + window.size() * edge(settings.nrb, 4) {
            for (b0, b1) in pairs(&[0, 1]) {
                let due = reading(settings, window.n, NOT_TOLD, number, b0, b1);
                assert_eq!(due.scheduled, 0);
                for told in (0..window.size()).chain([NOT_TOLD]) {
                    let read = reading(with, window.n, told, number, b0, b1);
                    assert_eq!(read, due, "{with:?}, {window:?}, told {told}, {number}");
                    compared += 1;
                }
            }
        }
    }
    // Over the windows, M × (M + 1) pairs of a resource's position and a told one.
    let pairs = 11 * 2 + 4 * 6 + 12 + 4 * 20 + 90;
    assert_eq!(compared, pairs * CCES * 4 * 4);
}

/// Windows, resources and claims are those of the cell: a scheduled resource does not
/// move them, nor does the inverse know it.
#[test]
fn the_other_calls() {
    let model = Model::new();
    let mut random = Random::new(8);
    let mut lent = Lent::new(20);
    let mut comparison = Comparison::with(&model);
    for _ in 0..20_000 {
        let with = random.scheduled_settings();
        let without = Settings { scheduled: NONE, ..with };
        let place = random.window(&model, with.config);
        let (n, cces) = (place.n, edge(with.nrb, 4));
        let (position, cce) = (random.below16(place.size()), random.below16(cces));
        assert_eq!(window(with, n), window(without, n), "{with:?}");
        assert_eq!(answered(with, n), answered(without, n), "{with:?}");
        let there = resource(with, n, position, cce);
        assert_eq!(there, resource(without, n, position, cce), "{with:?}");
        assert!(there.refusal == 0 && there.resource > with.scheduled, "{with:?}, {there:?}");
        assert_eq!(inverse(with, n, there.resource), inverse(without, n, there.resource));
        assert_eq!(inverse(with, n, with.scheduled).refusal, 13, "{with:?}");
        let read = reading(with, n, NOT_TOLD, with.scheduled, 0, 0);
        assert_eq!(read, ReadingAnswer::refused(13), "{with:?}");
        let claim = |random: &mut Random| random.below16(place.size()) * 256 + random.below16(cces);
        let list: Vec<u16> = (0..random.below(20)).map(|_| claim(&mut random)).collect();
        for form in FORMS {
            let room = vec![7; form.need(usize::from(place.size() * cces)) + 3];
            let [given, due] = [with, without]
                .map(|cell| comparison.claims(form, &mut lent, cell, n, &list, &room));
            assert_eq!(given, due, "{form}, {with:?}");
        }
    }
    comparison.finish_with(20_000 * 2 * 2 * 2, &[0], &[1, 2]);
}
