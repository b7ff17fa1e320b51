//! feedback_replay_size beside the model: every number of records in every configuration, every
//! byte of the settings, headers that are damaged, files of any bytes. The trace lies flush with
//! pages that are not mapped. Rules that differ from the papers' in one point are shown to answer
//! otherwise. tests/replay.rs asks for the size too wherever a header is at stake.

use feedback_tests::c::feedback_replay_size;
use feedback_tests::compare::{Comparison, LentTrace};
use feedback_tests::every::mixed_cells;
use feedback_tests::guarded::BOTH;
use feedback_tests::model::Model;
use feedback_tests::random::Random;
use feedback_tests::sizings::Found;
use feedback_tests::trace::{
    number_at, put_length, put_number, Trace, FIRST_AT, HEADER, LENGTH_AT, MOST_RECORDS, RECORD,
    RECORDS_AT, SETTINGS, SETTINGS_AT, WINDOW,
};
use feedback_tests::{replay_size, ReplaySizeAnswer, Settings, Slot};
use std::ptr::null;

/// The uplink subframes that have a window, by configuration.
const ANSWERED: [&[usize]; 7] =
    [&[2, 4, 7, 9], &[2, 3, 7, 8], &[2, 7], &[2, 3, 4], &[2, 3], &[2], &[2, 3, 4, 7, 8]];

/// How many windows so many records complete: those of whole frames, and those of the last.
fn windows_due(config: usize, records: usize) -> usize {
    let answered = ANSWERED[config];
    let of_the_last = answered.iter().filter(|n| **n < records % 10).count();
    records / 10 * answered.len() + of_the_last
}

/// Both orders of the parts.
fn in_both_orders(settings: Settings, records: &[Slot]) -> [Vec<u8>; 2] {
    let trace = Trace::new(settings, records);
    [trace.clone().bytes(), trace.records_first().bytes()]
}

/// Every number of records up to 400 and near the most, in every configuration, in both orders of
/// the parts.
#[test]
fn every_number_of_records() {
    let model = Model::new();
    let mut comparison = Comparison::with(&model);
    let mut lent = LentTrace::new();
    let numbers = || (0..=400).chain(MOST_RECORDS - 39..=MOST_RECORDS);
    for config in 0..7 {
        let settings = Settings::plain(config, 50, 10, 0, 1);
        for records in numbers() {
            let windows = windows_due(config.into(), records);
            for trace in in_both_orders(settings, &vec![Slot::NOTHING; records]) {
                let answer = comparison.replay_size(&mut lent, &trace);
                let due = ReplaySizeAnswer::of(windows, WINDOW * windows);
                assert_eq!(answer, due, "configuration {config}, {records} records");
            }
        }
    }
    let compared = 7 * numbers().count() as u64 * 2 * 2;
    comparison.finish(compared, compared);
}

/// Every byte of the settings with every value, in every configuration and mode, in both orders of
/// the parts.
#[test]
fn every_byte_of_the_settings() {
    let model = Model::new();
    let mut comparison = Comparison::with(&model);
    let mut lent = LentTrace::new();
    for (number, settings) in mixed_cells().into_iter().enumerate() {
        for mut trace in in_both_orders(settings, &vec![Slot::NOTHING; 3 + number]) {
            let start = number_at(&trace, SETTINGS_AT);
            for at in start..start + SETTINGS {
                let good = trace[at];
                for value in 0..=255 {
                    trace[at] = value;
                    let answer = comparison.replay_size(&mut lent, &trace);
                    assert!(value != good || answer.refusal == 0, "{answer:?}");
                }
                trace[at] = good;
            }
        }
    }
    let compared = 13 * 2 * SETTINGS as u64 * 256 * 2;
    comparison.finish_with(compared, &[0, 1, 2, 3, 4, 5, 6, 17, 19], &[]);
}

/// A number of the header becomes one beside it, one with another bit, one near the end of the
/// file, or any.
fn damage_number(file: &mut [u8], random: &mut Random) {
    let at = random.one_of(&[RECORDS_AT, FIRST_AT, SETTINGS_AT, LENGTH_AT]);
    let number = match random.below(5) {
        0 => number_at(file, at) + 1,
        1 => number_at(file, at).saturating_sub(1),
        2 => number_at(file, at) ^ 1 << random.below(16),
        3 => (file.len() + random.below(30)).saturating_sub(15),
        _ => random.any().into(),
    };
    put_number(file, at, number.min(65_535));
}

/// One to three bytes of the settings become any, or the mode that configuration 5 has not stands
/// beside it.
fn damage_settings(file: &mut [u8], random: &mut Random) {
    let start = number_at(file, SETTINGS_AT);
    if random.once_in(8) {
        (file[start], file[start + 2]) = (5, 1);
        return;
    }
    for _ in 0..1 + random.below(3) {
        file[start + random.below(SETTINGS)] = random.any_byte();
    }
}

/// The kind of a record becomes any.
fn damage_record(file: &mut [u8], random: &mut Random) {
    let (records, first) = (number_at(file, RECORDS_AT), number_at(file, FIRST_AT));
    if records > 0 {
        file[first + RECORD * random.below(records)] = random.any_byte();
    }
}

/// Once in two the header is given the length that the file has then, as far as it can be.
fn cut_or_lengthen(file: &mut Vec<u8>, random: &mut Random) {
    let length = file.len();
    let any = random.below(length);
    file.resize(random.one_of(&[any, HEADER, length - 1, length + 1, length + 65_536]), 0);
    if (HEADER..65_536).contains(&file.len()) && random.once_in(2) {
        put_length(file);
    }
}

/// A trace that a replay takes to the end, or one that is damaged.
fn damaged(model: &Model, random: &mut Random) -> Vec<u8> {
    let mut file = random.accepted_trace(model, 30);
    match random.below(8) {
        0 | 1 => damage_number(&mut file, random),
        2 => damage_settings(&mut file, random),
        3 => {
            damage_settings(&mut file, random);
            damage_number(&mut file, random);
        }
        4 => cut_or_lengthen(&mut file, random),
        5 => damage_record(&mut file, random),
        6 => {
            damage_record(&mut file, random);
            damage_settings(&mut file, random);
        }
        _ => {}
    }
    file
}

/// Traces in which a number of the header, the settings, a kind or the length is another, some
/// together.
#[test]
fn damaged_traces() {
    const TRACES: u64 = 5000;
    let model = Model::new();
    let mut comparison = Comparison::with(&model);
    let mut lent = LentTrace::new();
    let mut random = Random::new(1);
    let mut found = Found::default();
    for _ in 0..TRACES {
        let file = damaged(&model, &mut random);
        let due = comparison.replay_size(&mut lent, &file);
        found.hold(&model, &file, due);
    }
    comparison.finish_with(2 * TRACES, &[0, 1, 2, 3, 4, 5, 6, 17, 19, 21, 22], &[]);
    found.assert_caught_all_but(&[]);
}

/// Files of any bytes, most with their length in the header, and some with parts that fit.
#[test]
fn files_of_any_bytes() {
    const FILES: u64 = 60_000;
    let model = Model::new();
    let mut comparison = Comparison::with(&model);
    let mut lent = LentTrace::new();
    let mut random = Random::new(2);
    for _ in 0..FILES {
        let length = random.below(100);
        let mut file = random.bytes(length);
        if length >= HEADER && !random.once_in(8) {
            put_length(&mut file);
            if random.once_in(2) {
                put_number(&mut file, RECORDS_AT, random.below(8));
                put_number(&mut file, FIRST_AT, random.below(length));
                put_number(&mut file, SETTINGS_AT, random.below(length));
            }
        }
        comparison.replay_size(&mut lent, &file);
    }
    comparison.finish_with(2 * FILES, &[1, 2, 3, 4, 21, 22], &[]);
}

/// The trace is only read: a write ends the test.
#[test]
fn the_trace_is_only_read() {
    let model = Model::new();
    let mut lent = LentTrace::new();
    let mut random = Random::new(3);
    let mut refused = [0; 2];
    for _ in 0..1000 {
        let file = damaged(&model, &mut random);
        let due = model.replay_size(&file);
        for flush in BOTH {
            let answer = lent.read_only(&file, &[], flush, |read, _| replay_size(read));
            assert_eq!(answer, due);
        }
        refused[usize::from(due.refusal != 0)] += 1;
    }
    println!("not refused and refused: {refused:?}");
    assert!(refused.iter().all(|number| *number > 300));
}

/// No memory at all: an empty trace may be null.
#[test]
fn nothing_lent() {
    // SAFETY: the length says that nothing is lent.
    let answer = unsafe { feedback_replay_size(null(), 0) };
    assert_eq!(answer, ReplaySizeAnswer::refused(21));
}
