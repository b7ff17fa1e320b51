//! The replay as feeds one by one, and the records of a trace by their numbers: every
//! record is asked for by feedback_record, what it has is fed by the C feeds, and the
//! bytes of each window are put together here. The answers of the records are compared
//! with the model.

use feedback_tests::c::feedback_record;
use feedback_tests::compare::{Comparison, LentTrace};
use feedback_tests::model::Model;
use feedback_tests::random::Random;
use feedback_tests::trace::{
    number_at, put_number, record_bytes, Trace, FIRST_AT, HEADER, MOST_RECORDS, RECORD, SETTINGS,
    SETTINGS_AT, WINDOW,
};
use feedback_tests::{
    feed_grant, feed_nothing, feed_release, feed_scheduled, make, record, replay, Block, Fed,
    Grant, Handset, RecordAnswer, Release, ReplayAnswer, Settings, Slot,
};
use std::ptr::null;

/// Feeds what a record has.
fn feed_record(handset: Handset, record: Slot) -> Fed {
    let Slot { kind, cce, dai, results } = record;
    let (cce, dai) = (cce.into(), dai.into());
    let [first, second, two] =
        [Slot::FIRST, Slot::SECOND, Slot::TWO].map(|bit| u16::from(results & bit != 0));
    let blocks = 1 + two;
    match kind {
        0 => feed_nothing(handset),
        Slot::GRANT => feed_grant(handset, Grant { blocks, first, second, cce, dai }),
        Slot::BLOCK => feed_scheduled(handset, Block { blocks, first, second }),
        Slot::RELEASE => feed_release(handset, Release { cce, dai }),
        _ => panic!("a record of kind {kind}"),
    }
}

/// The bytes of the window that a feed in subframe n answers, if it answers one.
fn window_of(n: u16, fed: &Fed) -> Vec<u8> {
    let Fed { resource, b0, b1, .. } = *fed;
    let number = match fed.kind {
        Fed::SILENT => 0,
        Fed::BUNDLED => 1,
        Fed::MULTIPLEXED => 2,
        _ => return Vec::new(),
    };
    [n, number, resource & 255, resource >> 8, b0, b1, 0, 0].map(|byte| byte as u8).to_vec()
}

/// The replay by the other calls: its answer, and the bytes of its windows.
fn one_by_one(settings: Settings, trace: &[u8]) -> (ReplayAnswer, Vec<u8>) {
    let made = make(settings);
    assert_eq!(made.refusal, 0, "{settings:?}");
    let mut handset = made.handset;
    let mut written = Vec::new();
    for next in 0..=MOST_RECORDS {
        let answer = record(trace, next);
        if answer == RecordAnswer::END {
            return (ReplayAnswer::done(written.len() / WINDOW), written);
        }
        assert_eq!((answer.refusal, answer.kind), (0, 1), "record {next}");
        let fed = feed_record(handset, answer.slot);
        if fed.refusal != 0 {
            return (ReplayAnswer::stopped(fed.refusal, next, written.len() / WINDOW), written);
        }
        written.extend(window_of(handset.next, &fed));
        handset = fed.handset;
    }
    panic!("the records have no end")
}

/// Random traces, most of them refused midway: the replay is the feeds one by one, and
/// bytes of the output past the windows written keep their values.
#[test]
fn equals_the_feeds_one_by_one() {
    let model = Model::new();
    let mut random = Random::new(1);
    let (mut kinds, mut refusals, mut windows) = ([0; 3], [0; 24], 0);
    for _ in 0..12_000 {
        let settings = random.mixed_settings();
        let number = random.below(60);
        let mut records = random.records(&model, settings, number);
        let times = random.one_of(&[5, 20, 100_000]);
        for each in &mut records {
            if random.once_in(times) {
                *each = random.spoilt(*each, settings);
            }
        }
        let trace = random.arranged(Trace::new(settings, &records)).bytes();
        let (due, written) = one_by_one(settings, &trace);
        let windows_due = model.windows_among(settings.config, records.len());
        let room = WINDOW * windows_due + random.below(12);
        let output = random.bytes(room);
        let mut left = output.clone();
        let given = replay(&trace, &mut left);
        assert!(
            given == due && left == [&written, &output[written.len()..]].concat(),
            "{settings:?}, {records:?}: the replay gives {given:?} and leaves {left:?}, the feeds \
             give {due:?} and {written:?}; the output was {output:?}"
        );
        kinds[usize::from(given.kind)] += 1;
        refusals[usize::from(given.refusal)] += 1;
        windows += u64::from(given.windows);
    }
    println!("{windows} windows, by kind {kinds:?}, by refusal {refusals:?}");
    assert!(kinds[1] > 3000 && kinds[2] > 3000 && windows > 50_000);
    assert!([9, 10, 11, 12, 18, 20].into_iter().all(|number: usize| refusals[number] > 50));
}

/// The same for the most records.
#[test]
fn equals_the_feeds_in_the_largest() {
    let model = Model::new();
    let mut random = Random::new(2);
    for config in 0..7 {
        let settings = Settings { config, mode: 0, ..random.scheduled_settings() };
        let records = random.records(&model, settings, MOST_RECORDS);
        let trace = Trace::new(settings, &records).bytes();
        let (due, written) = one_by_one(settings, &trace);
        let mut left = vec![7; written.len()];
        assert_eq!((replay(&trace, &mut left), due.kind), (due, ReplayAnswer::DONE));
        assert_eq!(left, written);
    }
}

/// The numbers of records that there are not, also such whose low bits, or whose bits
/// when four times as many bytes are counted, are those of a record.
fn past_the_end(count: usize) -> Vec<usize> {
    let wraps = [1 << 14, 1 << 16, 1 << 30, 1 << 32, 1 << 62, 1 << 63, 3 << 62];
    let mut numbers: Vec<usize> = (count..count + 3).collect();
    numbers.extend(wraps.into_iter().flat_map(|wrap: usize| [wrap, wrap + 1, wrap + count / 2]));
    numbers.extend([65_535, usize::MAX - 3, usize::MAX - 1, usize::MAX, usize::MAX / 4]);
    numbers
}

/// Every number of a record, and numbers of none, in traces of any arrangement. A kind
/// over 3 is refused where that record is asked for, and nowhere else. Settings, here of
/// any bytes in every other trace, are not judged.
#[test]
fn records_by_their_numbers() {
    let model = Model::new();
    let mut comparison = Comparison::with(&model);
    let mut lent = LentTrace::new();
    let mut random = Random::new(3);
    let (mut asked, mut bad) = (0, 0);
    for count in (0..40).cycle().take(400) {
        let settings = random.mixed_settings();
        let records = random.records(&model, settings, count);
        let mut bytes = random.arranged(Trace::new(settings, &records)).bytes();
        if random.once_in(2) {
            let at = number_at(&bytes, SETTINGS_AT);
            bytes[at..at + SETTINGS].fill(255);
        }
        for next in (0..count).chain(past_the_end(count)) {
            let answer = comparison.record(&mut lent, &bytes, next);
            assert_eq!(answer.kind, if next < count { 1 } else { 2 });
            asked += 2;
        }
        if count > 0 {
            let at = random.below(count);
            let kind_at = number_at(&bytes, FIRST_AT) + RECORD * at;
            bytes[kind_at] = random.one_of(&[4, 5, 128, 255]);
            for next in (0..count).chain(past_the_end(count)) {
                let answer = comparison.record(&mut lent, &bytes, next);
                assert_eq!(answer.refusal, if next == at { 22 } else { 0 });
                asked += 2;
            }
            bad += 2;
        }
    }
    comparison.finish_with(asked, &[0, 22], &[0, 1, 2]);
    assert_eq!(comparison.refused(22), bad);
}

/// Every byte of a record with every value: fields and bits that its kind does not use
/// are 0 in the answer, the others as they stand, and every kind over 3 is refused.
#[test]
fn used_fields_and_bits() {
    let model = Model::new();
    let mut comparison = Comparison::with(&model);
    let mut lent = LentTrace::new();
    let mut ask = |kind: u8, cce: u8, dai: u8, results: u8| {
        let slot = Slot { kind, cce, dai, results };
        let trace = Trace::new(Settings::plain(1, 50, 10, 0, 1), &[slot]).bytes();
        comparison.record(&mut lent, &trace, 0).slot
    };
    for byte in 0..=255 {
        for kind in 0..=3 {
            let (uses_pdcch, uses_results) = (kind == 1 || kind == 3, kind == 1 || kind == 2);
            for other in [0, 1, 2, 4, 129, 255] {
                let by_cce = ask(kind, byte, other, 255);
                let by_dai = ask(kind, other, byte, 255);
                let by_results = ask(kind, other, other, byte);
                assert_eq!(by_cce.cce, if uses_pdcch { byte } else { 0 });
                assert_eq!(by_dai.dai, if uses_pdcch { byte } else { 0 });
                assert!(by_results.results == 0 || uses_results);
            }
        }
        for results in [0, 1, 2, 7, 255] {
            ask(byte, 133, 4, results);
        }
    }
    comparison.finish_with((256 * 4 * 6 * 3 + 256 * 5) * 2, &[0, 22], &[0, 1]);
    assert_eq!(comparison.refused(22), 252 * 5 * 2);
}

/// The results of a grant or a block, worked out by hand: bit 1 is kept only with bit 2.
#[test]
fn results_by_hand() {
    let used = [0, 1, 0, 1, 4, 5, 6, 7];
    for high in (0..=255).step_by(8) {
        for (low, used) in (0..8).zip(used) {
            let results = high + low;
            let records = [
                Slot { kind: 0, cce: 1, dai: 2, results },
                Slot { kind: 1, cce: 1, dai: 2, results },
                Slot { kind: 2, cce: 1, dai: 2, results },
                Slot { kind: 3, cce: 1, dai: 2, results },
            ];
            let trace = Trace::new(Settings::plain(1, 50, 10, 0, 1), &records).bytes();
            let due = [
                Slot::NOTHING,
                Slot { kind: 1, cce: 1, dai: 2, results: used },
                Slot { kind: 2, cce: 0, dai: 0, results: used },
                Slot { kind: 3, cce: 1, dai: 2, results: 0 },
            ];
            for (next, slot) in due.into_iter().enumerate() {
                assert_eq!(record(&trace, next), RecordAnswer::read(slot), "results {results}");
            }
        }
    }
}

/// What the reader refuses: a file that is no trace, and parts that do not fit, whatever
/// record is asked for.
#[test]
fn no_records_to_be_had() {
    let settings = Settings::plain(1, 50, 10, 0, 1);
    let good = Trace::new(settings, &[Slot::release(5, 1); 3]).bytes();
    assert_eq!(record(&good, 2), RecordAnswer::read(Slot::release(5, 1)));
    for next in [0, 2, 3, usize::MAX] {
        for length in 0..good.len() {
            assert_eq!(record(&good[..length], next), RecordAnswer::refused(21));
        }
        let longer = [&good[..], &[0]].concat();
        assert_eq!(record(&longer, next), RecordAnswer::refused(21));
        for first in (0..18).chain(19..24).chain([65_535]) {
            let mut bad = good.clone();
            put_number(&mut bad, FIRST_AT, first);
            assert_eq!(record(&bad, next), RecordAnswer::refused(22), "first at {first}");
        }
        // SAFETY: the length says that nothing is lent.
        let nothing = unsafe { feedback_record(null(), 0, next) };
        assert_eq!(nothing, RecordAnswer::refused(21));
    }
}

/// Where a trace has no records every number is past the end, whatever their offset and
/// the settings are.
#[test]
fn a_trace_without_records() {
    let mut trace = Trace::new(Settings::plain(7, 0, 0, 9, 9), &[]).bytes();
    for first in [0, 7, 8, 17, 18, 65_535] {
        put_number(&mut trace, FIRST_AT, first);
        for next in [0, 1, 65_535, usize::MAX] {
            assert_eq!(record(&trace, next), RecordAnswer::END, "first at {first}");
        }
    }
}

/// The bytes of a record are those of a slot, in the same order.
#[test]
fn a_record_is_a_slot() {
    let slot = Slot { kind: 1, cce: 2, dai: 3, results: 7 };
    let trace = Trace::new(Settings::plain(1, 50, 10, 0, 2), &[slot]).bytes();
    assert_eq!(trace[HEADER + SETTINGS..], record_bytes(slot));
    assert_eq!(trace[HEADER + SETTINGS..], [1, 2, 3, 7]);
    assert_eq!(record(&trace, 0), RecordAnswer::read(slot));
}
