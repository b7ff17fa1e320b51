//! feedback_replay beside the model: good traces of every configuration and mode with
//! every byte replaced, cut, lengthened, their parts moved about; every room of the
//! output; the largest traces. Trace and output lie flush with pages that are not
//! mapped. The order of the refusals is written out by hand. Where the header is at
//! stake feedback_replay_size, feedback_record and feedback_trace_write are asked too.

use feedback_tests::c::feedback_replay;
use feedback_tests::compare::{Comparison, LentTrace, Overlapping};
use feedback_tests::every::mixed_cells;
use feedback_tests::guarded::BOTH;
use feedback_tests::model::Model;
use feedback_tests::random::Random;
use feedback_tests::trace::{
    number_at, one_cause_less, put_length, put_number, Due, Trace, FIRST_AT, HEADER, LENGTH_AT,
    LONGEST, MOST_RECORDS, MOST_WINDOWS, RECORD, RECORDS_AT, SETTINGS, SETTINGS_AT, WINDOW,
};
use feedback_tests::{record, replay, ReplayAnswer, ReplaySizeAnswer, Settings, Slot, WriteAnswer};
use std::ptr::{null, null_mut};

/// How many windows a frame has, by configuration.
const IN_A_FRAME: [usize; 7] = [4, 4, 2, 3, 2, 1, 5];

/// An output for the windows of a good trace and three bytes more, all of one value.
fn output_for(model: &Model, trace: &[u8]) -> Vec<u8> {
    let config = trace[number_at(trace, SETTINGS_AT)].into();
    let windows = model.windows_among(config, number_at(trace, RECORDS_AT));
    vec![77; WINDOW * windows + 3]
}

/// How many calls `ask_others` makes.
const ASKED: u64 = 5;

/// The size of the replay; the first record, one in the middle and the end of a trace that had so
/// many; and its writing, for which there is room if they are few.
fn ask_others(comparison: &mut Comparison, lent: &mut LentTrace, trace: &[u8], count: usize) {
    comparison.replay_size(lent, trace);
    for next in [0, count / 2, count] {
        comparison.record(lent, trace, next);
    }
    comparison.trace_write(lent, trace, &[77; 150]);
}

/// Every byte of good traces, the header too, with every value.
#[test]
fn every_byte_replaced() {
    let model = Model::new();
    let mut comparison = Comparison::with(&model);
    let mut lent = LentTrace::new();
    let mut compared = 0;
    for mut trace in Random::new(1).good_traces(&model, 20) {
        let output = output_for(&model, &trace);
        let count = number_at(&trace, RECORDS_AT);
        for at in 0..trace.len() {
            let good = trace[at];
            for value in 0..=255 {
                trace[at] = value;
                let answer = comparison.replay(&mut lent, &trace, &output);
                assert!(value != good || answer.kind == ReplayAnswer::DONE, "{answer:?}");
                compared += 2;
                if at < HEADER {
                    ask_others(&mut comparison, &mut lent, &trace, count);
                    compared += 2 * ASKED;
                }
            }
            trace[at] = good;
        }
    }
    assert!(compared > 900_000, "{compared}");
    let refusals = [0, 1, 2, 3, 4, 5, 6, 9, 10, 11, 12, 17, 18, 19, 20, 21, 22, 23];
    comparison.finish_with(compared, &refusals, &[0, 1, 2]);
}

/// Every prefix of good traces, and good traces with bytes behind them; as they are,
/// and with the length that they have now in the header.
#[test]
fn cut_and_lengthened() {
    let model = Model::new();
    let mut comparison = Comparison::with(&model);
    let mut lent = LentTrace::new();
    let mut random = Random::new(2);
    let (mut compared, mut not_21) = (0, 0);
    for trace in random.good_traces(&model, 20) {
        let output = output_for(&model, &trace);
        let count = number_at(&trace, RECORDS_AT);
        for length in (0..trace.len()).chain(trace.len() + 1..trace.len() + 20) {
            let mut file = trace.clone();
            file.truncate(length);
            file.extend(random.bytes(length - file.len()));
            assert_eq!(comparison.replay(&mut lent, &file, &output).refusal, 21);
            ask_others(&mut comparison, &mut lent, &file, count);
            compared += 2 * (1 + ASKED);
            if length >= HEADER {
                put_length(&mut file);
                assert_ne!(comparison.replay(&mut lent, &file, &output).refusal, 21);
                ask_others(&mut comparison, &mut lent, &file, count);
                compared += 2 * (1 + ASKED);
                not_21 += 2 * (1 + ASKED);
            }
        }
    }
    comparison.finish_with(compared, &[0, 21, 22], &[0, 1]);
    assert_eq!(comparison.refused(21), compared - not_21);
}

/// No file below eight bytes is a trace, also where the byte of the length that is there
/// would name it.
#[test]
fn too_short_for_a_header() {
    let model = Model::new();
    let mut comparison = Comparison::with(&model);
    let mut lent = LentTrace::new();
    for length in 0..HEADER {
        for value in 0..=255 {
            let file = vec![value; length];
            comparison.replay(&mut lent, &file, &[5; 8]);
            ask_others(&mut comparison, &mut lent, &file, 1);
        }
    }
    comparison.finish(8 * 256 * 2 * (1 + ASKED), 0);
    assert_eq!(comparison.refused(21), comparison.total());
}

/// No file over 65,535 bytes is a trace, whatever its header says: its length does not
/// come round to the low sixteen bits.
#[test]
fn too_long_for_a_header() {
    let model = Model::new();
    let mut comparison = Comparison::with(&model);
    let mut lent = LentTrace::new();
    for good in Random::new(3).good_traces(&model, 20) {
        let output = output_for(&model, &good);
        for more in [65_536, 65_536 - good.len()] {
            let mut file = good.clone();
            file.resize(good.len() + more, 0);
            put_number(&mut file, LENGTH_AT, (good.len() + more) % 65_536);
            comparison.replay(&mut lent, &file, &output);
            ask_others(&mut comparison, &mut lent, &file, 1);
        }
    }
    comparison.finish(13 * 2 * 2 * (1 + ASKED), 0);
    assert_eq!(comparison.refused(21), comparison.total());
}

/// Both other parts at every place of a small file and past its end, with up to four
/// records. The bytes in it are 0 to 3, so no kind is over 3, and N_RB is refused 2.
#[test]
fn parts_at_every_place() {
    let model = Model::new();
    let mut comparison = Comparison::with(&model);
    let mut lent = LentTrace::new();
    let mut random = Random::new(4);
    let mut file = random.bytes(40);
    file[HEADER..].iter_mut().for_each(|byte| *byte %= 4);
    put_length(&mut file);
    let places: Vec<usize> = (0..44).chain(65_524..=65_535).collect();
    for records in 0..=4 {
        put_number(&mut file, RECORDS_AT, records);
        for first in &places {
            put_number(&mut file, FIRST_AT, *first);
            for settings in &places {
                put_number(&mut file, SETTINGS_AT, *settings);
                comparison.replay(&mut lent, &file, &[5; 16]);
                ask_others(&mut comparison, &mut lent, &file, records);
            }
        }
    }
    let places = places.len() as u64;
    let calls = 2 * (1 + ASKED);
    comparison.finish_with(5 * places * places * calls, &[0, 2, 22], &[0, 1, 2]);
    // Behind the header there are 32 bytes. The settings have room at 23 places there.
    // With records beside them the bytes that are left are shared out to three gaps, and
    // either part may be the first.
    let apart = |records: u64| {
        let left = 32 - 10 - 4 * records;
        2 * ((left + 1) * (left + 2) / 2)
    };
    let fit: u64 = 23 * places + (1..=4).map(apart).sum::<u64>();
    assert_eq!(comparison.total() - comparison.refused(22), calls * fit);
}

/// Numbers of the header whose sums pass sixteen bits, in a small file and in one of
/// 65,535 bytes: nothing comes round.
#[test]
fn sums_past_sixteen_bits() {
    let model = Model::new();
    let mut comparison = Comparison::with(&model);
    let mut lent = LentTrace::new();
    let records = [0, 1, 2, 16_378, 16_379, 16_380, 16_383, 16_384, 16_385, 32_768, 49_152, 65_535];
    let mut compared = 0;
    for length in [26, LONGEST] {
        let mut file = vec![0; length];
        put_length(&mut file);
        // The last places of both parts, the places behind these, and some of the first.
        let ends = [length - 11, length - 10, length - 9, length - 5, length - 4, length - 3];
        let wrapped = [65_516, 65_526, 65_527, 65_532, 65_534, 65_535];
        let places: Vec<usize> = [0, 7, 8, 9, 17, 18, 19].into_iter().chain(ends).collect();
        for records in records {
            put_number(&mut file, RECORDS_AT, records);
            for first in places.iter().chain(&wrapped) {
                put_number(&mut file, FIRST_AT, *first);
                for settings in places.iter().chain(&wrapped) {
                    put_number(&mut file, SETTINGS_AT, *settings);
                    comparison.replay(&mut lent, &file, &[5; 8]);
                    ask_others(&mut comparison, &mut lent, &file, records);
                    compared += 2 * (1 + ASKED);
                }
            }
        }
    }
    // Where the parts fit, the settings are of zeros: N_RB 0 is refused by the replay, its size
    // and the writing, and the three records are to be had.
    comparison.finish_with(compared, &[0, 2, 22], &[0, 1, 2]);
    assert_eq!(comparison.refused(2), comparison.refused(0));
}

/// Where there are no records, their offset may be any number.
#[test]
fn no_records_at_any_offset() {
    let model = Model::new();
    let mut comparison = Comparison::with(&model);
    let mut lent = LentTrace::new();
    let mut trace = Trace::new(Settings::plain(1, 50, 10, 0, 1), &[]).bytes();
    assert_eq!(trace.len(), HEADER + SETTINGS);
    for first in 0..=65_535 {
        put_number(&mut trace, FIRST_AT, first);
        let answer = comparison.replay(&mut lent, &trace, &[5; 3]);
        assert_eq!(answer, ReplayAnswer::done(0), "first record at {first}");
        let size = comparison.replay_size(&mut lent, &trace);
        assert_eq!(size, ReplaySizeAnswer::of(0, 0), "first record at {first}");
    }
    comparison.finish(65_536 * 2 * 2, 65_536 * 2 * 2);
}

/// The records complete as many windows as there are uplink subframes with one among
/// them: eight bytes for each are enough and one byte less is not.
#[test]
fn room_for_the_windows() {
    let model = Model::new();
    let mut comparison = Comparison::with(&model);
    let mut lent = LentTrace::new();
    let large = [99, 100, 101, 1000, 4095, 4096, 8191, 8192, 12_345, 16_378, MOST_RECORDS];
    let (mut compared, mut short) = (0, 0);
    for config in 0..7 {
        for records in (0..=60).chain(large) {
            let settings = Settings::plain(config, 50, 10, 0, 1);
            let trace = Trace::new(settings, &vec![Slot::NOTHING; records]).bytes();
            let windows = model.windows_among(config, records);
            if records % 10 == 0 {
                assert_eq!(windows, records / 10 * IN_A_FRAME[usize::from(config)]);
            }
            let need = WINDOW * windows;
            for room in [need, need + 1, need + 13] {
                let answer = comparison.replay(&mut lent, &trace, &vec![9; room]);
                assert_eq!(answer, ReplayAnswer::done(windows));
            }
            let rooms = [need.wrapping_sub(1), need.wrapping_sub(8), need / 2, 0];
            for room in rooms.into_iter().filter(|room| *room < need) {
                let answer = comparison.replay(&mut lent, &trace, &vec![9; room]);
                assert_eq!(answer, ReplayAnswer::refused(23));
                short += 2;
            }
            compared += 6;
        }
    }
    comparison.finish(compared + short, compared);
    assert_eq!(comparison.refused(23), short);
    assert_eq!(model.windows_among(6, MOST_RECORDS), MOST_WINDOWS);
}

/// 23 goes by all records of the header, also where the first of them will be refused
/// and nothing will be written.
#[test]
fn room_though_a_record_is_refused() {
    let mut stopped = 0;
    for config in 0..7 {
        for (records, at) in [(10, 0), (10, 1), (40, 0), (40, 25), (1000, 999)] {
            let mut list = vec![Slot::NOTHING; records];
            list[at] = Slot::grant(255, 1, 1);
            let trace = Trace::new(Settings::plain(config, 50, 10, 0, 1), &list).bytes();
            let need = WINDOW * records / 10 * IN_A_FRAME[usize::from(config)];
            let mut output = vec![9; need];
            let short = replay(&trace, &mut output[1..]);
            assert_eq!((short, &output), (ReplayAnswer::refused(23), &vec![9; need]));
            let answer = replay(&trace, &mut output);
            assert_eq!((answer.kind, usize::from(answer.record)), (ReplayAnswer::STOPPED, at));
            stopped += 1;
        }
    }
    assert_eq!(stopped, 35);
}

/// The most records, replayed to the end and stopped at the last one, in every cell.
#[test]
fn largest_traces() {
    let model = Model::new();
    let mut comparison = Comparison::with(&model);
    let mut lent = LentTrace::new();
    let mut random = Random::new(5);
    for settings in mixed_cells() {
        let mut records = random.records(&model, settings, MOST_RECORDS);
        let gap = random.bytes(LONGEST - HEADER - SETTINGS - RECORD * MOST_RECORDS);
        let windows = model.windows_among(settings.config, MOST_RECORDS);
        let trace = Trace::new(settings, &records).with_gaps([&gap, &[], &[]]).bytes();
        assert_eq!(trace.len(), LONGEST);
        let answer = comparison.replay(&mut lent, &trace, &vec![9; WINDOW * windows]);
        assert_eq!(answer, ReplayAnswer::done(windows));

        records[MOST_RECORDS - 1] = Slot::grant(255, 1, 1);
        let trace = Trace::new(settings, &records).with_gaps([&[], &gap, &[]]).records_first();
        let answer = comparison.replay(&mut lent, &trace.bytes(), &[9; WINDOW * MOST_WINDOWS]);
        assert_eq!(answer.kind, ReplayAnswer::STOPPED);
        assert_eq!(usize::from(answer.record), MOST_RECORDS - 1);
    }
    comparison.finish(13 * 2 * 2, 13 * 2);
}

/// The order 21, 22, 1 to 6, 17, 19, 23, and then by records 9, 20, 10, 11, 12, 18: all
/// causes are met, and one after another is put right.
#[test]
fn one_cause_after_another() {
    let refused = ReplayAnswer::refused;
    for (step, (due, trace)) in one_cause_less().into_iter().enumerate() {
        let bytes = trace.bytes();
        for room in [0, 7, 8] {
            // Record 2 completes the only window: it takes eight bytes, also where a record
            // before it is refused.
            let due = match due {
                Due::Refused(refusal) => refused(refusal),
                _ if room < 8 => refused(23),
                Due::Stopped(refusal, record) => {
                    ReplayAnswer::stopped(refusal, record, usize::from(record > 2))
                }
                Due::Done => ReplayAnswer::done(1),
            };
            let mut output = vec![9; room];
            assert_eq!(replay(&bytes, &mut output), due, "step {step}, {room}: {trace:?}");
            let written: &[u8] = if due.windows == 1 { &[2, 0, 0, 0, 0, 0, 0, 0] } else { &[] };
            let left = [written, &vec![9; room - written.len()]].concat();
            assert_eq!(output, left, "step {step}, {room}: {trace:?}");
            // 22 and 21 come before all of them.
            for (refusal, at, number) in
                [(22, SETTINGS_AT, 7), (21, LENGTH_AT, 33), (21, LENGTH_AT, 35)]
            {
                let mut bad = bytes.clone();
                put_number(&mut bad, at, number);
                let mut output = vec![9; room];
                assert_eq!(replay(&bad, &mut output), refused(refusal));
                put_number(&mut bad, RECORDS_AT, 65_535);
                put_number(&mut bad, FIRST_AT, 65_535);
                assert_eq!(replay(&bad, &mut output), refused(refusal));
                assert_eq!(output, vec![9; room]);
            }
        }
    }
}

/// The numbers of the settings in a trace, each at its limits, one past them and as far
/// as its bytes reach, in pairs; with a kind over 3 in the last record 22 comes first,
/// with no room 23 after them all. The size looks at neither.
#[test]
fn settings_at_their_limits() {
    let model = Model::new();
    let mut comparison = Comparison::with(&model);
    let mut lent = LentTrace::new();
    let bytes: [&[usize]; 6] = [
        &[0, 1, 5, 6, 7, 255],
        &[0, 5, 6, 50, 110, 111, 255],
        &[0, 1, 2, 255],
        &[0, 1, 2, 3, 255],
        &[0, 4, 5, 6, 7, 8, 9, 255],
        &[0, 1, 2, 255],
    ];
    let numbers: [&[usize]; 2] =
        [&[0, 10, 255, 256, 2047, 2048, 65_535], &[0, 9, 10, 255, 2046, 2047, 65_534, 65_535]];
    let values = |at: usize| if at < 6 { bytes[at] } else { numbers[at - 6] };
    let put = |trace: &mut Vec<u8>, at: usize, value: usize| match at {
        0..6 => trace[HEADER + at] = value as u8,
        _ => put_number(trace, HEADER + 6 + 2 * (at - 6), value),
    };
    let starts = [
        Settings::plain(1, 50, 10, 0, 1).with_scheduled(9),
        Settings::plain(5, 110, 2047, 0, 2).with_special(1, 4),
        Settings::plain(4, 6, 300, 1, 2).with_scheduled(256).with_special(0, 8),
    ];
    let mut pairs = 0;
    for start in starts {
        for first in 0..8 {
            for second in first + 1..8 {
                for one in values(first) {
                    for other in values(second) {
                        let mut trace = Trace::new(start, &[Slot::NOTHING; 4]).bytes();
                        put(&mut trace, first, *one);
                        put(&mut trace, second, *other);
                        comparison.replay(&mut lent, &trace, &[9; 20]);
                        comparison.replay(&mut lent, &trace, &[9; 7]);
                        comparison.trace_write(&mut lent, &trace, &[9; 34]);
                        comparison.trace_write(&mut lent, &trace, &[9; 33]);
                        let size = comparison.replay_size(&mut lent, &trace);
                        let last = trace.len() - RECORD;
                        trace[last] = 4;
                        let answer = comparison.replay(&mut lent, &trace, &[9; 20]);
                        assert_eq!(answer, ReplayAnswer::refused(22));
                        let answer = comparison.trace_write(&mut lent, &trace, &[9; 34]);
                        assert_eq!(answer, WriteAnswer::refused(22));
                        assert_eq!(comparison.replay_size(&mut lent, &trace), size);
                        pairs += 1;
                    }
                }
            }
        }
    }
    comparison.finish_with(pairs * 8 * 2, &[0, 1, 2, 3, 4, 5, 6, 17, 19, 22, 23], &[0, 1]);
    assert_eq!(comparison.refused(22), pairs * 2 * 2);
}

/// The trace is only read, also where nothing would change in it: a write ends the test.
#[test]
fn the_trace_is_only_read() {
    let model = Model::new();
    let mut lent = LentTrace::new();
    let mut random = Random::new(7);
    let mut kinds = [0; 3];
    for _ in 0..20 {
        for mut trace in random.good_traces(&model, 30) {
            let output = output_for(&model, &trace);
            let room = output.len() - 4 * random.below(2);
            if random.once_in(2) {
                let at = random.below(trace.len());
                trace[at] = random.any_byte();
            }
            for flush in BOTH {
                let next = random.below(50);
                let both = |read: &[u8], left: &mut [u8]| (replay(read, left), record(read, next));
                let (answer, read) = lent.read_only(&trace, &output[..room], flush, both);
                assert_eq!(answer, model.replay(&trace, &output[..room]).0);
                assert_eq!(read, model.record(&trace, next));
                kinds[usize::from(answer.kind)] += 1;
            }
        }
    }
    println!("by kind {kinds:?}");
    assert!(kinds.iter().all(|number| *number > 20));
}

/// No memory at all: an empty trace and an empty output may be null.
#[test]
fn nothing_lent() {
    let none = Trace::new(Settings::plain(1, 50, 10, 0, 1), &[]).bytes();
    let two = Trace::new(Settings::plain(1, 50, 10, 0, 1), &[Slot::NOTHING; 2]).bytes();
    let three = Trace::new(Settings::plain(1, 50, 10, 0, 1), &[Slot::NOTHING; 3]).bytes();
    let mut output = [9; 8];
    let (out, room) = (output.as_mut_ptr(), output.len());
    // SAFETY: the lengths say that nothing is lent where the pointers are null.
    unsafe {
        assert_eq!(feedback_replay(null(), 0, null_mut(), 0), ReplayAnswer::refused(21));
        assert_eq!(feedback_replay(null(), 0, out, room), ReplayAnswer::refused(21));
        for trace in [&none, &two] {
            let answer = feedback_replay(trace.as_ptr(), trace.len(), null_mut(), 0);
            assert_eq!(answer, ReplayAnswer::done(0));
        }
        let short = feedback_replay(three.as_ptr(), three.len(), null_mut(), 0);
        assert_eq!(short, ReplayAnswer::refused(23));
    }
    assert_eq!(output, [9; 8]);
}

/// A trace that overlaps the output is the caller's breach, and the answer is not fixed.
/// But nothing is touched beyond what was lent, and nothing is written outside of the
/// output.
#[test]
fn overlapping_trace_and_output() {
    let model = Model::new();
    let mut random = Random::new(6);
    let mut lent = Overlapping::new();
    let traces: Vec<Vec<u8>> = (0..8).flat_map(|_| random.good_traces(&model, 40)).collect();
    let (mut calls, mut written) = (0, 0);
    for trace in traces.iter().cycle().take(40_000) {
        let room = output_for(&model, trace).len() + random.below(40);
        calls += 1;
        written += u64::from(lent.call(trace, room, &mut random, feedback_replay));
    }
    println!("{calls} calls, {written} of them wrote");
    assert_eq!(calls, 40_000);
    assert!(written > 20_000);
}
