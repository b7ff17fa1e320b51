//! feedback_trace_write beside the model: random traces, and good ones of every
//! configuration and mode with every byte replaced, cut, lengthened, their parts at every
//! place; every record; every room of the output; a refused record at every number; the
//! largest traces. Trace and output lie flush with pages that are not mapped. The order of
//! the refusals is written out by hand.

use feedback_tests::c::feedback_trace_write;
use feedback_tests::compare::{Comparison, LentTrace, Overlapping};
use feedback_tests::every::mixed_cells;
use feedback_tests::guarded::BOTH;
use feedback_tests::model::{is_short, is_uplink, Model};
use feedback_tests::random::Random;
use feedback_tests::trace::{
    number_at, one_cause_less, put_length, put_number, record_bytes, spelled_length, Due, Trace,
    FIRST_AT, HEADER, LENGTH_AT, LONGEST, LONGEST_SPELLED, MOST_RECORDS, RECORD, RECORDS_AT,
    SETTINGS, SETTINGS_AT, SPELLED_FIRST,
};
use feedback_tests::{trace_write, Settings, Slot, WriteAnswer};
use std::ptr::{null, null_mut};

/// A grant that is refused in every subframe.
const NEVER_TAKEN: Slot = Slot::grant(255, 1, 1);

/// Why it is refused there.
fn refusal_of_never_taken(settings: Settings, subframe: u16) -> u16 {
    if is_uplink(settings.config, subframe) {
        9
    } else if is_short(settings, subframe) {
        20
    } else {
        11
    }
}

/// An output for a good trace in its one spelling and three bytes more, all of one value.
fn output_for(trace: &[u8]) -> Vec<u8> {
    vec![77; spelled_length(number_at(trace, RECORDS_AT)) + 3]
}

/// What the engine writes for a good trace.
fn written(trace: &[u8]) -> Vec<u8> {
    let mut output = output_for(trace);
    let bytes = spelled_length(number_at(trace, RECORDS_AT));
    assert_eq!(trace_write(trace, &mut output), WriteAnswer::done(bytes));
    output.truncate(bytes);
    output
}

/// Random traces of any settings and arrangement, and the same damaged: a byte is another,
/// or the file is cut or lengthened, and its header's length with it or not.
#[test]
fn random_traces() {
    let model = Model::new();
    let mut comparison = Comparison::with(&model);
    let mut lent = LentTrace::new();
    let mut random = Random::new(9);
    for _ in 0..10_000 {
        let mut trace = random.accepted_trace(&model, 50);
        let output = output_for(&trace);
        let answer = comparison.trace_write(&mut lent, &trace, &output);
        assert_eq!(answer.kind, WriteAnswer::DONE);
        let at = random.below(trace.len());
        match random.below(4) {
            0 => trace.truncate(at),
            1 => trace.extend(random.bytes(1 + at % 9)),
            _ => trace[at] = random.any_byte(),
        }
        if trace.len() >= HEADER && random.once_in(2) {
            put_length(&mut trace);
        }
        comparison.trace_write(&mut lent, &trace, &output);
    }
    let refusals = [0, 1, 2, 3, 4, 5, 6, 9, 10, 11, 12, 17, 18, 19, 20, 21, 22];
    comparison.finish_with(10_000 * 2 * 2, &refusals, &[0, 1, 2]);
}

/// Every byte of good traces, the header too, with every value.
#[test]
fn every_byte_replaced() {
    let model = Model::new();
    let mut comparison = Comparison::with(&model);
    let mut lent = LentTrace::new();
    let mut compared = 0;
    for mut trace in Random::new(1).good_traces(&model, 10) {
        let output = output_for(&trace);
        for at in 0..trace.len() {
            let good = trace[at];
            for value in 0..=255 {
                trace[at] = value;
                let answer = comparison.trace_write(&mut lent, &trace, &output);
                assert!(value != good || answer.kind == WriteAnswer::DONE, "{answer:?}");
                compared += 2;
            }
            trace[at] = good;
        }
    }
    assert!(compared > 500_000, "{compared}");
    let refusals = [0, 1, 2, 3, 4, 5, 6, 9, 10, 11, 12, 17, 18, 19, 20, 21, 22];
    comparison.finish_with(compared, &refusals, &[0, 1, 2]);
}

/// Every prefix of good traces, and good traces with bytes behind them; as they are, and
/// with the length that they have now in the header. Bytes behind leave no mark.
#[test]
fn cut_and_lengthened() {
    let model = Model::new();
    let mut comparison = Comparison::with(&model);
    let mut lent = LentTrace::new();
    let mut random = Random::new(2);
    let (mut compared, mut lengthened) = (0, 0);
    for trace in random.good_traces(&model, 20) {
        let (output, due) = (output_for(&trace), written(&trace));
        for length in (0..trace.len()).chain(trace.len() + 1..trace.len() + 20) {
            let mut file = trace.clone();
            file.truncate(length);
            file.extend(random.bytes(length - file.len()));
            let answer = comparison.trace_write(&mut lent, &file, &output);
            assert_eq!(answer, WriteAnswer::refused(21));
            compared += 2;
            if length >= HEADER {
                put_length(&mut file);
                comparison.trace_write(&mut lent, &file, &output);
                compared += 2;
            }
            if length > trace.len() {
                assert_eq!(written(&file), due, "{} bytes more", length - trace.len());
                lengthened += 1;
            }
        }
    }
    comparison.finish_with(compared, &[0, 21, 22], &[0, 1]);
    assert_eq!(lengthened, 13 * 19);
}

/// Puts a part into a file, if it has room there.
fn put_part(file: &mut [u8], at: usize, part: &[u8]) {
    if let Some(place) = file.get_mut(at..at + part.len()) {
        place.copy_from_slice(part);
    }
}

/// Both other parts at every place of a small file and past its end, with up to four
/// records. Wherever they lie apart, the same bytes are written: places, order and gaps
/// leave no mark.
#[test]
fn parts_at_every_place() {
    let model = Model::new();
    let mut comparison = Comparison::with(&model);
    let mut lent = LentTrace::new();
    let mut random = Random::new(3);
    let settings = Settings::plain(2, 50, 300, 0, 2).with_scheduled(6);
    let records = [Slot::block(7), Slot::release(3, 1), Slot::NOTHING, Slot::grant(60, 2, 5)];
    let places: Vec<usize> = (0..44).chain(65_524..=65_535).collect();
    for count in 0..=4 {
        let due = Trace::new(settings, &records[..count]).bytes();
        for first in &places {
            for settings_at in &places {
                let mut file = random.bytes(40);
                put_part(&mut file, *first, &due[SPELLED_FIRST..]);
                put_part(&mut file, *settings_at, &due[HEADER..SPELLED_FIRST]);
                put_number(&mut file, RECORDS_AT, count);
                put_number(&mut file, FIRST_AT, *first);
                put_number(&mut file, SETTINGS_AT, *settings_at);
                put_length(&mut file);
                let answer = comparison.trace_write(&mut lent, &file, &[9; 40]);
                if answer.kind == WriteAnswer::DONE {
                    assert_eq!(written(&file), due, "{count} at {first}, settings {settings_at}");
                }
            }
        }
    }
    let places = places.len() as u64;
    comparison.finish_with(5 * places * places * 2, &[0, 22], &[0, 1]);
    // Behind the header there are 32 bytes. The settings have room at 23 places there.
    // With records beside them the bytes that are left are shared out to three gaps, and
    // either part may be the first.
    let apart = |records: u64| {
        let left = 32 - 10 - 4 * records;
        2 * ((left + 1) * (left + 2) / 2)
    };
    let fit: u64 = 23 * places + (1..=4).map(apart).sum::<u64>();
    assert_eq!(comparison.refused(0), 2 * fit);
}

/// Where there are no records, their offset may be any number, and 18 is written.
#[test]
fn no_records_at_any_offset() {
    let model = Model::new();
    let mut comparison = Comparison::with(&model);
    let mut lent = LentTrace::new();
    let mut trace = Trace::new(Settings::plain(1, 50, 10, 0, 1), &[]).bytes();
    let due = [0, 0, 18, 0, 8, 0, 18, 0, 1, 50, 0, 1, 7, 0, 10, 0, 255, 255];
    for first in 0..=65_535 {
        put_number(&mut trace, FIRST_AT, first);
        comparison.trace_write(&mut lent, &trace, &[5; 20]);
        assert_eq!(written(&trace), due, "first record at {first}");
    }
    comparison.finish(65_536 * 2, 65_536 * 2);
}

/// Eighteen bytes and four for each record are enough, one byte less is not, and what is
/// beyond them stays.
#[test]
fn every_room() {
    let model = Model::new();
    let mut comparison = Comparison::with(&model);
    let mut lent = LentTrace::new();
    let mut random = Random::new(4);
    let (mut compared, mut short) = (0, 0);
    for records in [0, 5, 12] {
        for trace in random.good_traces(&model, records) {
            let need = spelled_length(number_at(&trace, RECORDS_AT));
            for room in 0..=need + 3 {
                let output = random.bytes(room);
                let answer = comparison.trace_write(&mut lent, &trace, &output);
                let due = match room < need {
                    true => WriteAnswer::refused(23),
                    false => WriteAnswer::done(need),
                };
                assert_eq!(answer, due, "room {room} of {need}");
                compared += 2;
                short += if room < need { 2 } else { 0 };
            }
        }
    }
    comparison.finish(compared, compared - short);
    assert_eq!(comparison.refused(23), short);
}

/// A refused record at every number, alone and with every later one refused too: the
/// first one is told, however little room there is, and nothing is written.
#[test]
fn refused_at_every_record() {
    let model = Model::new();
    let mut comparison = Comparison::with(&model);
    let mut lent = LentTrace::new();
    let mut random = Random::new(5);
    let mut compared = 0;
    for settings in mixed_cells() {
        let good = random.records(&model, settings, 40);
        for number in 0..good.len() {
            let refusal = refusal_of_never_taken(settings, (number % 10) as u16);
            let (mut alone, mut all) = (good.clone(), good.clone());
            alone[number] = NEVER_TAKEN;
            all[number..].fill(NEVER_TAKEN);
            for records in [alone, all] {
                let trace = random.arranged(Trace::new(settings, &records)).bytes();
                let need = spelled_length(records.len());
                for room in [0, 17, need - 1, need, need + 3] {
                    let answer = comparison.trace_write(&mut lent, &trace, &vec![7; room]);
                    assert_eq!(answer, WriteAnswer::stopped(refusal, number), "{settings:?}");
                    compared += 2;
                }
            }
        }
    }
    assert_eq!(compared, 13 * 40 * 2 * 5 * 2);
    comparison.finish_with(compared, &[9, 11, 20], &[2]);
}

/// What is due for a trace of one record, in subframe 0 with 134 CCEs: its four bytes, or
/// its refusal. The results that are used are written out by hand.
fn due_of(record: Slot, blocks: u16) -> Result<Slot, u16> {
    let Slot { kind, cce, dai, results } = record;
    let used = [0, 1, 0, 1, 4, 5, 6, 7][usize::from(results % 8)];
    let carried = |slot: Slot| if used < 4 || blocks == 2 { Ok(slot) } else { Err(10) };
    let on_pdcch = |slot: Slot| match (cce, dai) {
        (134.., _) => Err(11),
        (_, 1..=4) => Ok(slot),
        _ => Err(12),
    };
    match kind {
        0 => Ok(Slot { kind: 0, cce: 0, dai: 0, results: 0 }),
        1 => carried(Slot { kind: 1, cce, dai, results: used }).and_then(on_pdcch),
        2 => carried(Slot { kind: 2, cce: 0, dai: 0, results: used }),
        3 => on_pdcch(Slot { kind: 3, cce, dai, results: 0 }),
        _ => Err(22),
    }
}

/// Every kind with every value of the results and several of CCE and DAI, and with every
/// value of these.
#[test]
fn every_record() {
    let model = Model::new();
    let mut comparison = Comparison::with(&model);
    let mut lent = LentTrace::new();
    let mut compared = 0;
    let mut write = |blocks: u16, record: Slot| {
        let settings = Settings::plain(1, 110, 300, 0, blocks).with_scheduled(7);
        let trace = Trace::new(settings, &[record]).records_first().bytes();
        let answer = comparison.trace_write(&mut lent, &trace, &[9; 25]);
        match due_of(record, blocks) {
            Ok(spelled) => assert_eq!(written(&trace)[SPELLED_FIRST..], record_bytes(spelled)),
            Err(22) => assert_eq!(answer, WriteAnswer::refused(22)),
            Err(refusal) => assert_eq!(answer, WriteAnswer::stopped(refusal, 0)),
        }
        compared += 2;
    };
    let pdcchs =
        [(0, 1), (133, 4), (60, 2), (134, 1), (255, 3), (5, 0), (5, 5), (200, 200), (0, 0)];
    for blocks in [1, 2] {
        for byte in 0..=255 {
            for kind in 0..=3 {
                for (cce, dai) in pdcchs {
                    write(blocks, Slot { kind, cce, dai, results: byte });
                }
                for other in [0, 1, 4, 7, 255] {
                    write(blocks, Slot { kind, cce: byte, dai: 1, results: other });
                    write(blocks, Slot { kind, cce: 133, dai: byte, results: other });
                }
            }
            write(blocks, Slot { kind: byte, cce: 133, dai: 4, results: 255 });
        }
    }
    assert_eq!(compared, 2 * 256 * (4 * (9 + 5 * 2) + 1) * 2);
    comparison.finish_with(compared, &[0, 10, 11, 12, 22], &[0, 1, 2]);
}

/// The most records, written into as many bytes as they take and into one fewer, and
/// stopped at the last one, in every cell.
#[test]
fn largest_traces() {
    let model = Model::new();
    let mut comparison = Comparison::with(&model);
    let mut lent = LentTrace::new();
    let mut random = Random::new(6);
    for settings in mixed_cells() {
        let mut records = random.records(&model, settings, MOST_RECORDS);
        let gap = random.bytes(LONGEST - HEADER - SETTINGS - RECORD * MOST_RECORDS);
        let trace = Trace::new(settings, &records).with_gaps([&gap, &[], &[]]).bytes();
        assert_eq!((trace.len(), spelled_length(MOST_RECORDS)), (LONGEST, LONGEST_SPELLED));
        for room in [LONGEST_SPELLED, LONGEST, LONGEST + 5] {
            let answer = comparison.trace_write(&mut lent, &trace, &vec![9; room]);
            assert_eq!(answer, WriteAnswer::done(LONGEST_SPELLED));
        }
        let answer = comparison.trace_write(&mut lent, &trace, &[9; LONGEST_SPELLED - 1]);
        assert_eq!(answer, WriteAnswer::refused(23));

        records[MOST_RECORDS - 1] = NEVER_TAKEN;
        let trace = Trace::new(settings, &records).with_gaps([&[], &gap, &[]]).records_first();
        let answer = comparison.trace_write(&mut lent, &trace.bytes(), &[9; LONGEST]);
        assert_eq!(answer.kind, WriteAnswer::STOPPED);
        assert_eq!(usize::from(answer.record), MOST_RECORDS - 1);
    }
    comparison.finish(13 * 5 * 2, 13 * 3 * 2);
}

/// The order 21, 22, 1 to 6, 17, 19, then by records 9, 20, 10, 11, 12, 18, and last 23:
/// all causes are met, and one after another is put right.
#[test]
fn one_cause_after_another() {
    let refused = WriteAnswer::refused;
    for (step, (due, trace)) in one_cause_less().into_iter().enumerate() {
        let bytes = trace.bytes();
        // Four records take 34 bytes.
        for room in [0, 33, 34] {
            let due = match due {
                Due::Refused(refusal) => refused(refusal),
                Due::Stopped(refusal, record) => WriteAnswer::stopped(refusal, record),
                Due::Done if room < 34 => refused(23),
                Due::Done => WriteAnswer::done(34),
            };
            let mut output = vec![9; room];
            assert_eq!(trace_write(&bytes, &mut output), due, "step {step}, {room}: {trace:?}");
            let left = if due.kind == WriteAnswer::DONE { bytes.clone() } else { vec![9; room] };
            assert_eq!(output, left, "step {step}, {room}: {trace:?}");
            // 22 and 21 come before all of them.
            for (refusal, at, number) in
                [(22, SETTINGS_AT, 7), (21, LENGTH_AT, 33), (21, LENGTH_AT, 35)]
            {
                let mut bad = bytes.clone();
                put_number(&mut bad, at, number);
                let mut output = vec![9; room];
                assert_eq!(trace_write(&bad, &mut output), refused(refusal));
                assert_eq!(output, vec![9; room]);
            }
        }
    }
}

/// The trace is only read, also where it is written as it is: a write ends the test.
#[test]
fn the_trace_is_only_read() {
    let model = Model::new();
    let mut lent = LentTrace::new();
    let mut random = Random::new(7);
    let mut kinds = [0; 3];
    for _ in 0..20 {
        for mut trace in random.good_traces(&model, 30) {
            let output = output_for(&trace);
            let room = output.len() - 4 * random.below(2);
            if random.once_in(2) {
                let at = random.below(trace.len());
                trace[at] = random.any_byte();
            }
            for flush in BOTH {
                let answer = lent.read_only(&trace, &output[..room], flush, trace_write);
                assert_eq!(answer, model.trace_write(&trace, &output[..room]).0);
                kinds[usize::from(answer.kind)] += 1;
            }
        }
    }
    println!("by kind {kinds:?}");
    assert!(kinds.iter().all(|number| *number > 20));
}

/// No memory at all: an empty trace and an empty output may be null.
#[test]
fn nothing_lent() {
    let none = Trace::new(Settings::plain(1, 50, 10, 0, 1), &[]).bytes();
    let uplink = [Slot::NOTHING, Slot::NOTHING, Slot::release(0, 1)];
    let stopped = Trace::new(Settings::plain(1, 50, 10, 0, 1), &uplink).bytes();
    let mut output = [9; 18];
    let (out, room) = (output.as_mut_ptr(), output.len());
    // SAFETY: the lengths say that nothing is lent where the pointers are null.
    unsafe {
        assert_eq!(feedback_trace_write(null(), 0, null_mut(), 0), WriteAnswer::refused(21));
        assert_eq!(feedback_trace_write(null(), 0, out, room), WriteAnswer::refused(21));
        let short = feedback_trace_write(none.as_ptr(), none.len(), null_mut(), 0);
        assert_eq!(short, WriteAnswer::refused(23));
        let answer = feedback_trace_write(stopped.as_ptr(), stopped.len(), null_mut(), 0);
        assert_eq!(answer, WriteAnswer::stopped(9, 2));
    }
    assert_eq!(output, [9; 18]);
}

/// A trace that overlaps the output is the caller's breach, and the answer is not fixed.
/// But nothing is touched beyond what was lent, and nothing is written outside of the
/// output, even where the header that is written comes to lie on that of the trace.
#[test]
fn overlapping_trace_and_output() {
    let model = Model::new();
    let mut random = Random::new(8);
    let mut lent = Overlapping::new();
    let traces: Vec<Vec<u8>> = (0..8).flat_map(|_| random.good_traces(&model, 40)).collect();
    let (mut calls, mut written) = (0, 0);
    for trace in traces.iter().cycle().take(20_000) {
        let room = output_for(trace).len() + random.below(40);
        calls += 1;
        written += u64::from(lent.call(trace, room, &mut random, feedback_trace_write));
    }
    println!("{calls} calls, {written} of them wrote");
    assert_eq!(calls, 20_000);
    assert!(written > 15_000);
}
