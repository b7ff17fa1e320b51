//! What becomes of a trace that was written in its one spelling: it is written as itself,
//! its replay is the replay of the source, byte for byte, and its records are the
//! source's. All goes through the C calls; the model only makes the traces.

use feedback_tests::compare::Shown;
use feedback_tests::every::mixed_cells;
use feedback_tests::model::Model;
use feedback_tests::random::Random;
use feedback_tests::trace::{Trace, MOST_RECORDS, MOST_WINDOWS, WINDOW};
use feedback_tests::{
    record, replay, trace_write, RecordAnswer, ReplayAnswer, Settings, WriteAnswer,
};

/// The spelling of an accepted trace, written over bytes of any value.
fn spelling(trace: &[u8], random: &mut Random) -> Vec<u8> {
    let mut output = random.bytes(trace.len());
    let answer = trace_write(trace, &mut output);
    assert_eq!(answer, WriteAnswer::done(answer.bytes.into()), "{}", Shown(trace));
    output.truncate(answer.bytes.into());
    output
}

/// Random accepted traces of any arrangement, and of each cell one with the most records.
fn accepted(model: &Model, random: &mut Random) -> Vec<Vec<u8>> {
    let small = (0..6000).map(|_| random.accepted_trace(model, 60)).collect::<Vec<_>>();
    let largest = |settings: Settings| {
        let records = random.records(model, settings, MOST_RECORDS);
        Trace::new(settings, &records).records_first().with_gaps([&[], &[7], &[]]).bytes()
    };
    let largest = mixed_cells().into_iter().map(largest).collect();
    [small, largest].concat()
}

/// Written again, from exactly the bytes that were written, it is the same bytes.
#[test]
fn written_twice() {
    let model = Model::new();
    let mut random = Random::new(1);
    let mut changed = 0;
    for trace in accepted(&model, &mut random) {
        let once = spelling(&trace, &mut random);
        assert!(spelling(&once, &mut random) == once, "{}", Shown(&trace));
        changed += u64::from(once != trace);
    }
    println!("{changed} were spelled otherwise before");
    assert!(changed > 5000);
}

/// The replay of a trace and that of its spelling, into outputs of the same bytes: both
/// answers and all that both leave. Shows the answer.
fn replayed_alike(trace: &[u8], spelled: &[u8], output: &[u8]) -> ReplayAnswer {
    let (mut left, mut spelled_left) = (output.to_vec(), output.to_vec());
    let answer = replay(trace, &mut left);
    assert_eq!(replay(spelled, &mut spelled_left), answer, "{}", Shown(trace));
    assert!(spelled_left == left, "{}", Shown(trace));
    answer
}

/// With room for every window, with just enough, and with too little.
#[test]
fn the_same_replay() {
    let model = Model::new();
    let mut random = Random::new(2);
    let output = random.bytes(WINDOW * MOST_WINDOWS);
    let (mut windows, mut short) = (0, 0);
    for trace in accepted(&model, &mut random) {
        let spelled = spelling(&trace, &mut random);
        let answer = replayed_alike(&trace, &spelled, &output);
        assert_eq!(answer.kind, ReplayAnswer::DONE);
        let need = WINDOW * usize::from(answer.windows);
        assert_eq!(replayed_alike(&trace, &spelled, &output[..need]), answer);
        windows += u64::from(answer.windows);
        if need > 0 {
            let room = random.below(need);
            let answer = replayed_alike(&trace, &spelled, &output[..room]);
            assert_eq!(answer, ReplayAnswer::refused(23));
            short += 1;
        }
    }
    println!("{windows} windows, {short} outputs too short");
    assert!(windows > 100_000 && short > 5000);
}

/// Every record of a trace and of its spelling, and the end of both.
#[test]
fn the_same_records() {
    let model = Model::new();
    let mut random = Random::new(3);
    let mut kinds = [0; 4];
    for _ in 0..3000 {
        let trace = random.accepted_trace(&model, 60);
        let spelled = spelling(&trace, &mut random);
        for next in 0..=MOST_RECORDS {
            let answer = record(&trace, next);
            assert_eq!(record(&spelled, next), answer, "record {next} of {trace:?}");
            if answer == RecordAnswer::END {
                break;
            }
            kinds[usize::from(answer.slot.kind)] += 1;
        }
    }
    println!("records by kind {kinds:?}");
    assert!(kinds.iter().all(|number| *number > 1000));
}
