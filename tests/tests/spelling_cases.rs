//! Traces in their one spelling worked out by hand, as bytes, through the C call. The
//! model and the builder of traces have no part here.

use feedback_tests::trace::{number_at, said, FIRST_AT, SETTINGS_AT};
use feedback_tests::{trace_write, WriteAnswer};

/// Ten records of configuration 2, N_RB 50, bundling, up to two blocks, N1 300 and
/// scheduled resource 6. The records come first, gaps and all that is not used have some
/// value. Subframes 2 and 7 are uplink.
const FILLED: [u8; 67] = [
    10, 0, 11, 0, 53, 0, 67, 0, // 10 records at 11, settings at 53, 67 bytes
    1, 2, 3, // in no part
    3, 3, 1, 7, // a release, first CCE 3, DAI 1; the results are not used
    1, 4, 2, 255, // a grant of two blocks, both decoded; bits 3 to 7 are not used
    0, 99, 9, 255, // nothing
    2, 200, 5, 70, // a scheduled block of two, the second decoded; 70 is 64 + 4 + 2
    0, 0, 0, 1, // nothing
    1, 60, 4, 2, // a grant of one block, not decoded; without bit 2 bit 1 is not used
    1, 0, 1, 131, // a grant of one block, decoded; 131 is 128 + 2 + 1
    0, 1, 0, 0, // nothing
    2, 0, 1, 13, // a scheduled block of two, the first decoded; 13 is 8 + 4 + 1
    0, 0, 1, 0, // nothing
    255, 254, // in no part
    2, 50, 0, 2, 7, 0, 44, 1, 6, 0, // 44 + 256 is 300
    7, 7, 7, 7, // in no part
];

const SPELLED: [u8; 58] = [
    10, 0, 18, 0, 8, 0, 58, 0, // 10 records at 18, settings at 8, 58 bytes
    2, 50, 0, 2, 7, 0, 44, 1, 6, 0, // the settings as they were
    3, 3, 1, 0, // the release
    1, 4, 2, 7, // the grant of two blocks
    0, 0, 0, 0, // nothing
    2, 0, 0, 6, // the scheduled block
    0, 0, 0, 0, // nothing
    1, 60, 4, 0, // the grants of one block
    1, 0, 1, 1, //
    0, 0, 0, 0, // nothing
    2, 0, 0, 5, // the other scheduled block
    0, 0, 0, 0, // nothing
];

/// What is written, and the bytes of the output beyond it, which stay.
fn assert_spelled(trace: &[u8], spelled: &[u8]) {
    for more in [0, 1, 30] {
        let mut output = vec![9; spelled.len() + more];
        assert_eq!(trace_write(trace, &mut output), WriteAnswer::done(spelled.len()));
        assert_eq!(output, [spelled, &vec![9; more]].concat());
    }
}

/// A refusal with any room leaves the whole output.
fn assert_refused(trace: &[u8], answer: WriteAnswer) {
    for room in [0, 17, 18, 57, 58, 90] {
        let mut output = vec![9; room];
        assert_eq!(trace_write(trace, &mut output), answer, "room {room}");
        assert_eq!(output, vec![9; room]);
    }
}

#[test]
fn a_filled_trace() {
    assert_spelled(&FILLED, &SPELLED);
}

/// What is spelled so already is written as it is.
#[test]
fn a_spelled_trace() {
    assert_spelled(&SPELLED, &SPELLED);
}

/// The length of the source and its gaps don't count: 58 bytes are enough for its 67.
#[test]
fn the_room() {
    for room in [0, 1, 17, 18, 56, 57] {
        let mut output = vec![9; room];
        assert_eq!(trace_write(&FILLED, &mut output), WriteAnswer::refused(23), "room {room}");
        assert_eq!(output, vec![9; room]);
    }
}

/// Eighteen bytes, wherever the records were said to be.
#[test]
fn no_records() {
    let mut trace = vec![0, 0, 99, 9, 10, 0, 21, 0, 5, 5];
    trace.extend([5, 6, 0, 1, 6, 1, 255, 7, 254, 7, 1]);
    let spelled = [0, 0, 18, 0, 8, 0, 18, 0, 5, 6, 0, 1, 6, 1, 255, 7, 254, 7];
    assert_spelled(&trace, &spelled);
    let mut output = [9; 17];
    assert_eq!(trace_write(&trace, &mut output), WriteAnswer::refused(23));
    assert_eq!(output, [9; 17]);
}

/// Numbers that need their high byte: 300 is 44 + 256, and 18 + 4 * 300 is 194 + 4 * 256.
#[test]
fn three_hundred_records() {
    let mut trace = vec![44, 1, 9, 0, 185, 4, 195, 4, 88];
    trace.extend([0, 1, 2, 3].repeat(300));
    trace.extend([6, 110, 1, 1, 8, 0, 0, 0, 255, 255]);
    // The last record is in subframe 9, which is downlink.
    trace[1205..1209].copy_from_slice(&[1, 133, 1, 3]);
    let mut spelled = vec![44, 1, 18, 0, 8, 0, 194, 4];
    spelled.extend([6, 110, 1, 1, 8, 0, 0, 0, 255, 255]);
    spelled.extend([0; 4 * 299]);
    spelled.extend([1, 133, 1, 1]);
    assert_spelled(&trace, &spelled);
}

/// What stops a replay is told with its record's number, whatever the room; what comes
/// before any record without.
#[test]
fn what_is_not_accepted() {
    let mut trace = FILLED;
    trace[44] = 61; // the CCE of record 8, a scheduled block, is not used
    assert_spelled(&trace, &SPELLED);
    trace[43] = 3; // a release in its place: N_4 is 61
    assert_refused(&trace, WriteAnswer::stopped(11, 8));
    trace[39] = 3; // record 7, in an uplink subframe
    assert_refused(&trace, WriteAnswer::stopped(9, 7));
    trace[11] = 2; // record 0: a scheduled block, and record 3 is the second one in its window
    assert_refused(&trace, WriteAnswer::stopped(18, 3));
    trace[61] = 7; // the scheduled resource is 6 + 7 * 256
    trace[62] = 7;
    assert_refused(&trace, WriteAnswer::refused(17));
    trace[54] = 5;
    assert_refused(&trace, WriteAnswer::refused(2));
    trace[47] = 4; // the kind of the last record
    assert_refused(&trace, WriteAnswer::refused(22));
    trace[4] = 50; // the settings share a byte with the last record
    assert_refused(&trace, WriteAnswer::refused(22));
    assert_refused(&trace[..66], WriteAnswer::refused(21));
}

/// The recorded drive of the examples, and the same drive as another lab recorded it: its
/// parts are the other way round, with gaps, and every bit that is not used is the
/// other one. Both say the same and are spelled the same.
#[test]
fn the_drive_of_two_labs() {
    let one = include_bytes!("../../examples/drive.trace");
    let other = include_bytes!("../../examples/drive_other.trace");
    let spelled = include_bytes!("../../examples/drive.spelled");
    assert_spelled(one, spelled);
    assert_spelled(other, spelled);
    assert_spelled(spelled, spelled);

    assert_eq!(said(one), said(other));
    let places = |trace| [FIRST_AT, SETTINGS_AT].map(|at| number_at(trace, at));
    assert_eq!((places(one), places(other)), ([18, 8], [13, 176]));
    assert_eq!((one.len(), other.len(), spelled.len()), (178, 190, 178));
    let used_bits = [[8, 0, 0, 0], [8, 8, 8, 2], [8, 0, 0, 2], [8, 8, 8, 0]];
    let records = [&one[18..178], &other[13..173], &spelled[18..178]].map(|part| part.chunks(4));
    let [one, other, spelled] = records;
    for ((one, other), spelled) in one.zip(other).zip(spelled) {
        let two_carried = spelled[3] & 4 != 0;
        for at in 0..4 {
            let differs = one[at] ^ other[at];
            let used = used_bits[usize::from(one[0])][at] + u32::from(at == 3 && two_carried);
            assert_eq!((differs.count_zeros(), spelled[at] & differs), (used, 0));
            assert_eq!(spelled[at], one[at] & other[at]);
        }
    }
}
