//! Recorded drives worked out by hand, as bytes, through the C calls. The model and the
//! builder of traces have no part here, but for one test that holds the builder to
//! these bytes.

use feedback_tests::trace::{settings_bytes, Trace};
use feedback_tests::{record, replay, RecordAnswer, ReplayAnswer, Settings, Slot, NONE};

/// N_RB 50, where N_p is 0, 11, 27, 44, 61. Configuration 2, of which subframe 7 answers
/// for 9, 0, 3 and 1, with K 8,7,4,6, and subframe 2 for 4, 5, 8 and 6. N1 is 300, the
/// scheduled resource 6. Bundling, up to two blocks.
const BUNDLED: [u8; 58] = [
    10, 0, 18, 0, 8, 0, 58, 0, // 10 records at 18, settings at 8, 58 bytes
    2, 50, 0, 2, 7, 0, 44, 1, 6, 0, // 44 + 256 is 300
    3, 3, 1, 7, // a release, first CCE 3, DAI 1; the results are ignored
    1, 4, 2, 7, // a grant of two blocks, both decoded, first CCE 4, DAI 2
    0, 99, 9, 255, // nothing: subframe 2
    2, 200, 200, 6, // a scheduled block of two blocks, the second decoded
    0, 0, 0, 0, 0, 0, 0, 0, 0, 0, 0, 0, // 4, 5 and 6
    0, 0, 0, 0, // 7
    1, 0, 4, 1, // a grant of one block in 8, with a DAI that shows a miss
    0, 0, 0, 0,
];

/// The last PDCCH heard is the grant in 1, position 3: 3 * 11 + 4 + 300 is 337, which is
/// 81 + 256. The first bit is NACK by the scheduled block.
const BUNDLED_WINDOWS: [u8; 16] = [2, 0, 0, 0, 0, 0, 0, 0, 7, 1, 81, 1, 0, 1, 0, 0];

#[test]
fn a_bundled_drive() {
    let mut output = [9; 20];
    assert_eq!(replay(&BUNDLED, &mut output), ReplayAnswer::done(2));
    assert_eq!(output[..16], BUNDLED_WINDOWS);
    assert_eq!(output[16..], [9; 4]);
    assert_eq!(replay(&BUNDLED, &mut output[..15]), ReplayAnswer::refused(23));
}

/// The same records in a multiplexed cell: 9 was before the start, a release is A, a
/// block that was not decoded N: position 1 is A, 2 is N, 3 is A. -A-A is 10 of position
/// 3. With the block decoded -AAA is 01 of 3.
#[test]
fn a_multiplexed_drive() {
    let mut trace = BUNDLED;
    trace[10] = 1;
    let mut output = [9; 16];
    assert_eq!(replay(&trace, &mut output), ReplayAnswer::done(2));
    assert_eq!(output, [2, 0, 0, 0, 0, 0, 0, 0, 7, 2, 81, 1, 1, 0, 0, 0]);
    trace[33] = 7;
    assert_eq!(replay(&trace, &mut output), ReplayAnswer::done(2));
    assert_eq!(output[8..], [7, 2, 81, 1, 0, 1, 0, 0]);
    // With the PDCCHs lost the block is alone: --N- is --ND with 1 and 3 unheard, 11 of
    // position 2, on the scheduled resource.
    (trace[18], trace[22], trace[33]) = (0, 0, 6);
    assert_eq!(replay(&trace, &mut output), ReplayAnswer::done(2));
    assert_eq!(output[8..], [7, 2, 6, 0, 1, 1, 0, 0]);
}

/// The same parts elsewhere: the records at 11, the settings at 53, bytes in between
/// that belong to nobody.
#[test]
fn parts_elsewhere() {
    let mut trace = vec![10, 0, 11, 0, 53, 0, 65, 0, 1, 2, 3];
    trace.extend(&BUNDLED[18..]);
    trace.extend([255, 254]);
    trace.extend(&BUNDLED[8..18]);
    trace.extend([7, 7]);
    let mut output = [9; 16];
    assert_eq!(replay(&trace, &mut output), ReplayAnswer::done(2));
    assert_eq!(output, BUNDLED_WINDOWS);
}

/// A window of one subframe is bundled in mode 1 too: in configuration 6 all are.
/// Subframe 7 answers for 0, 8 for 1, 2 for 5, 3 for 6 and 4 for 9; the resource of
/// position 0 of 1 is N_0 * 0 + 0 * N_1 + 5 + 10. The second grant has one of its two
/// blocks.
#[test]
fn windows_of_one_subframe() {
    let mut trace = vec![9, 0, 18, 0, 8, 0, 54, 0, 6, 50, 1, 2, 8, 0, 10, 0, 255, 255];
    trace.extend([1, 5, 1, 1, 1, 12, 1, 6]);
    trace.extend([0; 28]);
    let mut output = [9; 40];
    assert_eq!(replay(&trace, &mut output), ReplayAnswer::done(5));
    let silent = [[2, 0, 0, 0, 0, 0, 0, 0], [3, 0, 0, 0, 0, 0, 0, 0], [4, 0, 0, 0, 0, 0, 0, 0]];
    assert_eq!(output[..24], *silent.as_flattened());
    assert_eq!(output[24..], [7, 1, 15, 0, 1, 1, 0, 0, 8, 1, 22, 0, 0, 1, 0, 0]);
}

/// Subframe 3 of configuration 0 is uplink and has no window: nothing is written for it.
#[test]
fn uplink_without_a_window() {
    let mut trace = vec![5, 0, 18, 0, 8, 0, 38, 0, 0, 6, 0, 1, 0, 0, 0, 0, 255, 255];
    trace.extend([1, 2, 4, 1]);
    trace.extend([0; 16]);
    let mut output = [9; 16];
    assert_eq!(replay(&trace, &mut output), ReplayAnswer::done(2));
    // 4 answers for 0; the DAI is not read, and one block has one bit.
    assert_eq!(output, [2, 0, 0, 0, 0, 0, 0, 0, 4, 1, 2, 0, 1, 0, 0, 0]);
}

/// A refusal midway: the windows before it stay, and so does the rest of the output.
#[test]
fn stopped_at_a_record() {
    let mut trace = BUNDLED;
    trace[50..54].copy_from_slice(&[1, 61, 4, 1]); // record 8: no such CCE
    let mut output = [9; 20];
    assert_eq!(replay(&trace, &mut output), ReplayAnswer::stopped(11, 8, 2));
    assert_eq!(output[..16], BUNDLED_WINDOWS);
    assert_eq!(output[16..], [9; 4]);
    trace[46] = 3; // record 7: a release in an uplink subframe
    let mut output = [9; 20];
    assert_eq!(replay(&trace, &mut output), ReplayAnswer::stopped(9, 7, 1));
    assert_eq!(output[..8], BUNDLED_WINDOWS[..8]);
    assert_eq!(output[8..], [9; 12]);
    trace[18..22].copy_from_slice(&[2, 0, 0, 1]); // record 0: a scheduled block, beside
    let mut output = [9; 20]; // that of record 3 in one window
    assert_eq!(replay(&trace, &mut output), ReplayAnswer::stopped(18, 3, 1));
    assert_eq!(output[..8], BUNDLED_WINDOWS[..8]);
    assert_eq!(output[8..], [9; 12]);
}

/// The records as the reader gives them: what a kind does not use is 0.
#[test]
fn records_of_the_drive() {
    let due = [
        Slot { kind: 3, cce: 3, dai: 1, results: 0 },
        Slot { kind: 1, cce: 4, dai: 2, results: 7 },
        Slot { kind: 0, cce: 0, dai: 0, results: 0 },
        Slot { kind: 2, cce: 0, dai: 0, results: 6 },
    ];
    for (next, slot) in due.into_iter().enumerate() {
        assert_eq!(record(&BUNDLED, next), RecordAnswer::read(slot));
    }
    assert_eq!(record(&BUNDLED, 8), RecordAnswer::read(Slot::grant(0, 4, 1)));
    assert_eq!(record(&BUNDLED, 9), RecordAnswer::read(Slot::NOTHING));
    assert_eq!(record(&BUNDLED, 10), RecordAnswer::END);
    assert_eq!(record(&BUNDLED[..57], 0), RecordAnswer::refused(21));
}

/// The builder of traces, which the other tests use, makes these bytes.
#[test]
fn the_builder_by_hand() {
    let settings = Settings::plain(2, 50, 300, 0, 2).with_scheduled(6);
    let mut records = [Slot::NOTHING; 10];
    records[0] = Slot { results: 7, ..Slot::release(3, 1) };
    records[1] = Slot::grant(4, 2, 7);
    records[2] = Slot { kind: 0, cce: 99, dai: 9, results: 255 };
    records[3] = Slot { cce: 200, dai: 200, ..Slot::block(6) };
    records[8] = Slot::grant(0, 4, 1);
    assert_eq!(Trace::new(settings, &records).bytes(), BUNDLED);
    let moved = Trace::new(settings, &records).records_first();
    let moved = moved.with_gaps([&[1, 2, 3], &[255, 254], &[7, 7]]).bytes();
    assert_eq!(moved[..11], [10, 0, 11, 0, 53, 0, 65, 0, 1, 2, 3]);
    assert_eq!(moved[11..51], BUNDLED[18..]);
    assert_eq!(moved[51..53], [255, 254]);
    assert_eq!(moved[53..63], BUNDLED[8..18]);
    assert_eq!(moved[63..], [7, 7]);
    let none = Settings::plain(4, 110, 2047, 1, 2).with_scheduled(NONE).with_special(1, 6);
    assert_eq!(settings_bytes(none), [4, 110, 1, 2, 6, 1, 255, 7, 255, 255]);
}
