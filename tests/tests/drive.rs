//! The recorded drive in `examples/`: `drive.trace` is made here, record by record, and
//! `drive.windows` and `drive.txt` are what `replay` and `replay_text` print for it.

use feedback_tests::model::Model;
use feedback_tests::trace::Trace;
use feedback_tests::{replay, ReplayAnswer, Settings, Slot};

const TRACE: &[u8] = include_bytes!("../../examples/drive.trace");
const WINDOWS: &[u8] = include_bytes!("../../examples/drive.windows");
const TEXT: &str = include_str!("../../examples/drive.txt");

/// Configuration 1: DSUUDDSUUD; 2 answers for 5 and 6 of the frame before, 3 for 9, and
/// of the same frame 7 for 0 and 1, 8 for 4. N_RB 50 has N_p 0, 11, 27, 44, 61. Bundling,
/// up to two blocks, a resource for scheduled blocks.
const CELL: Settings = Settings::plain(1, 50, 300, 0, 2).with_scheduled(7);

/// Results of two blocks, of which both are decoded, or one.
const BOTH: u8 = Slot::TWO | Slot::FIRST | Slot::SECOND;
const FIRST: u8 = Slot::TWO | Slot::FIRST;
const SECOND: u8 = Slot::TWO | Slot::SECOND;

/// What the subframes brought, all others nothing. Of the grants of one window the
/// first, in subframe 10, was lost. Bytes and bits that a record's kind does not use are
/// not 0 in records 4, 6, 9 and 26.
const HEARD: [(usize, Slot); 15] = [
    (0, Slot::grant(5, 1, BOTH)),
    (1, Slot::grant(12, 2, BOTH)),
    (4, Slot { kind: Slot::BLOCK, cce: 88, dai: 8, results: 1 }),
    (5, Slot::grant(0, 1, FIRST)),
    (6, Slot { kind: 0, cce: 61, dai: 0, results: 16 }),
    (9, Slot { kind: Slot::RELEASE, cce: 20, dai: 1, results: 255 }),
    (11, Slot::grant(3, 2, BOTH)),
    (14, Slot::grant(44, 1, 0)),
    (15, Slot::grant(60, 1, BOTH)),
    (16, Slot::grant(7, 2, BOTH)),
    (24, Slot::grant(30, 1, SECOND)),
    (26, Slot::grant(2, 1, 3)),
    (29, Slot::grant(9, 1, BOTH)),
    (30, Slot::grant(1, 1, BOTH)),
    (31, Slot::grant(2, 2, 1)),
];

fn trace() -> Vec<u8> {
    let mut records = [Slot::NOTHING; 40];
    HEARD.into_iter().for_each(|(at, slot)| records[at] = slot);
    Trace::new(CELL, &records).bytes()
}

#[test]
fn the_file_is_this_trace() {
    assert_eq!(TRACE, trace());
    assert_eq!(TRACE.len(), 18 + 4 * 40);
}

#[test]
fn the_programs_print_this() {
    let model = Model::new();
    assert_eq!(model.replay_program(TRACE), (WINDOWS.to_vec(), String::new()));
    assert_eq!(model.replay_text(TRACE), TEXT);
}

#[test]
fn the_call_writes_this() {
    let mut output = vec![9; WINDOWS.len()];
    assert_eq!(replay(TRACE, &mut output), ReplayAnswer::done(16));
    assert_eq!(output, WINDOWS);
}

/// The lines worked out by hand. The resource of a PDCCH at position m of M is
/// (M - m - 1) * N_p + m * N_(p+1) + c + 300.
#[test]
fn the_text_by_hand() {
    let lines = [
        "frame 0 subframe 2: silent",
        "frame 0 subframe 3: silent",
        "frame 0 subframe 7: bundled, resource 339, bits 1 1", // 0 * 11 + 1 * 27 + 12
        "frame 0 subframe 8: bundled, resource 7, bits 1 1",   // the scheduled block's
        "frame 1 subframe 2: bundled, resource 300, bits 1 0", // 1 * 0 + 0 * 11 + 0
        "frame 1 subframe 3: bundled, resource 320, bits 1 1", // the release's
        "frame 1 subframe 7: silent",                          // DAI 2 where one was heard
        "frame 1 subframe 8: bundled, resource 344, bits 0 0",
        "frame 2 subframe 2: bundled, resource 318, bits 1 1", // 0 * 0 + 1 * 11 + 7
        "frame 2 subframe 3: silent",
        "frame 2 subframe 7: silent",
        "frame 2 subframe 8: bundled, resource 330, bits 0 1",
        "frame 3 subframe 2: bundled, resource 313, bits 1 1", // 0 * 0 + 1 * 11 + 2
        "frame 3 subframe 3: bundled, resource 309, bits 1 1",
        "frame 3 subframe 7: bundled, resource 313, bits 1 1",
        "frame 3 subframe 8: silent",
    ];
    assert_eq!(TEXT.lines().collect::<Vec<_>>(), lines);
    assert!(TEXT.ends_with('\n'));
}
