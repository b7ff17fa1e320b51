//! Sizes of replays worked out by hand, through the C call. The model has no part here.

use feedback_tests::trace::{
    one_cause_less, put_length, put_number, Due, Trace, FIRST_AT, LENGTH_AT, LONGEST, MOST_RECORDS,
    MOST_WINDOWS, RECORDS_AT, SETTINGS_AT,
};
use feedback_tests::{replay_size, ReplaySizeAnswer, Settings, Slot};

/// Configuration 2, N_RB 50, bundling, up to two blocks, N1 300, scheduled resource 6. Nine records
/// end with subframe 8: the windows are those of 2 and 7. One is refused, and one has no kind.
const TRACE: [u8; 54] = [
    9, 0, 18, 0, 8, 0, 54, 0, // 9 records at 18, settings at 8, 54 bytes
    2, 50, 0, 2, 7, 0, 44, 1, 6, 0, // 44 + 256 is 300
    1, 4, 1, 7, // a grant
    1, 255, 9, 1, // no such CCE and no such DAI
    4, 0, 0, 0, // no such kind
    0, 99, 9, 255, // nothing
    0, 0, 0, 0, 0, 0, 0, 0, 0, 0, 0, 0, 0, 0, 0, 0, 0, 0, 0, 0, // 4 to 8
];

const TWO_WINDOWS: ReplaySizeAnswer = ReplaySizeAnswer { refusal: 0, windows: 2, bytes: 16 };

fn refused(refusal: u16) -> ReplaySizeAnswer {
    ReplaySizeAnswer { refusal, windows: 0, bytes: 0 }
}

#[test]
fn nine_records() {
    assert_eq!(replay_size(&TRACE), TWO_WINDOWS);
}

/// The windows of the first subframes of a frame, 0 to 10 of them, by configuration. Subframe 3 of
/// configuration 0 is uplink and has none.
const OF_FIRST: [[u16; 11]; 7] = [
    [0, 0, 0, 1, 1, 2, 2, 2, 3, 3, 4],
    [0, 0, 0, 1, 2, 2, 2, 2, 3, 4, 4],
    [0, 0, 0, 1, 1, 1, 1, 1, 2, 2, 2],
    [0, 0, 0, 1, 2, 3, 3, 3, 3, 3, 3],
    [0, 0, 0, 1, 2, 2, 2, 2, 2, 2, 2],
    [0, 0, 0, 1, 1, 1, 1, 1, 1, 1, 1],
    [0, 0, 0, 1, 2, 3, 3, 3, 4, 5, 5],
];

#[test]
fn records_of_a_frame_and_of_the_second() {
    for (config, of_first) in (0..).zip(OF_FIRST) {
        let settings = Settings::plain(config, 50, 10, 0, 1);
        for frames in [0, 1, 2] {
            for (subframes, windows) in of_first.into_iter().enumerate() {
                let records = vec![Slot::NOTHING; 10 * frames + subframes];
                let windows = of_first[10] * frames as u16 + windows;
                let due = ReplaySizeAnswer { refusal: 0, windows, bytes: 8 * u32::from(windows) };
                assert_eq!(replay_size(&Trace::new(settings, &records).bytes()), due);
            }
        }
    }
}

/// 16,379 records are 1637 frames and subframes 0 to 8.
#[test]
fn the_most_records() {
    for (config, of_first) in (0..).zip(OF_FIRST) {
        let settings = Settings::plain(config, 50, 10, 0, 1);
        let trace = Trace::new(settings, &vec![Slot::NOTHING; MOST_RECORDS]).bytes();
        let windows = 1637 * of_first[10] + of_first[9];
        let due = ReplaySizeAnswer { refusal: 0, windows, bytes: 8 * u32::from(windows) };
        assert_eq!(replay_size(&trace), due, "configuration {config}");
    }
    let most = 1637 * OF_FIRST[6][10] + OF_FIRST[6][9];
    assert_eq!(usize::from(most), MOST_WINDOWS);
    assert_eq!(8 * u32::from(most), 65_520);
}

/// The order 21, 22, 1 to 6, 17, 19: all causes are met, and one after another is put right. A kind
/// over 3 is no cause, and neither is a record that stops a replay: record 2 completes the only
/// window.
#[test]
fn one_cause_after_another() {
    let one_window = ReplaySizeAnswer { refusal: 0, windows: 1, bytes: 8 };
    let (mut of_kinds, mut of_settings, mut sized) = (0, 0, 0);
    for (step, (due, trace)) in one_cause_less().into_iter().enumerate() {
        let bytes = trace.bytes();
        let given = replay_size(&bytes);
        match due {
            // All causes that settings meet, and none of them.
            Due::Refused(22) => {
                assert_eq!(given, [refused(1), one_window][of_kinds], "step {step}: {trace:?}");
                of_kinds += 1;
            }
            Due::Refused(number) => {
                assert_eq!(given, refused(number), "step {step}: {trace:?}");
                of_settings += 1;
            }
            Due::Stopped(..) | Due::Done => {
                assert_eq!(given, one_window, "step {step}: {trace:?}");
                sized += 1;
            }
        }
        // 22 and 21 come before all of them.
        for (refusal, at, number) in
            [(22, SETTINGS_AT, 7), (21, LENGTH_AT, 33), (21, LENGTH_AT, 35)]
        {
            let mut bad = bytes.clone();
            put_number(&mut bad, at, number);
            assert_eq!(replay_size(&bad), refused(refusal), "step {step}: {trace:?}");
            put_number(&mut bad, RECORDS_AT, 65_535);
            put_number(&mut bad, FIRST_AT, 65_535);
            assert_eq!(replay_size(&bad), refused(refusal), "step {step}: {trace:?}");
        }
    }
    assert_eq!((of_kinds, of_settings, sized), (2, 10, 10));
}

/// Settings that meet several causes are refused for the lowest number, wherever it stands among
/// the bytes; 17 comes before 19.
#[test]
fn settings_by_number() {
    let mut trace = TRACE;
    let mut put = |at: usize, bytes: &[u8]| {
        trace[8 + at..][..bytes.len()].copy_from_slice(bytes);
        replay_size(&trace)
    };
    assert_eq!(put(8, &[44, 1]), refused(17)); // the scheduled resource is N1
    assert_eq!(put(4, &[9]), refused(17)); // no special configuration 9
    assert_eq!(put(3, &[3]), refused(6)); // three blocks
    assert_eq!(put(2, &[2]), refused(4)); // no mode 2
    assert_eq!(put(6, &[0, 8]), refused(3)); // N1 2048, of which 300 is below
    assert_eq!(put(1, &[111]), refused(2)); // N_RB 111
    assert_eq!(put(0, &[7]), refused(1)); // no configuration 7
    assert_eq!(put(1, &[50]), refused(1));
    assert_eq!(put(0, &[5]), refused(3));
    assert_eq!(put(6, &[255, 7]), refused(4)); // N1 2047
    assert_eq!(put(2, &[1]), refused(5)); // multiplexing in configuration 5
    assert_eq!(put(2, &[0]), refused(6));
    assert_eq!(put(3, &[1]), refused(19));
    assert_eq!(put(4, &[7, 1]), refused(19)); // the extended prefix ends with 6
    let one_window = ReplaySizeAnswer { refusal: 0, windows: 1, bytes: 8 };
    assert_eq!(put(4, &[6, 1]), one_window);
    assert_eq!(put(4, &[6, 2]), refused(19)); // no such prefix
    assert_eq!(put(4, &[8, 0]), one_window);
    assert_eq!(put(8, &[255, 7]), refused(17)); // the scheduled resource is N1 again
    assert_eq!(put(8, &[254, 7]), one_window);
    assert_eq!(put(8, &[255, 255]), one_window); // none
}

/// No file of fewer than eight bytes is a trace, and none of another length than its header's.
#[test]
fn the_length() {
    for length in 0..TRACE.len() {
        assert_eq!(replay_size(&TRACE[..length]), refused(21), "{length}");
    }
    let longer = [&TRACE[..], &[0]].concat();
    assert_eq!(replay_size(&longer), refused(21));
    // Eight bytes are a header, in which the settings have no room.
    assert_eq!(replay_size(&[0, 0, 8, 0, 8, 0, 8, 0]), refused(22));
    assert_eq!(replay_size(&[0, 0, 8, 0, 0, 0, 8, 0]), refused(22));
    assert_eq!(replay_size(&[0, 0, 8, 0, 8, 0, 7, 0]), refused(21));
    // The longest, and one that comes round to the bytes of the header and the settings.
    let mut longest = [&TRACE[..], &vec![0; LONGEST - TRACE.len()]].concat();
    put_length(&mut longest);
    assert_eq!(replay_size(&longest), TWO_WINDOWS);
    longest.resize(65_536 + 54, 0);
    put_number(&mut longest, LENGTH_AT, 54);
    assert_eq!(replay_size(&longest), refused(21));
}

/// The answer where records and settings lie at these places of a file of so many bytes, which has
/// the settings of a trace, if they have room there.
fn sized_at(records: usize, first: usize, settings: usize, length: usize) -> ReplaySizeAnswer {
    let mut file = vec![0; length];
    if let Some(place) = file.get_mut(settings..settings + 10) {
        place.copy_from_slice(&TRACE[8..18]);
    }
    for (at, number) in
        [(RECORDS_AT, records), (FIRST_AT, first), (SETTINGS_AT, settings), (LENGTH_AT, length)]
    {
        put_number(&mut file, at, number);
    }
    replay_size(&file)
}

/// Parts may touch, and share no byte. Three records take twelve bytes, and complete a window.
#[test]
fn edges_of_the_parts() {
    let one_window = ReplaySizeAnswer { refusal: 0, windows: 1, bytes: 8 };
    // Behind the header settings, then records, then the end.
    assert_eq!(sized_at(3, 18, 8, 30), one_window);
    assert_eq!(sized_at(3, 17, 8, 30), refused(22));
    assert_eq!(sized_at(3, 19, 8, 30), refused(22));
    assert_eq!(sized_at(3, 19, 8, 31), one_window);
    assert_eq!(sized_at(3, 18, 7, 30), refused(22));
    assert_eq!(sized_at(3, 18, 9, 30), refused(22));
    assert_eq!(sized_at(3, 19, 9, 31), one_window);
    assert_eq!(sized_at(4, 18, 8, 30), refused(22));
    assert_eq!(sized_at(4, 18, 8, 33), refused(22));
    assert_eq!(sized_at(4, 18, 8, 34), one_window);
    // Behind the header records, then settings.
    assert_eq!(sized_at(3, 8, 20, 30), one_window);
    assert_eq!(sized_at(3, 7, 20, 30), refused(22));
    assert_eq!(sized_at(3, 9, 20, 30), refused(22));
    assert_eq!(sized_at(3, 8, 19, 30), refused(22));
    assert_eq!(sized_at(3, 8, 21, 30), refused(22));
    assert_eq!(sized_at(3, 8, 21, 31), one_window);
    assert_eq!(sized_at(3, 0, 20, 30), refused(22));
    assert_eq!(sized_at(3, 8, 0, 30), refused(22));
    // Records around the settings, and within them.
    assert_eq!(sized_at(5, 8, 9, 40), refused(22));
    assert_eq!(sized_at(1, 12, 9, 40), refused(22));
    // The same place.
    assert_eq!(sized_at(3, 8, 8, 40), refused(22));
}

/// Nothing of the header comes round in sixteen bits.
#[test]
fn numbers_past_sixteen_bits() {
    assert_eq!(sized_at(16_384, 18, 8, 18), refused(22));
    assert_eq!(sized_at(16_387, 18, 8, 30), refused(22));
    assert_eq!(sized_at(65_535, 18, 8, 65_535), refused(22));
    assert_eq!(sized_at(1, 65_535, 8, 65_535), refused(22));
    assert_eq!(sized_at(1, 65_532, 8, 65_535), refused(22));
    assert_eq!(sized_at(0, 8, 65_526, 65_535), refused(22));
    assert_eq!(sized_at(0, 8, 65_535, 65_535), refused(22));
    let none = ReplaySizeAnswer { refusal: 0, windows: 0, bytes: 0 };
    assert_eq!(sized_at(1, 65_531, 8, 65_535), none);
    assert_eq!(sized_at(0, 8, 65_525, 65_535), none);
}

/// Where there are no records, their offset may be any number, and nothing is written.
#[test]
fn no_records() {
    let none = ReplaySizeAnswer { refusal: 0, windows: 0, bytes: 0 };
    for first in (0..=40).chain([255, 256, 32_768, 65_534, 65_535]) {
        assert_eq!(sized_at(0, first, 8, 18), none, "{first}");
        assert_eq!(sized_at(0, first, 9, 25), none, "{first}");
    }
}
