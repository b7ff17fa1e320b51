//! The size of a replay beside the replay itself, both through their C calls. A trace that is
//! accepted to its end writes exactly so many windows and bytes, one that is refused midway no
//! more; an output of so many bytes is enough, and with one byte less 23 is due. Of the trace
//! header and settings alone say the size. The model only makes the traces.

use feedback_tests::compare::Shown;
use feedback_tests::every::mixed_cells;
use feedback_tests::model::Model;
use feedback_tests::random::Random;
use feedback_tests::sizings::has_kind_over_3;
use feedback_tests::trace::{
    number_at, Trace, FIRST_AT, HEADER, MOST_RECORDS, RECORD, RECORDS_AT, SETTINGS, SETTINGS_AT,
    WINDOW,
};
use feedback_tests::{replay, replay_size, ReplayAnswer, ReplaySizeAnswer, Settings, Slot};

/// How much more room is lent than is told.
const MORE: usize = 24;

/// What an output is filled with before a replay, once with the one and once with the other: a byte
/// that is the same in both afterwards was written.
const FILLS: [u8; 2] = [0x55, 0xaa];

/// The answer of a replay into so many bytes, and how many it wrote: they are the first ones.
fn replayed(trace: &[u8], room: usize) -> (ReplayAnswer, usize) {
    let [one, other] = FILLS.map(|fill| {
        let mut output = vec![fill; room];
        (replay(trace, &mut output), output)
    });
    assert_eq!(one.0, other.0, "{}", Shown(trace));
    let is_kept = |(one, other): (&u8, &u8)| [*one, *other] == FILLS;
    let bytes = one.1.iter().zip(&other.1).position(is_kept).unwrap_or(room);
    assert!(one.1[bytes..].iter().zip(&other.1[bytes..]).all(is_kept), "{}", Shown(trace));
    assert!(one.1[..bytes] == other.1[..bytes], "{}", Shown(trace));
    (one.0, bytes)
}

/// The windows and bytes of a trace that is not refused.
fn size_of(trace: &[u8]) -> (usize, usize) {
    let ReplaySizeAnswer { refusal, windows, bytes } = replay_size(trace);
    assert_eq!(refusal, 0, "{}", Shown(trace));
    (windows.into(), bytes as usize)
}

/// With a byte less than is told, if it is told any, a replay writes nothing.
fn hold_short_of(bytes: usize, trace: &[u8]) {
    if bytes > 0 {
        let short = (ReplayAnswer::refused(23), 0);
        assert_eq!(replayed(trace, bytes - 1), short, "{}", Shown(trace));
    }
}

/// A replay is accepted to its end, and writes as much as is told: with more room, and with exactly
/// so much. Shows how much.
fn hold_accepted(trace: &[u8]) -> usize {
    let (windows, bytes) = size_of(trace);
    let done = ReplayAnswer::done(windows);
    for room in [bytes, bytes + 1, bytes + MORE] {
        assert_eq!(replayed(trace, room), (done, bytes), "{}", Shown(trace));
    }
    hold_short_of(bytes, trace);
    bytes
}

/// Traces of any settings and arrangement.
#[test]
fn accepted_to_the_end() {
    let model = Model::new();
    let mut random = Random::new(1);
    let (mut bytes, mut none) = (0, 0);
    for _ in 0..4000 {
        let written = hold_accepted(&random.accepted_trace(&model, 70));
        bytes += written;
        none += u64::from(written == 0);
    }
    println!("{bytes} bytes, {none} traces without a window");
    assert!(bytes > 200_000 && none > 100);
}

/// The most records, in every cell.
#[test]
fn largest_accepted() {
    let model = Model::new();
    let mut random = Random::new(2);
    for settings in mixed_cells() {
        let records = random.records(&model, settings, MOST_RECORDS);
        let bytes = hold_accepted(&Trace::new(settings, &records).records_first().bytes());
        assert!(bytes >= WINDOW * (MOST_RECORDS / 10), "{settings:?}: {bytes}");
    }
}

/// A trace that is refused midway writes no more than is told, and often less: windows behind the
/// refused record are told too. Where a record behind the last window is refused, it writes as much.
#[test]
fn refused_midway() {
    let model = Model::new();
    let mut random = Random::new(3);
    let (mut done, mut equal, mut less) = (0, 0, 0);
    for _ in 0..4000 {
        let settings = random.mixed_settings();
        let number = random.below(60);
        let mut records = random.records(&model, settings, number);
        let times = random.one_of(&[5, 20, 60]);
        for record in &mut records {
            if random.once_in(times) {
                *record = random.spoilt(*record, settings);
            }
        }
        let trace = random.arranged(Trace::new(settings, &records)).bytes();
        let (windows, bytes) = size_of(&trace);
        let (answer, written) = replayed(&trace, bytes);
        hold_short_of(bytes, &trace);
        assert_eq!(written, WINDOW * usize::from(answer.windows), "{}", Shown(&trace));
        assert!(usize::from(answer.windows) <= windows && written <= bytes, "{}", Shown(&trace));
        match answer.kind {
            ReplayAnswer::DONE => {
                assert_eq!((usize::from(answer.windows), written), (windows, bytes));
                done += 1;
            }
            ReplayAnswer::STOPPED if written == bytes => equal += 1,
            ReplayAnswer::STOPPED => less += 1,
            _ => panic!("{answer:?}: {}", Shown(&trace)),
        }
    }
    println!("{done} done, {equal} stopped with as much written, {less} with less");
    assert!(done > 500 && equal > 40 && less > 1000);
}

/// Kinds over 3, one or all, leave the size as it is, and the replay refuses them 22.
#[test]
fn kinds_over_3() {
    let model = Model::new();
    let mut random = Random::new(4);
    let mut refused = 0;
    for _ in 0..3000 {
        let good = random.accepted_trace(&model, 40);
        let (size, first) = (replay_size(&good), number_at(&good, FIRST_AT));
        let records = number_at(&good, RECORDS_AT);
        if records == 0 {
            continue;
        }
        let one = random.below(records);
        for spoilt in [one..one + 1, 0..records] {
            let mut bad = good.clone();
            for record in spoilt {
                bad[first + RECORD * record] = random.one_of(&[4, 5, 127, 128, 131, 254, 255]);
            }
            assert_eq!(replay_size(&bad), size, "{}", Shown(&bad));
            let answer = replayed(&bad, size.bytes as usize + MORE);
            assert_eq!(answer, (ReplayAnswer::refused(22), 0), "{}", Shown(&bad));
            refused += 1;
        }
    }
    println!("{refused} refused");
    assert!(refused > 5000);
}

/// Whatever a file is, its replay into the room that is told is refused before its records exactly
/// if the size is, and alike, but for kinds over 3.
#[test]
fn refused_alike() {
    let model = Model::new();
    let mut random = Random::new(5);
    let (mut alike, mut of_kinds, mut sized) = ([0; 24], [0; 2], 0);
    for _ in 0..20_000 {
        let mut file = random.accepted_trace(&model, 12);
        for _ in 0..1 + random.below(3) {
            let at = random.below(file.len().min(24));
            let near = file[at].wrapping_add(random.one_of(&[1, 2, 4, 252, 254, 255]));
            file[at] = if random.once_in(3) { random.any_byte() } else { near };
        }
        let size = replay_size(&file);
        let (answer, _) = replayed(&file, size.bytes as usize);
        match (size.refusal, answer.kind) {
            (refusal, ReplayAnswer::REFUSED) if refusal == answer.refusal => {
                assert_eq!(size, ReplaySizeAnswer::refused(refusal), "{}", Shown(&file));
                alike[usize::from(refusal)] += 1;
            }
            (refusal, ReplayAnswer::REFUSED) => {
                let by_kind = answer.refusal == 22 && has_kind_over_3(&file);
                assert!(by_kind, "{size:?}, {answer:?}: {}", Shown(&file));
                of_kinds[usize::from(refusal != 0)] += 1;
            }
            (0, _) => sized += 1,
            _ => panic!("{size:?}, {answer:?}: {}", Shown(&file)),
        }
    }
    println!(
        "alike by refusal {alike:?}, replays by kind, sized or not, {of_kinds:?}, {sized} sized"
    );
    assert!([1, 2, 3, 4, 5, 6, 17, 19, 21, 22].into_iter().all(|number: usize| alike[number] > 10));
    assert!(of_kinds.iter().all(|number| *number > 100) && sized > 1000);
}

/// The file with its length, header and settings, and any other bytes.
fn with_others(file: &[u8], random: &mut Random) -> Vec<u8> {
    let mut other = random.bytes(file.len());
    put_own(file, &mut other);
    other
}

/// Gives another file the header and the settings of a file, as far as these lie in it.
fn put_own(file: &[u8], other: &mut [u8]) {
    let settings = number_at(file, SETTINGS_AT);
    for at in (0..HEADER).chain(settings..settings + SETTINGS).filter(|at| *at < file.len()) {
        other[at] = file[at];
    }
}

/// Records and gaps of any bytes leave the answer as it is, also where it is a refusal.
#[test]
fn header_and_settings_alone() {
    let model = Model::new();
    let mut random = Random::new(6);
    let (mut sized, mut refused, mut with_windows) = (0, 0, 0);
    for _ in 0..3000 {
        let mut file = random.accepted_trace(&model, 60);
        if random.once_in(3) {
            let at = random.below(file.len().min(24));
            file[at] = random.any_byte();
        }
        let size = replay_size(&file);
        for _ in 0..4 {
            let other = with_others(&file, &mut random);
            assert_eq!(replay_size(&other), size, "{} and {}", Shown(&file), Shown(&other));
        }
        match size.refusal {
            0 => sized += 1,
            _ => refused += 1,
        }
        with_windows += u64::from(size.windows > 0);
    }
    println!("{sized} sized, {with_windows} of them with windows, {refused} refused");
    assert!(sized > 1500 && with_windows > 1000 && refused > 300);
}

/// Every byte that is neither of the header nor of the settings with every value.
#[test]
fn every_other_byte() {
    let model = Model::new();
    let mut bytes = 0;
    for mut trace in Random::new(7).good_traces(&model, 8) {
        let size = replay_size(&trace);
        let settings = number_at(&trace, SETTINGS_AT);
        let is_other = |at: &usize| *at >= HEADER && !(settings..settings + SETTINGS).contains(at);
        for at in (0..trace.len()).filter(is_other) {
            let good = trace[at];
            for value in 0..=255 {
                trace[at] = value;
                assert_eq!(replay_size(&trace), size, "{value} at {at} of {}", Shown(&trace));
            }
            trace[at] = good;
            bytes += 1;
        }
    }
    assert!(bytes > 500, "{bytes}");
}

/// No smaller size would do for header and settings: a trace with the same, whose records are of
/// nothing, is accepted to its end and writes as much.
#[test]
fn records_of_nothing_write_as_much() {
    let mut random = Random::new(8);
    let mut stopped = 0;
    for _ in 0..2000 {
        let settings = random.mixed_settings();
        let records: Vec<Slot> = (0..random.below(50))
            .map(|_| {
                let [kind, cce, dai, results] = [0; 4].map(|_: u8| random.any_byte());
                Slot { kind: kind % 5, cce, dai, results }
            })
            .collect();
        let trace = random.arranged(Trace::new(settings, &records)).bytes();
        let mut nothing = vec![0; trace.len()];
        put_own(&trace, &mut nothing);
        assert_eq!(replay_size(&nothing), replay_size(&trace));
        let bytes = hold_accepted(&nothing);
        stopped += u64::from(replayed(&trace, bytes).0.kind != ReplayAnswer::DONE);
    }
    println!("{stopped} of the traces were not accepted");
    assert!(stopped > 1000);
    for settings in (0..7).map(|config| Settings::plain(config, 50, 10, 0, 1)) {
        for records in 0..=40 {
            let trace = Trace::new(settings, &vec![Slot::NOTHING; records]);
            hold_accepted(&trace.bytes());
        }
    }
}
