//! The programs `replay`, `replay_text` and `spell`, which the engine's build leaves in
//! `../target/bin`: traces by a pipe on standard input, and all that they print beside
//! what the model prints. Likewise `game`, by the size of a window. Where a program is missing
//! the tests fail.

use feedback_tests::model::Model;
use feedback_tests::random::Random;
use feedback_tests::trace::{put_length, put_number, Trace, LENGTH_AT, LONGEST, MOST_RECORDS};
use feedback_tests::vectors::cases;
use feedback_tests::{Settings, Slot};
use std::collections::BTreeSet;
use std::fs::File;
use std::io::{ErrorKind, Write};
use std::path::PathBuf;
use std::process::{Child, Command, Stdio};
use std::thread;
use std::time::Duration;

/// Those that are given a trace.
const PROGRAMS: [&str; 3] = ["replay", "replay_text", "spell"];

/// What a program printed: standard output, standard error.
type Printed = (Vec<u8>, Vec<u8>);

fn path(program: &str) -> PathBuf {
    PathBuf::from(env!("CARGO_MANIFEST_DIR")).join("../target/bin").join(program)
}

fn start(program: &str, input: Stdio) -> Child {
    let path = path(program);
    let child =
        Command::new(&path).stdin(input).stdout(Stdio::piped()).stderr(Stdio::piped()).spawn();
    child.unwrap_or_else(|error| panic!("{}: {error}; build the engine first", path.display()))
}

/// What a program that was started prints; it ends with status 0.
fn printed(program: &str, child: Child) -> Printed {
    let output = child.wait_with_output().expect("output");
    assert_eq!(output.status.code(), Some(0), "{program}");
    (output.stdout, output.stderr)
}

/// Runs a program on pieces of input, each written by itself. It need not read all of it:
/// then its end breaks the pipe.
fn run(program: &str, pieces: Vec<Vec<u8>>) -> Printed {
    run_slowly(program, pieces, Duration::ZERO)
}

/// The same with a pause behind each piece, in which the program may read it.
fn run_slowly(program: &str, pieces: Vec<Vec<u8>>, pause: Duration) -> Printed {
    let mut child = start(program, Stdio::piped());
    let mut input = child.stdin.take().expect("standard input");
    let write = move |piece: &Vec<u8>| {
        let written = input.write_all(piece);
        thread::sleep(pause);
        written
    };
    let writer = thread::spawn(move || pieces.iter().try_for_each(write));
    let printed = printed(program, child);
    if let Err(error) = writer.join().expect("a writer") {
        assert_eq!(error.kind(), ErrorKind::BrokenPipe, "{program}");
    }
    printed
}

/// What the model prints for a program.
fn due(model: &Model, program: &str, input: &[u8]) -> Printed {
    let (output, error) = match program {
        "replay" => model.replay_program(input),
        "spell" => model.spell_program(input),
        "game" => (model.game_program(input).into_bytes(), String::new()),
        _ => (model.replay_text(input).into_bytes(), String::new()),
    };
    (output, error.into_bytes())
}

fn compare(model: &Model, program: &str, input: &[u8]) {
    let given = run(program, vec![input.to_vec()]);
    let due = due(model, program, input);
    let shown = |(out, error): &Printed| {
        let first = &out[..out.len().min(400)];
        let (out, error) = (String::from_utf8_lossy(first), String::from_utf8_lossy(error));
        format!("{first:?}, {out:?}, and {error:?}")
    };
    assert!(
        given == due,
        "{program} on {} bytes {:?}: it prints {}, the model {}",
        input.len(),
        &input[..input.len().min(200)],
        shown(&given),
        shown(&due)
    );
}

/// Runs a program on the traces of a file of conformance vectors, each once.
fn compare_vectors(program: &str, file: &str, text: &str, number: usize) {
    let model = Model::new();
    let traces: BTreeSet<Vec<u8>> =
        cases(file, text).iter().map(|case| case.bytes("trace")).collect();
    traces.iter().for_each(|trace| compare(&model, program, trace));
    println!("{} traces", traces.len());
    assert_eq!(traces.len(), number);
}

#[test]
fn replay_on_the_vectors() {
    let text = include_str!("../data/u03-replay.csv");
    compare_vectors("replay", "u03-replay.csv", text, 926);
}

#[test]
fn replay_text_on_the_vectors() {
    let text = include_str!("../data/u03-replay.csv");
    compare_vectors("replay_text", "u03-replay.csv", text, 926);
}

#[test]
fn spell_on_the_vectors() {
    let text = include_str!("../data/u04-writing.csv");
    compare_vectors("spell", "u04-writing.csv", text, 938);
}

/// A good trace of 65,535 bytes, and one that is refused at its last record.
fn largest(model: &Model) -> Vec<Vec<u8>> {
    let mut random = Random::new(1);
    let cells = [
        Settings::plain(6, 50, 2047, 0, 2).with_scheduled(300),
        Settings::plain(2, 110, 1000, 1, 2).with_scheduled(999).with_special(0, 5),
        Settings::plain(5, 6, 10, 0, 1),
    ];
    cells
        .into_iter()
        .flat_map(|settings| {
            let good = random.records(model, settings, MOST_RECORDS);
            let mut refused = good.clone();
            refused[MOST_RECORDS - 1] = Slot::grant(255, 1, 1);
            let trace = |records| Trace::new(settings, records).with_gaps([&[7], &[], &[]]).bytes();
            [trace(&good), trace(&refused)]
        })
        .collect()
}

#[test]
fn the_largest_traces() {
    let model = Model::new();
    for trace in largest(&model) {
        assert_eq!(trace.len(), LONGEST);
        for program in PROGRAMS {
            compare(&model, program, &trace);
        }
    }
}

/// Inputs that are no trace: of every short length, and longer than any trace, whatever
/// length the header names.
#[test]
fn inputs_that_are_no_trace() {
    let model = Model::new();
    let mut inputs: Vec<Vec<u8>> = (0..12).map(|length| vec![0; length]).collect();
    let trace = largest(&model).swap_remove(0);
    for length in [65_536, 65_537, 100_000, 131_071, 131_072] {
        let mut input = trace.clone();
        input.resize(length, 0);
        inputs.push(input.clone());
        put_number(&mut input, LENGTH_AT, length % 65_536);
        inputs.push(input);
    }
    for input in inputs {
        for program in PROGRAMS {
            compare(&model, program, &input);
            assert_eq!(due(&model, program, &input).0.is_empty(), program != "replay_text");
        }
    }
}

/// Input that comes in pieces, as from a pipe it may.
#[test]
fn input_in_pieces() {
    let model = Model::new();
    let settings = Settings::plain(1, 50, 300, 0, 2).with_scheduled(7);
    let records = Random::new(2).records(&model, settings, 200);
    let mut trace = Trace::new(settings, &records).bytes();
    trace.extend([1, 2, 3]);
    put_length(&mut trace);
    let largest = largest(&model).swap_remove(1);
    for (input, piece) in [(&trace, 1), (&trace, 7), (&largest, 1000), (&largest, 8191)] {
        for program in PROGRAMS {
            let pieces = input.chunks(piece).map(<[u8]>::to_vec).collect();
            assert!(run(program, pieces) == due(&model, program, input), "{program}, {piece}");
        }
    }
}

/// What a program prints for a file of the examples; nothing on standard error.
fn on_example(program: &str, name: &str) -> Vec<u8> {
    let path = PathBuf::from(env!("CARGO_MANIFEST_DIR")).join("../examples").join(name);
    let file = File::open(&path).unwrap_or_else(|error| panic!("{}: {error}", path.display()));
    let (output, error) = printed(program, start(program, file.into()));
    assert_eq!(error, [], "{program} on {name}");
    output
}

/// The example, from its file, and the same drive as another lab recorded it: both have
/// the same replies and one spelling, which is spelled as it is.
#[test]
fn the_recorded_drive() {
    for name in ["drive.trace", "drive_other.trace", "drive.spelled"] {
        let windows = include_bytes!("../../examples/drive.windows");
        assert_eq!(on_example("replay", name), windows, "{name}");
        let text = include_bytes!("../../examples/drive.txt");
        assert_eq!(on_example("replay_text", name), text, "{name}");
        let spelled = include_bytes!("../../examples/drive.spelled");
        assert_eq!(on_example("spell", name), spelled, "{name}");
    }
}

/// What `spell` says of traces that are not accepted, worked out by hand; it writes
/// nothing then. Subframe 2 is uplink.
#[test]
fn what_spell_refuses() {
    let settings = Settings::plain(1, 50, 300, 0, 2);
    let nothing = Slot::NOTHING;
    let uplink = Trace::new(settings, &[nothing, nothing, Slot::grant(5, 1, 1), nothing]).bytes();
    let mode = Trace::new(Settings { mode: 2, ..settings }, &[nothing; 3]).bytes();
    let kind = Trace::new(settings, &[nothing, Slot { kind: 4, ..nothing }]).bytes();
    let refused = [
        (&uplink[..7], "refused 21\n"),
        (&uplink[..33], "refused 21\n"),
        (&kind, "refused 22\n"),
        (&mode, "refused 4\n"),
        (&uplink, "refused 9 at record 2\n"),
    ];
    for (input, line) in refused {
        assert_eq!(run("spell", vec![input.to_vec()]), (Vec::new(), line.as_bytes().to_vec()));
    }
}

/// The sizes that `game` is given: one digit and a newline.
fn sizes() -> impl Iterator<Item = Vec<u8>> {
    (b'1'..=b'9').map(|digit| vec![digit, b'\n'])
}

/// A title, what it is to hide a loss, the losses, a line for each number of grants, and the line
/// that is the same for every size.
#[test]
fn game_on_every_size() {
    let model = Model::new();
    let (mut lines, mut letters) = (0, [0, 0]);
    for input in sizes() {
        compare(&model, "game", &input);
        let (printed, _) = run("game", vec![input.clone()]);
        let text = String::from_utf8(printed).expect("text");
        let size = usize::from(input[0] - b'0');
        assert_eq!(text.lines().count(), 4 + size + 1);
        lines += text.lines().count();
        let rows = text.lines().filter(|line| line.starts_with("G "));
        for cell in rows.flat_map(|row| row.split(' ').skip(2)) {
            let at = ["R", "S"].iter().position(|letter| *letter == cell).expect("a letter");
            letters[at] += 1;
        }
    }
    assert_eq!((lines, letters), (9 * 5 + 45, [90, 450]));
}

/// What `game` prints for windows of four and of nine, worked out by hand. That of nine is kept
/// beside the program.
#[test]
fn what_game_prints() {
    let title = "R the radio can force a reply that hides a loss, S the scheduler can prevent it";
    let losses = "L   0 1 2 3 4 5 6 7 8 9";
    let hides =
        "A reply hides a loss if a grant before the last one heard was lost; a release is a \
                 grant here";
    let last =
        "Configuration 5 (size 9): a reply hides 0, 4 or 8 losses; 0 with at most 4 grants or 3 losses";
    let none = "S S S S S S S S S S";
    let from_four = "S S S S R R R R R R";
    let four = format!(
        "Window size 4: {title}\n{hides}\n{losses}\nG 0 {none}\nG 1 {none}\nG 2 {none}\nG 3 {none}\n\
         G 4 {none}\n{last}\n"
    );
    let nine = format!(
        "Window size 9: {title}\n{hides}\n{losses}\nG 0 {none}\nG 1 {none}\nG 2 {none}\nG 3 {none}\n\
         G 4 {none}\nG 5 {from_four}\nG 6 {from_four}\nG 7 {from_four}\nG 8 {from_four}\n\
         G 9 {from_four}\n{last}\n"
    );
    assert_eq!(nine, include_str!("../../crates/game/stdout"));
    for (input, text) in [("4\n", four), ("9\n", nine)] {
        let (printed, error) = run("game", vec![input.into()]);
        assert_eq!((String::from_utf8(printed), error), (Ok(text), Vec::new()), "{input:?}");
    }
}

/// All that is not one digit from 1 to 9 and a newline: every byte before a newline, no byte and
/// more of them, and much more than the program asks for.
#[test]
fn what_game_refuses() {
    let model = Model::new();
    let bytes = (0..=255).filter(|byte| !(b'1'..=b'9').contains(byte));
    let mut inputs: Vec<Vec<u8>> = bytes.map(|byte| vec![byte, b'\n']).collect();
    assert_eq!(inputs.len(), 247);
    inputs.extend(sizes().map(|size| size[..1].to_vec()));
    inputs.extend(sizes().map(|size| [&size[..], b"\n"].concat()));
    let others: [&[u8]; 15] = [
        b"", b"\n", b"0\n", b"a\n", b"10\n", b"19\n", b"99\n", b"\n9\n", b" 9\n", b"9 \n",
        b"9\r\n", b"9\0", b"9\n9", b"9\n9\n", b"-9\n",
    ];
    inputs.extend(others.map(<[u8]>::to_vec));
    inputs.push(vec![b'9'; 1 << 20]);
    inputs.push([b"9\n".to_vec(), vec![b'9'; 1 << 20]].concat());
    for input in inputs {
        let shown = &input[..input.len().min(20)];
        let refused = (b"refused 27\n".to_vec(), Vec::new());
        assert_eq!(run("game", vec![input.clone()]), refused, "{shown:?}");
        assert_eq!(due(&model, "game", &input), refused, "{shown:?}");
    }
}

/// A digit and a newline that come apart, and what comes behind them.
#[test]
fn a_size_in_pieces() {
    let model = Model::new();
    let pause = Duration::from_millis(20);
    for size in sizes() {
        for end in ["", "\n", "7"] {
            let input = [&size[..], end.as_bytes()].concat();
            let pieces = input.chunks(1).map(<[u8]>::to_vec).collect();
            let given = run_slowly("game", pieces, pause);
            assert_eq!(given, due(&model, "game", &input), "{input:?}");
        }
    }
}
