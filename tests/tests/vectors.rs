//! The conformance vectors in `data/`, line by line, through the C calls. The
//! model and the plain implementation are held to them too. Each test knows how
//! many lines its file has, and how many of them this layout cannot hold.

use feedback_tests::charging::Windows;
use feedback_tests::compare::{
    plain_command_on, plain_confirmed_of, plain_credit_of, plain_feed, plain_record_of,
    plain_replay_on, plain_replay_size_of, plain_trace_write_on,
};
use feedback_tests::form::Form;
use feedback_tests::model::{Game, Model};
use feedback_tests::plain::{
    plain_add, plain_change_mode, plain_game, plain_inverse, plain_make, plain_open_account,
    plain_reading, plain_resource, plain_silence,
};
use feedback_tests::registers::{is_high, Written, FEED, WRONG, ZEROS};
use feedback_tests::sizings::{self, has_kind_over_3};
use feedback_tests::trace::{
    put_number, FIRST_AT, HEADER, LENGTH_AT, RECORD, RECORDS_AT, SETTINGS_AT, SPELLED_FIRST,
};
use feedback_tests::vectors::{cases, heard, step, Case};
use feedback_tests::{
    change_mode, command, confirmed, credit, feed, game, inverse, make, open_account, reading,
    record, replay, replay_size, resource, silence, trace_write, window, Account, Changed,
    ClaimsAnswer, CommandAnswer, ConfirmedAnswer, CreditAnswer, Exchange, Fed, GameAnswer, Handset,
    Heard, InverseAnswer, Opened, ReadingAnswer, RecordAnswer, ReplayAnswer, ReplaySizeAnswer,
    ResourceAnswer, Sent, SentWindow, Settings, SilenceAnswer, Slot, Step, WriteAnswer, NOT_TOLD,
};
use std::fmt::Debug;

/// How many failures are shown.
const SHOWN: usize = 20;

/// Who answers.
enum Who<'a> {
    Engine,
    Model(&'a Model),
    Plain,
}

impl Who<'_> {
    fn name(&self) -> &'static str {
        match self {
            Self::Engine => "the engine",
            Self::Model(_) => "the model",
            Self::Plain => "the plain implementation",
        }
    }

    fn feed(&self, handset: Handset, heard: Heard) -> Fed {
        match self {
            Self::Engine => feed(handset, heard),
            Self::Model(model) => model.feed(handset, heard),
            Self::Plain => plain_feed(handset, heard),
        }
    }

    /// A feed with the cause beside a silent answer. Only a feed of nothing can be silent, so
    /// only it is asked for a cause, and answers as the feed does.
    fn silence(&self, handset: Handset, heard: Heard) -> SilenceAnswer {
        let fed = self.feed(handset, heard);
        if heard != Heard::Nothing {
            return SilenceAnswer::not_silent(fed);
        }
        let given = match self {
            Self::Engine => silence(handset),
            Self::Model(model) => model.silence(handset),
            Self::Plain => plain_silence(handset),
        };
        let same = given.fed == fed && given.fed.handset.bytes() == fed.handset.bytes();
        assert!(same, "{handset:?}: {} gives {given:?}, and feeds {fed:?}", self.name());
        given
    }

    fn change_mode(&self, handset: Handset, mode: u16) -> Changed {
        match self {
            Self::Engine => change_mode(handset, mode),
            Self::Model(model) => model.change_mode(handset, mode),
            Self::Plain => plain_change_mode(handset, mode),
        }
    }

    /// A step of a run: the answer in numbers, and the handset afterwards.
    fn step(&self, handset: Handset, step: Step) -> ([u16; 6], Handset) {
        match step {
            Step::Feed(heard) => {
                let fed = self.feed(handset, heard);
                (numbers_of(fed), fed.handset)
            }
            Step::Change(mode) => {
                let Changed { refusal, handset } = self.change_mode(handset, mode);
                let kind = if refusal == 0 { MODE_CHANGED } else { 0 };
                ([refusal, kind, 0, 0, 0, 0], handset)
            }
        }
    }

    fn reading(&self, settings: Settings, n: u16, told: u16, reply: [u16; 3]) -> ReadingAnswer {
        let [resource, b0, b1] = reply;
        match self {
            Self::Engine => reading(settings, n, told, resource, b0, b1),
            Self::Model(model) => model.reading(settings, n, told, resource, b0, b1),
            Self::Plain => plain_reading(settings, n, told, resource, b0, b1),
        }
    }

    fn make(&self, settings: Settings) -> (u16, Handset) {
        let made = match self {
            Self::Engine => make(settings),
            Self::Model(model) => model.make(settings),
            Self::Plain => plain_make(settings),
        };
        (made.refusal, made.handset)
    }

    fn resource(&self, settings: Settings, n: u16, position: u16, cce: u16) -> ResourceAnswer {
        match self {
            Self::Engine => resource(settings, n, position, cce),
            Self::Model(model) => model.resource(settings, n, position, cce),
            Self::Plain => plain_resource(settings, n, position, cce),
        }
    }

    fn inverse(&self, settings: Settings, n: u16, resource: u16) -> InverseAnswer {
        match self {
            Self::Engine => inverse(settings, n, resource),
            Self::Model(model) => model.inverse(settings, n, resource),
            Self::Plain => plain_inverse(settings, n, resource),
        }
    }

    /// The answer about claims, and the scratch afterwards.
    fn claims(
        &self,
        form: Form,
        settings: Settings,
        n: u16,
        list: &[u16],
        lent: &[u8],
    ) -> (ClaimsAnswer, Vec<u8>) {
        let mut scratch = lent.to_vec();
        match self {
            Self::Engine => (form.claims(settings, n, list, &mut scratch), scratch),
            Self::Model(model) => form.model(model, settings, n, list, lent),
            Self::Plain => (form.plain(settings, n, list, &mut scratch), scratch),
        }
    }

    /// The answer of a replay, and the output afterwards.
    fn replay(&self, trace: &[u8], lent: &[u8]) -> (ReplayAnswer, Vec<u8>) {
        let mut output = lent.to_vec();
        match self {
            Self::Engine => (replay(trace, &mut output), output),
            Self::Model(model) => model.replay(trace, lent),
            Self::Plain => (plain_replay_on(trace, &mut output), output),
        }
    }

    fn replay_size(&self, trace: &[u8]) -> ReplaySizeAnswer {
        match self {
            Self::Engine => replay_size(trace),
            Self::Model(model) => model.replay_size(trace),
            Self::Plain => plain_replay_size_of(trace),
        }
    }

    fn record(&self, trace: &[u8], next: usize) -> RecordAnswer {
        match self {
            Self::Engine => record(trace, next),
            Self::Model(model) => model.record(trace, next),
            Self::Plain => plain_record_of(trace, next),
        }
    }

    /// The answer of writing a trace, and the output afterwards.
    fn trace_write(&self, trace: &[u8], lent: &[u8]) -> (WriteAnswer, Vec<u8>) {
        let mut output = lent.to_vec();
        match self {
            Self::Engine => (trace_write(trace, &mut output), output),
            Self::Model(model) => model.trace_write(trace, lent),
            Self::Plain => (plain_trace_write_on(trace, &mut output), output),
        }
    }

    fn confirmed(&self, exchange: Exchange) -> ConfirmedAnswer {
        match self {
            Self::Engine => confirmed(exchange),
            Self::Model(model) => model.confirmed(&exchange),
            Self::Plain => plain_confirmed_of(exchange),
        }
    }

    fn open_account(&self, price: u32) -> Opened {
        match self {
            Self::Engine => open_account(price),
            Self::Model(model) => model.open_account(price),
            Self::Plain => plain_open_account(price),
        }
    }

    fn credit(&self, exchange: Exchange, account: Account) -> CreditAnswer {
        match self {
            Self::Engine => credit(exchange, account),
            Self::Model(model) => model.credit(&exchange, account),
            Self::Plain => plain_credit_of(exchange, account),
        }
    }

    fn game(&self, size: u16, grants: u16, losses: u16) -> GameAnswer {
        match self {
            Self::Engine => game(size, grants, losses),
            Self::Model(model) => model.game(size, grants, losses),
            Self::Plain => plain_game(size, grants, losses),
        }
    }

    /// The answer to a command, with what is left in the block.
    fn command(&self, handset: Handset, block: &mut [u8]) -> CommandAnswer {
        match self {
            Self::Engine => command(handset, block),
            Self::Model(model) => model.command(handset, block),
            Self::Plain => plain_command_on(handset, block),
        }
    }

    /// An account alone, which the engine has no call for.
    fn add(&self, account: Account, octets: u32) -> Option<CreditAnswer> {
        match self {
            Self::Engine => None,
            Self::Model(model) => Some(model.add(account, octets)),
            Self::Plain => Some(plain_add(account, octets)),
        }
    }
}

/// The lines of a file that were run, and what went wrong.
#[derive(Default)]
struct Tally {
    run: usize,
    left_out: usize,
    failures: Vec<String>,
}

impl Tally {
    /// Runs every line by all three. `each` says what is given and what is due, or
    /// nothing where this layout cannot hold the line.
    fn of<T: Debug + PartialEq>(
        file: &str,
        text: &str,
        each: impl Fn(&Case, &Who) -> Option<(T, T)>,
    ) -> Self {
        let model = Model::new();
        let mut tally = Self::default();
        for case in cases(file, text) {
            let held = [Who::Engine, Who::Model(&model), Who::Plain]
                .map(|who| each(&case, &who).map(|answers| tally.compare(&case, &who, answers)));
            match held {
                [None, None, None] => tally.left_out += 1,
                _ => tally.run += 1,
            }
        }
        tally
    }

    fn compare<T: Debug + PartialEq>(&mut self, case: &Case, who: &Who, (given, due): (T, T)) {
        if given != due {
            let who = who.name();
            self.failures.push(format!("{case} {who} gives {given:?}, the line has {due:?}"));
        }
    }

    fn finish(self, run: usize, left_out: usize) {
        let Self { failures, .. } = &self;
        println!("{} lines run, {} left out", self.run, self.left_out);
        let shown = failures.iter().take(SHOWN).map(String::as_str).collect::<Vec<_>>().join("\n");
        assert!(failures.is_empty(), "{} answers differ, such as\n{shown}", failures.len());
        assert_eq!((self.run, self.left_out), (run, left_out), "lines run, lines left out");
    }
}

/// The kind of the answer to a mode change, beside those of a feed.
const MODE_CHANGED: u16 = 6;

/// The answer of a feed from the files' numbers: refusal, answer (0 silent, 1 bundled, 2
/// multiplexed, 3 taken, 4 no window, 5 mode changed), resource and bits. Before the bits
/// stands the resource of the second port in the files that have one; in the others there is
/// one port.
fn fed_of(numbers: &[u16]) -> [u16; 6] {
    let [refusal, answer, resource, second, b0, b1] = match *numbers {
        [refusal, answer, resource, b0, b1] => [refusal, answer, resource, 0, b0, b1],
        [refusal, answer, resource, second, b0, b1] => [refusal, answer, resource, second, b0, b1],
        _ => panic!("five numbers or six: {numbers:?}"),
    };
    let kind = match (refusal, answer) {
        (0, 0) => Fed::SILENT,
        (0, 1) => Fed::BUNDLED,
        (0, 2) => Fed::MULTIPLEXED,
        (0, 3) => Fed::TAKEN,
        (0, 4) => Fed::NO_WINDOW,
        (0, 5) => MODE_CHANGED,
        _ => 0,
    };
    [refusal, kind, resource, second, b0, b1]
}

fn numbers_of(fed: Fed) -> [u16; 6] {
    [fed.refusal, fed.kind, fed.resource, fed.second, fed.b0, fed.b1]
}

/// The answer that a line with one feed or mode change has.
fn fed_due(case: &Case) -> [u16; 6] {
    let names: &[&str] = match case.has("second") {
        true => &["refusal", "answer", "resource", "second", "b0", "b1"],
        false => &["refusal", "answer", "resource", "b0", "b1"],
    };
    fed_of(&names.iter().map(|name| case.number(name)).collect::<Vec<_>>())
}

/// The refusals of every call that takes settings. The files have claims checked by bytes; by
/// bits, in as much scratch, they are refused alike, but where it is too short for bytes.
fn settings_line(case: &Case, who: &Who) -> ([u16; 6], [u16; 6]) {
    let (settings, n) = (case.settings(), case.number("n"));
    let reply = ["resource", "b0", "b1"].map(|name| case.number(name));
    let [bytes, bits] = [Form::Bytes, Form::Bits].map(|form| {
        let (list, room) = (case.numbers("claims"), case.number("scratch"));
        who.claims(form, settings, n, &list, &vec![7; room.into()]).0.refusal
    });
    let given = [
        who.make(settings).0,
        who.resource(settings, n, case.number("m"), case.number("CCE")).refusal,
        who.inverse(settings, n, case.number("resource")).refusal,
        who.reading(settings, n, NOT_TOLD, reply).refusal,
        bytes,
        bits,
    ];
    let calls = ["make", "resource_call", "inverse", "reading", "claims_call"];
    let [make, resource, inverse, reading, claims] = calls.map(|name| case.number(name));
    let by_bits = if claims == 15 { bits } else { claims };
    (given, [make, resource, inverse, reading, claims, by_bits])
}

/// One reading.
fn reading_line(case: &Case, who: &Who) -> (ReadingAnswer, ReadingAnswer) {
    let (settings, n, told) = (case.settings(), case.number("n"), case.number("told"));
    let reply = ["resource", "b0", "b1"].map(|name| case.number(name));
    let due = ReadingAnswer {
        refusal: case.number("refusal"),
        kind: case.number("read"),
        position: case.number("position"),
        cce: case.number("CCE"),
        b0: case.number("ack0"),
        b1: case.number("ack1"),
        delivered: case.numbers("delivered").iter().map(|position| 1 << position).sum(),
        scheduled: case.number("as_scheduled"),
    };
    (who.reading(settings, n, told, reply), due)
}

/// One feed to a lent handset. A refusal leaves it.
fn state_line(case: &Case, who: &Who) -> Option<([u16; 6], [u16; 6])> {
    let handset = case.handset()?;
    let fed = who.feed(handset, heard(&case.numbers("fed")));
    assert!(fed.refusal == 0 || fed.handset == handset, "{case}: {} writes", who.name());
    Some((numbers_of(fed), fed_due(case)))
}

/// One feed or mode change on a lent handset, with the mode that stands in it afterwards.
/// A refusal leaves it, and so does a change all but that mode.
fn mode_state_line(case: &Case, who: &Who) -> Option<([u16; 7], [u16; 7])> {
    let handset = case.handset()?;
    let step = step(&case.numbers("step"));
    let (given, after) = who.step(handset, step);
    let [refusal, ..] = given;
    if refusal != 0 {
        assert_eq!(after, handset, "{case}: {} writes", who.name());
    } else if let Step::Change(mode) = step {
        assert_eq!(after, handset.in_mode(mode), "{case}: {} writes", who.name());
    }
    Some((with(given, after.settings.mode), with(fed_due(case), case.number("mode_after"))))
}

/// The numbers of an answer and a mode.
fn with(answer: [u16; 6], mode: u16) -> [u16; 7] {
    let [refusal, kind, resource, second, b0, b1] = answer;
    [refusal, kind, resource, second, b0, b1, mode]
}

/// Refusal, kind, resource, second, b0, b1, then cause, V and the value expected.
type ToldNumbers = [u16; 9];

fn with_cause(fed: [u16; 6], told: [u16; 3]) -> ToldNumbers {
    let ([refusal, kind, resource, second, b0, b1], [cause, v, expected]) = (fed, told);
    [refusal, kind, resource, second, b0, b1, cause, v, expected]
}

/// One feed to a lent handset, with the cause beside a silent answer. A refusal leaves it.
fn silence_line(case: &Case, who: &Who) -> Option<(ToldNumbers, ToldNumbers)> {
    let handset = case.handset()?;
    let given = who.silence(handset, heard(&case.numbers("fed")));
    let is_left = given.fed.handset.bytes() == handset.bytes();
    assert!(given.fed.refusal == 0 || is_left, "{case}: {} writes", who.name());
    let told = ["cause", "V", "expected"].map(|name| case.number(name));
    Some((with_cause(numbers_of(given.fed), given.told()), with_cause(fed_due(case), told)))
}

/// One step of a list: its number from 0, what it is, and the answer.
type ToldStep = (usize, Step, ToldNumbers);

/// A list of feeds and mode changes from a fresh handset, with the cause beside each silent
/// answer: eight numbers a step. Of a feed of nothing the handset goes on that stands beside the
/// cause. The first step that is answered otherwise than it should be is shown, or else the last.
fn silence_run_line(case: &Case, who: &Who) -> (Option<ToldStep>, Option<ToldStep>) {
    let (refusal, mut handset) = who.make(case.settings());
    assert_eq!(refusal, 0, "{case}: {} makes no handset", who.name());
    let (steps, answers) = (case.numbers("steps"), case.numbers("answers"));
    let number = steps.len() / 7;
    let whole = (steps.len(), answers.len()) == (7 * number, 8 * number);
    assert!(whole, "{case}: an answer for each step");
    let mut last = (None, None);
    for (at, (numbers, due)) in steps.chunks(7).zip(answers.chunks(8)).enumerate() {
        let step = step(numbers);
        let (given, after) = match step {
            Step::Feed(heard) => {
                let given = who.silence(handset, heard);
                (with_cause(numbers_of(given.fed), given.told()), given.fed.handset)
            }
            Step::Change(_) => {
                let (given, after) = who.step(handset, step);
                (with_cause(given, [0; 3]), after)
            }
        };
        assert!(given[0] == 0 || after == handset, "{case}: {} writes", who.name());
        let (fed, told) = due.split_at(5);
        let due = with_cause(fed_of(fed), told.try_into().expect("three numbers"));
        last = (Some((at, step, given)), Some((at, step, due)));
        if given != due {
            break;
        }
        handset = after;
    }
    last
}

/// Stands in the files for no window.
const NO_WINDOW: u16 = 65535;

/// The mode of the window that a handset answers next, if it does: the one that it
/// remembers at the largest k.
fn window_mode(handset: Handset) -> u16 {
    let Handset { settings, next, modes, .. } = handset;
    match window(settings, next).k.into_iter().max() {
        None | Some(0) => NO_WINDOW,
        Some(k) => modes >> (k - 1) & 1,
    }
}

/// One step of a list: its number from 0, what it is, and the answer.
type ModeStep = (usize, Step, [u16; 7]);

/// A list of feeds and mode changes from a fresh handset, with the mode of each window
/// that is answered; an answer has so many numbers, and that mode is the last. The first
/// step that is answered otherwise than it should be is shown, or else the last.
fn mode_run_line(case: &Case, who: &Who, numbers: usize) -> (Option<ModeStep>, Option<ModeStep>) {
    let (refusal, mut handset) = who.make(case.settings());
    assert_eq!(refusal, 0, "{case}: {} makes no handset", who.name());
    let (steps, answers) = (case.numbers("steps"), case.numbers("answers"));
    let number = steps.len() / 7;
    let whole = (steps.len(), answers.len()) == (7 * number, numbers * number);
    assert!(whole, "{case}: an answer for each step");
    let mut last = (None, None);
    for (at, (numbers, due)) in steps.chunks(7).zip(answers.chunks(numbers)).enumerate() {
        let step = step(numbers);
        let (given, after) = who.step(handset, step);
        assert!(given[0] == 0 || after == handset, "{case}: {} writes", who.name());
        let mode = match step {
            Step::Feed(_) if given[0] == 0 => window_mode(handset),
            _ => NO_WINDOW,
        };
        let (due_mode, due) = due.split_last().expect("an answer with a mode");
        let (given, due) = (with(given, mode), with(fed_of(due), *due_mode));
        last = (Some((at, step, given)), Some((at, step, due)));
        if given != due {
            break;
        }
        handset = after;
    }
    last
}

/// One feed of a list: its number from 0, what it brings, and the answer.
type FedStep = (usize, Heard, [u16; 6]);

/// A list of feeds from a fresh handset. Each gets the handset that the one before
/// returned or left. The first feed that is answered otherwise than it should be is
/// shown, or else the last.
fn run_line(case: &Case, who: &Who) -> (Option<FedStep>, Option<FedStep>) {
    let (refusal, mut handset) = who.make(case.settings());
    assert_eq!(refusal, 0, "{case}: {} makes no handset", who.name());
    let (feeds, answers) = (case.numbers("feeds"), case.numbers("answers"));
    assert_eq!(feeds.len() / 6, answers.len() / 5, "{case}: an answer for each feed");
    let mut last = (None, None);
    for (at, (fed, due)) in feeds.chunks(6).zip(answers.chunks(5)).enumerate() {
        let (brought, due) = (heard(fed), fed_of(due));
        let fed = who.feed(handset, brought);
        assert!(fed.refusal == 0 || fed.handset == handset, "{case}: {} writes", who.name());
        handset = fed.handset;
        last = (Some((at, brought, numbers_of(fed))), Some((at, brought, due)));
        if numbers_of(fed) != due {
            break;
        }
    }
    last
}

/// Stands in the files for no record's number.
const NO_RECORD: u16 = 65535;

/// A trace replayed into a lent output. A refusal with a record's number stopped it
/// there, one without came before any record.
fn replay_line(case: &Case, who: &Who) -> ((ReplayAnswer, Vec<u8>), (ReplayAnswer, Vec<u8>)) {
    let (refusal, windows) = (case.number("refusal"), usize::from(case.number("windows")));
    let answer = match (refusal, case.number("record")) {
        (0, NO_RECORD) => ReplayAnswer::done(windows),
        (_, NO_RECORD) => {
            ReplayAnswer { windows: windows as u16, ..ReplayAnswer::refused(refusal) }
        }
        (_, record) => ReplayAnswer::stopped(refusal, record.into(), windows),
    };
    let given = who.replay(&case.bytes("trace"), &case.bytes("lent"));
    (given, (answer, case.bytes("output")))
}

/// A record by its number. Fields and bits that its kind does not use have a 0 in the
/// files, which are not to be compared with them; here they are 0 all the same.
fn reader_line(case: &Case, who: &Who) -> (RecordAnswer, RecordAnswer) {
    let byte = |name: &str| u8::try_from(case.number(name)).expect("a byte");
    let due = match (case.number("refusal"), case.number("end")) {
        (0, 0) => {
            let two = if byte("blocks") == 2 { 4 } else { 0 };
            let results = byte("first") + 2 * byte("second") + two;
            let [kind, cce, dai] = ["kind", "CCE", "DAI"].map(byte);
            RecordAnswer::read(Slot { kind, cce, dai, results })
        }
        (0, _) => RecordAnswer::END,
        (refusal, _) => RecordAnswer::refused(refusal),
    };
    (who.record(&case.bytes("trace"), case.number("next").into()), due)
}

/// A trace written in its one spelling into a lent output. A refusal with a record's
/// number is that of the record, one without is that of the whole trace or of the output.
fn writing_line(case: &Case, who: &Who) -> ((WriteAnswer, Vec<u8>), (WriteAnswer, Vec<u8>)) {
    let (refusal, bytes) = (case.number("refusal"), case.number("bytes"));
    let answer = match (refusal, case.number("record")) {
        (0, NO_RECORD) => WriteAnswer::done(bytes.into()),
        (_, NO_RECORD) => WriteAnswer { bytes, ..WriteAnswer::refused(refusal) },
        (_, record) => WriteAnswer { bytes, ..WriteAnswer::stopped(refusal, record.into()) },
    };
    let given = who.trace_write(&case.bytes("trace"), &case.bytes("lent"));
    (given, (answer, case.bytes("output")))
}

/// The answer about claims that a line has in the columns of these names: refusal, answer
/// (0 clean, 1 a clash), index.
fn claimed_of(case: &Case, names: [&str; 3]) -> ClaimsAnswer {
    let [refusal, answer, index] = names.map(|name| case.number(name));
    let index = usize::from(index);
    match (refusal, answer) {
        (0, 0) => ClaimsAnswer { index: index as u64, ..ClaimsAnswer::CLEAN },
        (0, _) => ClaimsAnswer::clash(index),
        (refusal, _) => ClaimsAnswer::refused(refusal, index),
    }
}

/// The columns of the one answer of a line.
const ANSWER: [&str; 3] = ["refusal", "answer", "index"];

/// Claims checked by bits, in lent scratch.
fn bits_line(case: &Case, who: &Who) -> ((ClaimsAnswer, Vec<u8>), (ClaimsAnswer, Vec<u8>)) {
    let (settings, n, list) = (case.settings(), case.number("n"), case.numbers("claims"));
    let given = who.claims(Form::Bits, settings, n, &list, &case.bytes("lent"));
    (given, (claimed_of(case, ANSWER), case.bytes("scratch")))
}

/// The same checked by bytes answer the same. Eight for each byte of the line are enough
/// exactly if its bits are.
fn bits_line_by_bytes(case: &Case, who: &Who) -> (ClaimsAnswer, ClaimsAnswer) {
    let (settings, n, list) = (case.settings(), case.number("n"), case.numbers("claims"));
    let lent = vec![7; 8 * case.bytes("lent").len()];
    (who.claims(Form::Bytes, settings, n, &list, &lent).0, claimed_of(case, ANSWER))
}

/// By form the columns of the answer, of the scratch lent, and of the scratch afterwards.
const BOTH_ANSWERS: [(Form, [&str; 3], &str, &str); 2] = [
    (Form::Bytes, ["byte_refusal", "byte_answer", "byte_index"], "bytes_lent", "bytes"),
    (Form::Bits, ["bit_refusal", "bit_answer", "bit_index"], "bits_lent", "bits"),
];

/// The answer about claims in each form, and the scratch afterwards.
type InBothForms = [(ClaimsAnswer, Vec<u8>); 2];

/// Claims checked in both forms, in lent scratch.
fn both_forms_line(case: &Case, who: &Who) -> (InBothForms, InBothForms) {
    let (settings, n, list) = (case.settings(), case.number("n"), case.numbers("claims"));
    let given = BOTH_ANSWERS
        .map(|(form, _, lent, _)| who.claims(form, settings, n, &list, &case.bytes(lent)));
    let due = BOTH_ANSWERS.map(|(_, names, _, left)| (claimed_of(case, names), case.bytes(left)));
    (given, due)
}

/// The resource call with both resources, and the inverse.
fn resource_line(
    case: &Case,
    who: &Who,
) -> ((ResourceAnswer, InverseAnswer), (ResourceAnswer, InverseAnswer)) {
    let (settings, n) = (case.settings(), case.number("n"));
    let due = ResourceAnswer {
        refusal: case.number("refusal"),
        resource: case.number("first"),
        second: case.number("second"),
    };
    let inverse_due = InverseAnswer {
        refusal: case.number("inverse_refusal"),
        position: case.number("position"),
        cce: case.number("inverse_CCE"),
    };
    let given = who.resource(settings, n, case.number("m"), case.number("CCE"));
    ((given, who.inverse(settings, n, case.number("resource"))), (due, inverse_due))
}

/// Two accepted traces, and whether they are written as the same bytes.
fn pair_line(case: &Case, who: &Who) -> (u16, u16) {
    let [one, other] = ["first", "second"].map(|name| {
        let trace = case.bytes(name);
        let (answer, mut output) = who.trace_write(&trace, &vec![7; trace.len()]);
        assert_eq!(answer.kind, WriteAnswer::DONE, "{case}: {} on the {name}", who.name());
        output.truncate(answer.bytes.into());
        output
    });
    (u16::from(one == other), case.number("equal"))
}

/// The cells and uplink subframes with a multiplexed window of this size, each with K. Of the
/// configurations 5 alone has no multiplexing.
fn multiplexed_windows(size: u16) -> Vec<(Settings, u16, Vec<u16>)> {
    let mut windows = Vec::new();
    for config in [0, 1, 2, 3, 4, 6] {
        let settings = Settings::plain(config, 50, 10, 1, 1);
        for n in 0..10 {
            let answer = window(settings, n);
            if answer.size == size {
                windows.push((settings, n, answer.k[..size.into()].to_vec()));
            }
        }
    }
    windows
}

/// A symbol and the states that send it, by letters, in every window of their size: each state
/// is remembered by a lent handset, its reply is asked for and read. Shown are kind of the
/// reply, position read, bits and delivered positions.
fn rule_line(case: &Case, who: &Who) -> (Vec<[u16; 5]>, Vec<[u16; 5]>) {
    let [index, b0, b1] = ["index", "b0", "b1"].map(|name| case.number(name));
    let delivered = case.numbers("delivered").iter().map(|position| 1 << position).sum();
    let mut given = Vec::new();
    for (settings, n, ks) in multiplexed_windows(case.number("M")) {
        for state in case.text("states").split(' ') {
            let mut handset = Handset { next: n, ..Handset::fresh(settings) };
            for (k, letter) in ks.iter().zip(state.chars()).filter(|(_, letter)| *letter != 'D') {
                let results = u8::from(letter == 'A');
                let grant = Slot { kind: Slot::GRANT, cce: 10 + *k as u8, dai: 1, results };
                handset.past[usize::from(*k) - 1] = grant;
            }
            let fed = who.feed(handset, Heard::Nothing);
            let read = who.reading(settings, n, NOT_TOLD, [fed.resource, fed.b0, fed.b1]);
            given.push([fed.kind, read.position, fed.b0, fed.b1, read.delivered]);
        }
    }
    let due = vec![[Fed::MULTIPLEXED, index, b0, b1, delivered]; given.len()];
    (given, due)
}

/// What was sent in a window of a line, and the reply.
fn exchange_of(case: &Case) -> Exchange {
    let [resource, b0, b1] = ["resource", "b0", "b1"].map(|name| case.number(name));
    Exchange { settings: case.settings(), n: case.number("n"), sent: case.sent(), resource, b0, b1 }
}

/// The account before, and the account after.
const BEFORE: [&str; 3] = ["octets", "charged", "carry"];
const AFTER: [&str; 3] = ["octets_after", "charged_after", "carry_after"];

/// The answer of the credit that a line has.
fn credit_due(case: &Case) -> CreditAnswer {
    let (refusal, octets) = (case.number("refusal"), case.wide("credited"));
    CreditAnswer { refusal, octets, account: case.account(AFTER) }
}

/// One credit, unless its told position is another than that of the block that was sent: a
/// call takes it from what was sent. What is confirmed is refused alike, but for 25 and 26,
/// which speak of sizes and accounts; and beside a refusal no block is confirmed.
fn credit_line(case: &Case, who: &Who) -> Option<(CreditAnswer, CreditAnswer)> {
    if case.number("agrees") == 0 {
        return None;
    }
    let (exchange, due) = (exchange_of(case), credit_due(case));
    let confirmed = who.confirmed(exchange);
    let refusal_alike = match due.refusal {
        25 => [0, 13, 14].contains(&confirmed.refusal),
        26 => confirmed.refusal == 0,
        refusal => confirmed.refusal == refusal,
    };
    assert!(refusal_alike, "{case}: {} confirms {confirmed:?}", who.name());
    let is_right =
        confirmed.refusal == 0 || confirmed == ConfirmedAnswer::refused(confirmed.refusal);
    assert!(is_right, "{case}: {} confirms {confirmed:?}", who.name());
    Some((who.credit(exchange, case.account(BEFORE)), due))
}

/// A size, by the credit of one block: in configuration 1 the window of 2 has 5 and 6, which
/// is a special subframe.
fn size_line(case: &Case, who: &Who) -> (CreditAnswer, CreditAnswer) {
    let special = case.number("special") == 1;
    let size = (case.number("I_TBS"), case.number("N_PRB"));
    let grant = Sent::grant(1, 0, 1, [size, (0, 0)]);
    let (at, resource) = if special { (1, 21) } else { (0, 10) };
    let mut sent = SentWindow::NOTHING;
    sent.at[at] = grant;
    let settings = Settings::plain(1, 50, 10, 0, 1);
    let exchange = Exchange { settings, n: 2, sent, resource, b0: 1, b1: 0 };
    let account = Account::new(1_000_000);
    let octets: u32 = case.wide("octets");
    let (refusal, bits): (u16, u32) = (case.number("refusal"), case.wide("size"));
    assert_eq!(bits, 8 * octets, "{case}: octets are size / 8");
    let account_due = Account { octets: octets.into(), charged: octets.into(), ..account };
    let due = match refusal {
        0 => CreditAnswer::of(octets, account_due),
        refusal => CreditAnswer::refused(refusal, account),
    };
    (who.credit(exchange, account), due)
}

/// The answers of the credits of a line, each with its number from 0.
type Credits = Vec<(usize, CreditAnswer)>;

/// An account alone, and the same through windows that credit so many octets; where there is
/// no such window, the account goes on as the line says. An account without octets is also
/// opened.
fn account_line(case: &Case, who: &Who, windows: &Windows) -> (Credits, Credits) {
    let before = case.account(BEFORE);
    let credits: Vec<u32> = case.wide_numbers("credits");
    let results: Vec<u64> = case.wide_numbers("results");
    assert_eq!(results.len(), 4 * credits.len(), "{case}: a result for each credit");
    if before == Account::new(before.price) {
        let refusal = if before.price > 1_000_000 { 25 } else { 0 };
        let opened = who.open_account(before.price);
        assert_eq!(opened, Opened { refusal, account: before }, "{case}: {} opens", who.name());
    }
    let (mut given, mut due) = (Vec::new(), Vec::new());
    let mut account = before;
    for (at, (octets, result)) in credits.into_iter().zip(results.chunks(4)).enumerate() {
        let [refusal, total, charged, carry] = *result else { panic!("{case}: four numbers") };
        let after = Account { octets: total, charged, price: before.price, carry: carry as u32 };
        let octets_due = if refusal == 0 { octets } else { 0 };
        let answer = CreditAnswer { refusal: refusal as u16, octets: octets_due, account: after };
        let in_window = windows.crediting(octets).map(|exchange| who.credit(exchange, account));
        for credited in [who.add(account, octets), in_window].into_iter().flatten() {
            given.push((at, credited));
            due.push((at, answer));
        }
        account = after;
    }
    (given, due)
}

/// One game.
fn game_line(case: &Case, who: &Who) -> (GameAnswer, GameAnswer) {
    let [size, grants, losses] = game_of(case);
    let due = GameAnswer { refusal: case.number("refusal"), radio: case.number("radio") };
    (who.game(size, grants, losses), due)
}

/// The size of the window, the grants and the losses of a line.
fn game_of(case: &Case) -> [u16; 3] {
    ["size", "G", "L"].map(|name| case.number(name))
}

/// A command: its number from 0, and the block, the line and the refusal after it.
type CommandStep = (usize, Vec<u8>, u16, u16);

/// A list of commands for a handset and a block of zeros: six bytes are written before each. It
/// gets the block and the handset that the one before left. The first command after which something
/// is otherwise than it should be is shown, or else the last.
fn commands_line(
    case: &Case,
    made: Handset,
    command: impl Fn(Handset, &mut [u8]) -> CommandAnswer,
) -> (Option<CommandStep>, Option<CommandStep>) {
    let (commands, blocks) = (case.bytes("commands"), case.bytes("blocks"));
    let (lines, refusals) = (case.numbers("lines"), case.numbers("refusals"));
    let number = refusals.len();
    let whole = (commands.len(), blocks.len(), lines.len()) == (6 * number, 16 * number, number);
    assert!(whole, "{case}: block, line and refusal of each command");
    let (mut handset, mut block) = (made, ZEROS);
    let mut last = (None, None);
    for (at, (written, due)) in commands.chunks(6).zip(blocks.chunks(16)).enumerate() {
        Written::of(written.try_into().expect("six bytes")).write(&mut block);
        let given = command(handset, &mut block);
        last = (
            Some((at, block.to_vec(), given.line, given.refusal)),
            Some((at, due.to_vec(), lines[at], refusals[at])),
        );
        if last.0 != last.1 {
            break;
        }
        handset = given.handset;
    }
    last
}

/// The handset that a list of commands starts from.
fn made_for(case: &Case, who: &Who) -> Handset {
    let (refusal, handset) = who.make(case.settings());
    assert_eq!(refusal, 0, "{case}: {} makes no handset", who.name());
    handset
}

/// After a command: the block, the line, the refusal, the subframe that the handset expects, and
/// whether all of the handset is as it was.
type Commanded = (Vec<u8>, u16, u16, u16, bool);

/// One command on a lent block and handset. A refusal leaves the handset, and so do all commands
/// but a feed. Of the line beside 29 the files say nothing; the call says 0.
fn command_line(
    case: &Case,
    command: impl Fn(Handset, &mut [u8]) -> CommandAnswer,
) -> Option<(Commanded, Commanded)> {
    let handset = case.handset()?;
    let lent = case.bytes("lent");
    let mut block = lent.clone();
    let CommandAnswer { refusal, line, handset: after } = command(handset, &mut block);
    let given = (block, line, refusal, after.next, after.bytes() == handset.bytes());
    let refusal = case.number("refusal");
    let line = match case.text("line") {
        "?" if refusal == 29 => 0,
        _ => case.number("line"),
    };
    let is_left = refusal != 0 || lent[4] != FEED;
    Some((given, (case.bytes("block"), line, refusal, case.number("expects_after"), is_left)))
}

/// The sizing that a line has.
fn size_due(case: &Case) -> ReplaySizeAnswer {
    let [refusal, windows] = ["refusal", "windows"].map(|name| case.number(name));
    ReplaySizeAnswer { refusal, windows, bytes: case.wide("bytes") }
}

/// A replay sized. The room that it is given is enough where nothing is refused, and a replay that
/// is refused before its records is refused alike, but for kinds over 3.
fn sizing_line(case: &Case, who: &Who) -> (ReplaySizeAnswer, ReplaySizeAnswer) {
    let (trace, due) = (case.bytes("trace"), size_due(case));
    let (replayed, _) = who.replay(&trace, &vec![7; due.bytes as usize]);
    let is_alike = match (due.refusal, replayed.kind) {
        (0, ReplayAnswer::DONE) => replayed.windows == due.windows,
        (0, ReplayAnswer::STOPPED) => replayed.windows <= due.windows,
        (refusal, ReplayAnswer::REFUSED) => {
            replayed.refusal == refusal || replayed.refusal == 22 && has_kind_over_3(&trace)
        }
        _ => false,
    };
    assert!(is_alike, "{case}: {} replays {replayed:?}", who.name());
    (who.replay_size(&trace), due)
}

/// The file that a line of long traces tells shortly: settings at 8, then the record so many
/// times. The header has the length of the file modulo 65,536.
fn long_trace(case: &Case) -> Vec<u8> {
    let count = usize::from(case.number("count"));
    let mut file = vec![0; HEADER];
    file.extend(case.bytes("settings"));
    assert_eq!(file.len(), SPELLED_FIRST, "{case}: ten bytes of settings");
    file.extend(case.bytes("record").repeat(count));
    assert_eq!(file.len(), SPELLED_FIRST + RECORD * count, "{case}: records of four bytes");
    assert_eq!(file.len(), case.wide::<usize>("length"), "{case}");
    put_number(&mut file, RECORDS_AT, count);
    put_number(&mut file, FIRST_AT, SPELLED_FIRST);
    put_number(&mut file, SETTINGS_AT, HEADER);
    let length = file.len() % 65_536;
    put_number(&mut file, LENGTH_AT, length);
    file
}

/// A size, and beside it the answer of a replay into as much room and the output afterwards.
type SizedReplay = (ReplaySizeAnswer, ReplayAnswer, Vec<u8>);

/// A long trace sized and replayed: accepted, with every window silent, or refused alike.
fn long_line(case: &Case, who: &Who) -> (SizedReplay, SizedReplay) {
    let (trace, due) = (long_trace(case), size_due(case));
    let (replayed, output) = who.replay(&trace, &vec![7; due.bytes as usize]);
    let config = case.bytes("settings")[0].into();
    let replay_due = match due.refusal {
        0 => ReplayAnswer::done(due.windows.into()),
        refusal => ReplayAnswer::refused(refusal),
    };
    let n = (0..10).filter(|n| window(Settings::plain(config, 50, 10, 0, 1), *n).refusal == 0);
    let silent = n.cycle().take(due.windows.into()).flat_map(|n| [n as u8, 0, 0, 0, 0, 0, 0, 0]);
    ((who.replay_size(&trace), replayed, output), (due, replay_due, silent.collect()))
}

#[test]
fn u01_settings() {
    let text = include_str!("../data/u01-settings.csv");
    let tally = Tally::of("u01-settings.csv", text, |case, who| Some(settings_line(case, who)));
    tally.finish(1856, 0);
}

#[test]
fn u01_reading() {
    let text = include_str!("../data/u01-reading.csv");
    let tally = Tally::of("u01-reading.csv", text, |case, who| Some(reading_line(case, who)));
    tally.finish(3676, 0);
}

/// A slot holds one block or two, so the lines that remember a grant or a block
/// with none or three are left out.
#[test]
fn u01_states() {
    let text = include_str!("../data/u01-states.csv");
    Tally::of("u01-states.csv", text, state_line).finish(5353 - 183, 183);
}

#[test]
fn u01_runs() {
    let text = include_str!("../data/u01-runs.csv");
    let tally = Tally::of("u01-runs.csv", text, |case, who| Some(run_line(case, who)));
    tally.finish(158, 0);
}

#[test]
fn u02_settings() {
    let text = include_str!("../data/u02-settings.csv");
    let tally = Tally::of("u02-settings.csv", text, |case, who| Some(settings_line(case, who)));
    tally.finish(1628, 0);
}

#[test]
fn u02_reading() {
    let text = include_str!("../data/u02-reading.csv");
    let tally = Tally::of("u02-reading.csv", text, |case, who| Some(reading_line(case, who)));
    tally.finish(1224, 0);
}

/// Likewise the lines that remember a grant or a block with none are left out.
#[test]
fn u02_states() {
    let text = include_str!("../data/u02-states.csv");
    Tally::of("u02-states.csv", text, state_line).finish(5165 - 432, 432);
}

#[test]
fn u02_runs() {
    let text = include_str!("../data/u02-runs.csv");
    let tally = Tally::of("u02-runs.csv", text, |case, who| Some(run_line(case, who)));
    tally.finish(84, 0);
}

#[test]
fn u03_replay() {
    let text = include_str!("../data/u03-replay.csv");
    let tally = Tally::of("u03-replay.csv", text, |case, who| Some(replay_line(case, who)));
    tally.finish(1214, 0);
}

#[test]
fn u03_reader() {
    let text = include_str!("../data/u03-reader.csv");
    let tally = Tally::of("u03-reader.csv", text, |case, who| Some(reader_line(case, who)));
    tally.finish(371, 0);
}

#[test]
fn u04_writing() {
    let text = include_str!("../data/u04-writing.csv");
    let tally = Tally::of("u04-writing.csv", text, |case, who| Some(writing_line(case, who)));
    tally.finish(1160, 0);
}

#[test]
fn u04_pairs() {
    let text = include_str!("../data/u04-pairs.csv");
    let tally = Tally::of("u04-pairs.csv", text, |case, who| Some(pair_line(case, who)));
    tally.finish(367, 0);
}

#[test]
fn u06_claims() {
    let text = include_str!("../data/u06-claims.csv");
    let tally = Tally::of("u06-claims.csv", text, |case, who| Some(bits_line(case, who)));
    tally.finish(906, 0);
    let tally = Tally::of("u06-claims.csv", text, |case, who| Some(bits_line_by_bytes(case, who)));
    tally.finish(906, 0);
}

/// The positions of `most` are those of `delivered`; tests/limit.rs holds the other columns to
/// the model.
#[test]
fn u07_rules() {
    let text = include_str!("../data/u07-rules.csv");
    let tally = Tally::of("u07-rules.csv", text, |case, who| Some(rule_line(case, who)));
    tally.finish(129, 0);
    let same = |case: &Case| case.text("most") == case.text("delivered");
    assert!(cases("u07-rules.csv", text).iter().all(same));
    assert_eq!([2, 3, 4].map(|size| multiplexed_windows(size).len()), [4, 1, 4]);
}

/// Left out are the lines that remember a mode over 1, which has no bit, and those that
/// remember a grant of no blocks, which a slot cannot hold.
#[test]
fn u08_states() {
    let text = include_str!("../data/u08-states.csv");
    Tally::of("u08-states.csv", text, mode_state_line).finish(846 - 96 - 64, 96 + 64);
}

#[test]
fn u08_runs() {
    let text = include_str!("../data/u08-runs.csv");
    let tally = Tally::of("u08-runs.csv", text, |case, who| Some(mode_run_line(case, who, 6)));
    tally.finish(176, 0);
}

#[test]
fn u09_settings() {
    let text = include_str!("../data/u09-settings.csv");
    let tally = Tally::of("u09-settings.csv", text, |case, who| Some(settings_line(case, who)));
    tally.finish(1421, 0);
}

#[test]
fn u09_resource() {
    let text = include_str!("../data/u09-resource.csv");
    let tally = Tally::of("u09-resource.csv", text, |case, who| Some(resource_line(case, who)));
    tally.finish(700, 0);
}

#[test]
fn u09_claims() {
    let text = include_str!("../data/u09-claims.csv");
    let tally = Tally::of("u09-claims.csv", text, |case, who| Some(both_forms_line(case, who)));
    tally.finish(1397, 0);
}

#[test]
fn u09_reading() {
    let text = include_str!("../data/u09-reading.csv");
    let tally = Tally::of("u09-reading.csv", text, |case, who| Some(reading_line(case, who)));
    tally.finish(972, 0);
}

/// Left out are the lines that remember a mode over 1, and those that remember a grant of no
/// blocks.
#[test]
fn u09_states() {
    let text = include_str!("../data/u09-states.csv");
    Tally::of("u09-states.csv", text, mode_state_line).finish(995 - 120 - 72, 120 + 72);
}

#[test]
fn u09_runs() {
    let text = include_str!("../data/u09-runs.csv");
    let tally = Tally::of("u09-runs.csv", text, |case, who| Some(mode_run_line(case, who, 7)));
    tally.finish(63, 0);
}

#[test]
fn u10_sizes() {
    let text = include_str!("../data/u10-sizes.csv");
    let tally = Tally::of("u10-sizes.csv", text, |case, who| Some(size_line(case, who)));
    tally.finish(1694, 0);
}

/// Left out are the lines whose told position is not that of the block that was sent.
#[test]
fn u10_credits() {
    let text = include_str!("../data/u10-credits.csv");
    Tally::of("u10-credits.csv", text, credit_line).finish(1630 - 649, 649);
}

/// Each line by itself, and each list with the account that the answers before left.
#[test]
fn u10_sequences() {
    let text = include_str!("../data/u10-sequences.csv");
    Tally::of("u10-sequences.csv", text, credit_line).finish(224, 0);
    let model = Model::new();
    let mut lists = 0;
    for who in [Who::Engine, Who::Model(&model), Who::Plain] {
        let mut account = Account::new(0);
        for case in cases("u10-sequences.csv", text) {
            if case.number("step") == 0 {
                account = case.account(BEFORE);
                lists += 1;
            }
            assert_eq!(account, case.account(BEFORE), "{case}: what the line before left");
            let given = who.credit(exchange_of(&case), account);
            assert_eq!(given, credit_due(&case), "{case}: {} gives the first", who.name());
            account = given.account;
        }
    }
    assert_eq!(lists, 3 * 14);
}

/// Credits are given as octets alone, for which there is no call. All are run by the model and
/// the plain implementation; through the call all but those of one octet, which no block has,
/// and seven of so many octets that no eight blocks have them together.
#[test]
fn u10_accounts() {
    let text = include_str!("../data/u10-accounts.csv");
    let model = Model::new();
    let windows = Windows::new(&model);
    let line = |case: &Case, who: &Who| Some(account_line(case, who, &windows));
    Tally::of("u10-accounts.csv", text, line).finish(94, 0);
    let cases = cases("u10-accounts.csv", text);
    let credits = cases.iter().flat_map(|case| case.wide_numbers::<u32>("credits"));
    let (with, without): (Vec<u32>, Vec<u32>) =
        credits.partition(|octets| windows.crediting(*octets).is_some());
    println!("{} credits have a window, {} have none", with.len(), without.len());
    let of_one = without.iter().filter(|octets| **octets == 1).count();
    assert_eq!((with.len(), of_one, without.len() - of_one), (667 - 110, 103, 7), "{without:?}");
}

/// Left out are a line that remembers a mode over 1, which has no bit, and those that remember
/// a grant or a block of none or three, which a slot cannot hold. Every line that is fed nothing
/// asks for the cause.
#[test]
fn u11_silence() {
    let text = include_str!("../data/u11-silence.csv");
    Tally::of("u11-silence.csv", text, silence_line).finish(1331 - 1 - 36, 1 + 36);
    let cases = cases("u11-silence.csv", text);
    let held = cases.iter().filter(|case| case.handset().is_some());
    let (nothing, others): (Vec<&Case>, Vec<&Case>) =
        held.partition(|case| heard(&case.numbers("fed")) == Heard::Nothing);
    let of_cause = |cause| nothing.iter().filter(|case| case.number("cause") == cause).count();
    println!("{} lines are fed nothing, {} something", nothing.len(), others.len());
    println!("by cause {:?}", [0, 1, 2].map(of_cause));
    assert!(others.iter().all(|case| case.number("cause") == 0));
    assert_eq!((nothing.len(), others.len()), (1107, 187));
    assert_eq!([0, 1, 2].map(of_cause), [626, 68, 413]);
}

#[test]
fn u11_runs() {
    let text = include_str!("../data/u11-runs.csv");
    let tally = Tally::of("u11-runs.csv", text, |case, who| Some(silence_run_line(case, who)));
    tally.finish(42, 0);
    let mut of_cause = [0; 3];
    for case in cases("u11-runs.csv", text) {
        let answers = case.numbers("answers");
        answers.chunks(8).for_each(|answer| of_cause[usize::from(answer[5])] += 1);
    }
    println!("steps by cause {of_cause:?}");
    assert_eq!(of_cause, [1136, 194, 30]);
}

/// Every game stands in the file once, 90 of them with the radio as the winner; all else that
/// stands there is refused 27.
#[test]
fn u12_game() {
    let text = include_str!("../data/u12-game.csv");
    let tally = Tally::of("u12-game.csv", text, |case, who| Some(game_line(case, who)));
    tally.finish(1141, 0);
    let cases = cases("u12-game.csv", text);
    let (refused, games): (Vec<&Case>, Vec<&Case>) =
        cases.iter().partition(|case| case.number("refusal") != 0);
    let of_the_radio = games.iter().filter(|case| case.number("radio") == 1).count();
    assert_eq!((refused.len(), games.len(), of_the_radio), (601, 540, 90));
    let is_27 = |case: &&Case| case.number("refusal") == 27 && case.number("radio") == 0;
    assert!(refused.iter().all(is_27));
    let mut numbers: Vec<[u16; 3]> = games.into_iter().map(game_of).collect();
    numbers.sort();
    let all = Game::all().map(|game| [game.size, game.grants, game.losses]);
    assert_eq!(numbers, all.collect::<Vec<_>>());
}

#[test]
fn u13_lists() {
    let text = include_str!("../data/u13-lists.csv");
    let line = |case: &Case, who: &Who| {
        Some(commands_line(case, made_for(case, who), |handset, block| who.command(handset, block)))
    };
    Tally::of("u13-lists.csv", text, line).finish(49, 0);
    let (mut by_command, mut by_line) = ([0; 4], [0; 2]);
    for case in cases("u13-lists.csv", text) {
        let (commands, lines) = (case.bytes("commands"), case.numbers("lines"));
        commands.chunks(6).for_each(|written| by_command[usize::from(written[4].min(3))] += 1);
        lines.iter().for_each(|line| by_line[usize::from(*line)] += 1);
        let blocks = case.bytes("blocks");
        let same = blocks.chunks(16).zip(lines).all(|(block, line)| is_high(block) == (line == 1));
        assert!(same, "{case}: the line is that of the block");
    }
    println!("none, feed, clear, another: {by_command:?}; line low and high: {by_line:?}");
    assert_eq!((by_command, by_line), ([47, 1295, 136, 57], [571, 964]));
}

/// Left out are the lines that remember a mode over 1, which has no bit.
#[test]
fn u13_steps() {
    let text = include_str!("../data/u13-steps.csv");
    let line =
        |case: &Case, who: &Who| command_line(case, |handset, block| who.command(handset, block));
    Tally::of("u13-steps.csv", text, line).finish(691 - 34, 34);
    let cases = cases("u13-steps.csv", text);
    let held = cases.iter().filter(|case| case.handset().is_some());
    let mut by_refusal = [0; 30];
    held.for_each(|case| by_refusal[usize::from(case.number("refusal"))] += 1);
    println!("lines by refusal {by_refusal:?}");
    let of_each = [0, 8, 9, 10, 11, 12, 18, 20, 22, 28, 29].map(|number| by_refusal[number]);
    assert_eq!(of_each.iter().sum::<u64>(), 691 - 34);
    assert_eq!(of_each, [263, 38, 55, 19, 16, 22, 5, 23, 34, 116, 66]);
}

/// The wrong rules that none of the lists gives away: of a handset they show nothing but its
/// replies, no state there is bad, and the other bits of byte 5 stay 0. And those that no single
/// command gives away.
const RIGHT_IN_LISTS: [&str; 8] = [
    "bit 1 without bit 2 kept",
    "the record remembered as it stands",
    "clear drops bits 3 to 7",
    "none answers 8 on a bad state",
    "clear answers 8 on a bad state",
    "the line over all eight bits",
    "28 before 29",
    "8 before 22",
];
const RIGHT_IN_STEPS: [&str; 2] =
    ["bit 1 without bit 2 kept", "the record remembered as it stands"];

/// Each rule that differs from the papers' in one point is given away by lines of the files, but
/// for two that differ in the handset alone.
#[test]
fn u13_gives_wrong_rules_away() {
    let model = Model::new();
    let lists = cases("u13-lists.csv", include_str!("../data/u13-lists.csv"));
    let steps = cases("u13-steps.csv", include_str!("../data/u13-steps.csv"));
    for (name, wrong) in WRONG {
        let command = |handset, block: &mut [u8]| wrong(&model, handset, block);
        let by_list = |case: &&Case| {
            let (given, due) = commands_line(case, Handset::fresh(case.settings()), command);
            given != due
        };
        let by_step =
            |case: &&Case| command_line(case, command).is_some_and(|(given, due)| given != due);
        let in_lists = lists.iter().filter(by_list).count();
        let in_steps = steps.iter().filter(by_step).count();
        println!("{name}: {in_lists} lists, {in_steps} single commands");
        assert_eq!(in_lists == 0, RIGHT_IN_LISTS.contains(&name), "{name}");
        assert_eq!(in_steps == 0, RIGHT_IN_STEPS.contains(&name), "{name}");
    }
}

/// How many lines are refused for each of these numbers.
fn refused_by(cases: &[Case], numbers: &[u16]) -> Vec<usize> {
    let of = |number: &u16| cases.iter().filter(|case| case.number("refusal") == *number).count();
    numbers.iter().map(of).collect()
}

#[test]
fn u14_sizing() {
    let text = include_str!("../data/u14-sizing.csv");
    let tally = Tally::of("u14-sizing.csv", text, |case, who| Some(sizing_line(case, who)));
    tally.finish(915, 0);
    let cases = cases("u14-sizing.csv", text);
    let by_number = refused_by(&cases, &[0, 1, 2, 3, 4, 5, 6, 17, 19, 21, 22]);
    assert_eq!(by_number, [272, 90, 55, 52, 46, 36, 39, 37, 33, 87, 168]);
    assert_eq!(by_number.iter().sum::<usize>(), cases.len());
}

#[test]
fn u14_long() {
    let text = include_str!("../data/u14-long.csv");
    let tally = Tally::of("u14-long.csv", text, |case, who| Some(long_line(case, who)));
    tally.finish(63, 0);
    assert_eq!(refused_by(&cases("u14-long.csv", text), &[0, 21]), [42, 21]);
}

/// Each rule that differs from the papers' in one point is given away by lines of the files. Of the
/// long traces those are tried that are refused, since some rules replay the others.
#[test]
fn u14_gives_wrong_rules_away() {
    let model = Model::new();
    let mut found = sizings::Found::default();
    for case in cases("u14-sizing.csv", include_str!("../data/u14-sizing.csv")) {
        found.hold(&model, &case.bytes("trace"), size_due(&case));
    }
    let long = cases("u14-long.csv", include_str!("../data/u14-long.csv"));
    for case in long.iter().filter(|case| case.number("refusal") != 0) {
        found.hold(&model, &long_trace(case), size_due(case));
    }
    found.assert_caught_all_but(&[]);
}
