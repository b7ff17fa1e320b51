//! Rules by which a replay is sized wrongly, each in one point.
//!
//! A sizing has a few steps, and most rules have another one in place of one of them. The others
//! look at the records, which no step does, or exchange refusals.

use crate::compare::Shown;
use crate::model::{is_uplink, Model, Window};
use crate::trace::{
    number_at, put_number, spelled_length, FIRST_AT, HEADER, LENGTH_AT, LONGEST, RECORD,
    RECORDS_AT, SETTINGS, SETTINGS_AT, WINDOW,
};
use crate::{ReplaySizeAnswer, NONE};
use std::ops::Range;

/// A rule by which a replay is sized: by steps, or as a whole.
pub enum Rule {
    Steps(Steps),
    Whole(fn(&Model, &[u8]) -> ReplaySizeAnswer),
}

impl Rule {
    pub fn size(&self, model: &Model, file: &[u8]) -> ReplaySizeAnswer {
        match self {
            Self::Steps(steps) => steps.size(model, file),
            Self::Whole(size) => size(model, file),
        }
    }
}

/// Rules that differ from the papers' in one point.
pub const WRONG: [(&str, Rule); 55] = [
    (
        "kinds tested",
        Rule::Whole(|model, file| match model.replay_size(file) {
            due if ![21, 22].contains(&due.refusal) && has_kind_over_3(file) => refused(22),
            due => due,
        }),
    ),
    (
        "kinds tested after the settings",
        Rule::Whole(|model, file| match model.replay_size(file) {
            due if due.refusal == 0 && has_kind_over_3(file) => refused(22),
            due => due,
        }),
    ),
    (
        "records from a kind over 3 on not counted",
        Rule::Whole(|model, file| {
            counted(model, file, |kinds| kinds.into_iter().take_while(|kind| *kind <= 3).count())
        }),
    ),
    (
        "records of nothing not counted",
        Rule::Whole(|model, file| {
            counted(model, file, |kinds| kinds.into_iter().filter(|kind| *kind != 0).count())
        }),
    ),
    (
        "records by the length of the file",
        Rule::Whole(|model, file| {
            counted(model, file, |_| (file.len() - HEADER - SETTINGS) / RECORD)
        }),
    ),
    (
        "a refused record and those behind it not counted",
        Rule::Whole(|model, file| match model.play(file, LONGEST) {
            Ok(played) => of(played.windows.len()),
            Err(_) => model.replay_size(file),
        }),
    ),
    (
        "silent windows not counted",
        Rule::Whole(|model, file| match (model.replay_size(file), model.play(file, LONGEST)) {
            (due, Ok(played)) => {
                let silent = played.windows.iter().filter(|(_, window)| window[1] == 0).count();
                of(usize::from(due.windows) - silent)
            }
            (due, Err(_)) => due,
        }),
    ),
    (
        "23 for an output that is not lent",
        Rule::Whole(|model, file| match model.replay_size(file) {
            due if due.bytes > 0 => refused(23),
            due => due,
        }),
    ),
    (
        "an unfinished frame not counted",
        Rule::Steps(Steps {
            windows: |model, config, records| model.windows_among(config, records / 10 * 10),
            ..RIGHT
        }),
    ),
    (
        "an unfinished frame counted as a whole one",
        Rule::Steps(Steps {
            windows: |model, config, records| {
                model.windows_among(config, records.next_multiple_of(10))
            },
            ..RIGHT
        }),
    ),
    (
        "a window more in an unfinished frame",
        Rule::Steps(Steps {
            windows: |model, config, records| {
                model.windows_among(config, records) + usize::from(records % 10 != 0)
            },
            ..RIGHT
        }),
    ),
    (
        "a window less in an unfinished frame",
        Rule::Steps(Steps {
            windows: |model, config, records| {
                let less = usize::from(records % 10 != 0);
                model.windows_among(config, records).saturating_sub(less)
            },
            ..RIGHT
        }),
    ),
    ("records for windows", Rule::Steps(Steps { windows: |_, _, records| records, ..RIGHT })),
    (
        "the last record not counted",
        Rule::Steps(Steps {
            windows: |model, config, records| {
                model.windows_among(config, records.saturating_sub(1))
            },
            ..RIGHT
        }),
    ),
    (
        "the first record in subframe 1",
        Rule::Steps(Steps {
            windows: |model, config, records| {
                (1..=records).filter(|at| model.window(config, subframe(*at)).is_some()).count()
            },
            ..RIGHT
        }),
    ),
    (
        "every uplink subframe counted",
        Rule::Steps(Steps {
            windows: |_, config, records| {
                (0..records).filter(|at| is_uplink(config, subframe(*at))).count()
            },
            ..RIGHT
        }),
    ),
    (
        "downlink subframes counted",
        Rule::Steps(Steps {
            windows: |_, config, records| {
                (0..records).filter(|at| !is_uplink(config, subframe(*at))).count()
            },
            ..RIGHT
        }),
    ),
    (
        "a window counted in its last downlink subframe",
        Rule::Steps(Steps {
            windows: |model, config, records| {
                let of_config = model.windows().iter().filter(|window| window.config == config);
                let last =
                    |window: &Window| (window.n + 10 - window.k.iter().min().expect("a k")) % 10;
                let ends: Vec<u16> = of_config.map(last).collect();
                (0..records).filter(|at| ends.contains(&subframe(*at))).count()
            },
            ..RIGHT
        }),
    ),
    (
        "a window that begins before the start not counted",
        Rule::Steps(Steps {
            windows: |model, config, records| {
                let is_whole = |at: &usize| {
                    let window = model.window(config, subframe(*at));
                    window.is_some_and(|window| window.k.iter().all(|k| usize::from(*k) <= *at))
                };
                (0..records).filter(is_whole).count()
            },
            ..RIGHT
        }),
    ),
    ("four bytes a window", Rule::Steps(Steps { bytes: |windows, _| 4 * windows, ..RIGHT })),
    (
        "the bytes of a trace written",
        Rule::Steps(Steps { bytes: |_, records| spelled_length(records), ..RIGHT }),
    ),
    (
        "the bytes of a header beside those of the windows",
        Rule::Steps(Steps { bytes: |windows, _| HEADER + WINDOW * windows, ..RIGHT }),
    ),
    (
        "the file not held to the header's length",
        Rule::Steps(Steps { is_whole: |_, _| true, ..RIGHT }),
    ),
    (
        "bytes behind the header's length allowed",
        Rule::Steps(Steps { is_whole: |file, header| file >= header, ..RIGHT }),
    ),
    (
        "bytes missing to the header's length allowed",
        Rule::Steps(Steps { is_whole: |file, header| file <= header, ..RIGHT }),
    ),
    (
        "the length of the file in sixteen bits",
        Rule::Steps(Steps { is_whole: |file, header| file % 65_536 == header, ..RIGHT }),
    ),
    (
        "a header alone refused 21",
        Rule::Whole(|model, file| match file.len() {
            HEADER => refused(21),
            _ => model.replay_size(file),
        }),
    ),
    (
        "parts before the length",
        Rule::Whole(|model, file| match Header::of(file) {
            Some(header) if !header.are_apart(header.parts()) => refused(22),
            _ => model.replay_size(file),
        }),
    ),
    (
        "the header is no part",
        Rule::Steps(Steps { parts: |[_, settings, records]| [0..0, settings, records], ..RIGHT }),
    ),
    (
        "a header of seven bytes",
        Rule::Steps(Steps {
            parts: |[header, settings, records]| [shorter(header), settings, records],
            ..RIGHT
        }),
    ),
    (
        "a header of nine bytes",
        Rule::Steps(Steps {
            parts: |[header, settings, records]| [longer(header), settings, records],
            ..RIGHT
        }),
    ),
    (
        "settings of nine bytes",
        Rule::Steps(Steps {
            parts: |[header, settings, records]| [header, shorter(settings), records],
            ..RIGHT
        }),
    ),
    (
        "settings of eleven bytes",
        Rule::Steps(Steps {
            parts: |[header, settings, records]| [header, longer(settings), records],
            ..RIGHT
        }),
    ),
    (
        "the first byte of the settings in no part",
        Rule::Steps(Steps {
            parts: |[header, settings, records]| [header, later(settings), records],
            ..RIGHT
        }),
    ),
    (
        "records a byte shorter",
        Rule::Steps(Steps {
            parts: |[header, settings, records]| [header, settings, shorter(records)],
            ..RIGHT
        }),
    ),
    (
        "records a byte longer",
        Rule::Steps(Steps {
            parts: |[header, settings, records]| [header, settings, longer(records)],
            ..RIGHT
        }),
    ),
    (
        "the first byte of the records in no part",
        Rule::Steps(Steps {
            parts: |[header, settings, records]| [header, settings, later(records)],
            ..RIGHT
        }),
    ),
    (
        "the records in no part",
        Rule::Steps(Steps { parts: |[header, settings, _]| [header, settings, 0..0], ..RIGHT }),
    ),
    (
        "the offset of no records not ignored",
        Rule::Steps(Steps {
            parts: |[header, settings, records]| {
                let first = records.start..records.end.max(records.start + 1);
                [header, settings, first]
            },
            ..RIGHT
        }),
    ),
    (
        "the bytes of the records in sixteen bits",
        Rule::Steps(Steps {
            parts: |[header, settings, records]| {
                let end = records.start + records.len() % 65_536;
                [header, settings, records.start..end]
            },
            ..RIGHT
        }),
    ),
    (
        "the ends of the parts in sixteen bits",
        Rule::Steps(Steps {
            parts: |parts| parts.map(|part| part.start..part.end % 65_536),
            ..RIGHT
        }),
    ),
    (
        "no records refused",
        Rule::Whole(|model, file| match Header::of(file) {
            Some(Header { records: 0, length, .. }) if length == file.len() => refused(22),
            _ => model.replay_size(file),
        }),
    ),
    (
        "the offsets exchanged",
        Rule::Whole(|model, file| {
            let mut exchanged = file.to_vec();
            if file.len() >= HEADER {
                put_number(&mut exchanged, FIRST_AT, number_at(file, SETTINGS_AT));
                put_number(&mut exchanged, SETTINGS_AT, number_at(file, FIRST_AT));
            }
            model.replay_size(&exchanged)
        }),
    ),
    (
        "settings before parts",
        Rule::Whole(|model, file| {
            let settings = Header::of(file).and_then(|header| header.settings_in(file));
            match (
                model.replay_size(file),
                settings.and_then(|settings| first_met(&causes(settings))),
            ) {
                (ReplaySizeAnswer { refusal: 22, .. }, Some(refusal)) => refused(refusal),
                (due, _) => due,
            }
        }),
    ),
    (
        "settings not tested",
        Rule::Whole(|model, file| Steps { refusal: |_| None, ..RIGHT }.size(model, file)),
    ),
    (
        "settings in the order of their bytes",
        Rule::Steps(Steps {
            refusal: |settings| {
                let [config, nrb, n1, mode, multiplexing, blocks, scheduled, special] =
                    causes(settings);
                first_met(&[config, nrb, mode, multiplexing, blocks, special, n1, scheduled])
            },
            ..RIGHT
        }),
    ),
    (
        "19 before 17",
        Rule::Steps(Steps {
            refusal: |settings| {
                let [config, nrb, n1, mode, multiplexing, blocks, scheduled, special] =
                    causes(settings);
                first_met(&[config, nrb, n1, mode, multiplexing, blocks, special, scheduled])
            },
            ..RIGHT
        }),
    ),
    ("the configuration not tested", Rule::Steps(Steps { refusal: first_but::<1>, ..RIGHT })),
    (
        "N_RB not tested",
        Rule::Whole(|model, file| Steps { refusal: first_but::<2>, ..RIGHT }.size(model, file)),
    ),
    (
        "N1 not tested",
        Rule::Whole(|model, file| Steps { refusal: first_but::<3>, ..RIGHT }.size(model, file)),
    ),
    ("the mode not tested", Rule::Steps(Steps { refusal: first_but::<4>, ..RIGHT })),
    (
        "multiplexing in configuration 5 not tested",
        Rule::Steps(Steps { refusal: first_but::<5>, ..RIGHT }),
    ),
    ("the blocks not tested", Rule::Steps(Steps { refusal: first_but::<6>, ..RIGHT })),
    ("the scheduled resource not tested", Rule::Steps(Steps { refusal: first_but::<17>, ..RIGHT })),
    (
        "prefix and special configuration not tested",
        Rule::Steps(Steps { refusal: first_but::<19>, ..RIGHT }),
    ),
];

/// The parts of a trace: header, settings and records.
type Parts = [Range<usize>; 3];

/// The steps of a sizing.
pub struct Steps {
    /// Whether a file of so many bytes is one of the header's length.
    is_whole: fn(usize, usize) -> bool,
    /// The parts that are to lie in the file and share no byte.
    parts: fn(Parts) -> Parts,
    /// What ten bytes of settings are refused for.
    refusal: fn(&[u8]) -> Option<u16>,
    /// The windows that so many records complete in a configuration.
    windows: fn(&Model, u16, usize) -> usize,
    /// The bytes for so many windows, of so many records.
    bytes: fn(usize, usize) -> usize,
}

/// As the papers have them.
const RIGHT: Steps = Steps {
    is_whole: |file, header| file == header,
    parts: |parts| parts,
    refusal: |settings| first_met(&causes(settings)),
    windows: Model::windows_among,
    bytes: |windows, _| WINDOW * windows,
};

impl Steps {
    fn size(&self, model: &Model, file: &[u8]) -> ReplaySizeAnswer {
        let header = match Header::of(file) {
            Some(header) if (self.is_whole)(file.len(), header.length) => header,
            _ => return refused(21),
        };
        let settings = match header.settings_in(file) {
            Some(settings) if header.are_apart((self.parts)(header.parts())) => settings,
            _ => return refused(22),
        };
        match (self.refusal)(settings) {
            Some(refusal) => refused(refusal),
            None => {
                let windows = (self.windows)(model, settings[0].into(), header.records);
                ReplaySizeAnswer::of(windows, (self.bytes)(windows, header.records))
            }
        }
    }
}

/// The four numbers of a header.
struct Header {
    records: usize,
    first: usize,
    settings: usize,
    length: usize,
}

impl Header {
    fn of(file: &[u8]) -> Option<Self> {
        let number = |at: usize| number_at(file, at);
        (file.len() >= HEADER).then(|| Self {
            records: number(RECORDS_AT),
            first: number(FIRST_AT),
            settings: number(SETTINGS_AT),
            length: number(LENGTH_AT),
        })
    }

    fn parts(&self) -> Parts {
        let Self { records, first, settings, .. } = *self;
        [0..HEADER, settings..settings + SETTINGS, first..first + RECORD * records]
    }

    /// Whether parts lie in a file of the header's length and share no byte. One without a byte
    /// may lie anywhere.
    fn are_apart(&self, parts: Parts) -> bool {
        let [header, settings, records] = &parts;
        let is_in_file = |part: &Range<usize>| part.is_empty() || part.end <= self.length;
        parts.iter().all(is_in_file)
            && !share(header, settings)
            && !share(header, records)
            && !share(settings, records)
    }

    fn settings_in<'a>(&self, file: &'a [u8]) -> Option<&'a [u8]> {
        file.get(self.settings..self.settings + SETTINGS)
    }
}

/// Whether two parts have a byte in common.
fn share(one: &Range<usize>, other: &Range<usize>) -> bool {
    one.start.max(other.start) < one.end.min(other.end)
}

/// A part without its last byte, with one more, and without its first.
fn shorter(part: Range<usize>) -> Range<usize> {
    part.start..part.end.saturating_sub(1)
}

fn longer(part: Range<usize>) -> Range<usize> {
    part.start..part.end + 1
}

fn later(part: Range<usize>) -> Range<usize> {
    part.start + 1..part.end
}

/// The causes of a refusal of ten bytes of settings, in their order, and whether they are met.
fn causes(settings: &[u8]) -> [(u16, bool); 8] {
    let [config, nrb, mode, blocks, special, prefix] = [0, 1, 2, 3, 4, 5].map(|at| settings[at]);
    let [n1, scheduled] = [6, 8].map(|at| number_at(settings, at));
    let last_special = if prefix == 0 { 8 } else { 6 };
    [
        (1, config > 6),
        (2, !(6..=110).contains(&nrb)),
        (3, n1 > 2047),
        (4, mode > 1),
        (5, mode == 1 && config == 5),
        (6, blocks == 0 || blocks > 2),
        (17, scheduled != usize::from(NONE) && scheduled >= n1),
        (19, prefix > 1 || special > last_special),
    ]
}

fn first_met(causes: &[(u16, bool)]) -> Option<u16> {
    causes.iter().find(|(_, is_met)| *is_met).map(|(number, _)| *number)
}

/// The first one but for that of a number.
fn first_but<const NUMBER: u16>(settings: &[u8]) -> Option<u16> {
    first_met(&causes(settings).map(|(number, is_met)| (number, is_met && number != NUMBER)))
}

/// What is given where nothing is refused, by so many records as count by their kinds.
fn counted(model: &Model, file: &[u8], records: impl Fn(Vec<u8>) -> usize) -> ReplaySizeAnswer {
    match model.replay_size(file) {
        due if due.refusal != 0 => due,
        _ => {
            let config = file[number_at(file, SETTINGS_AT)];
            of(model.windows_among(config.into(), records(kinds(file))))
        }
    }
}

/// The kinds of the records of a trace whose parts lie in it.
fn kinds(file: &[u8]) -> Vec<u8> {
    let (records, first) = (number_at(file, RECORDS_AT), number_at(file, FIRST_AT));
    (0..records).map(|number| file[first + RECORD * number]).collect()
}

/// Whether a record has a kind over 3, in a trace whose parts lie in it.
pub fn has_kind_over_3(file: &[u8]) -> bool {
    kinds(file).into_iter().any(|kind| kind > 3)
}

fn subframe(record: usize) -> u16 {
    (record % 10) as u16
}

fn refused(refusal: u16) -> ReplaySizeAnswer {
    ReplaySizeAnswer::refused(refusal)
}

fn of(windows: usize) -> ReplaySizeAnswer {
    ReplaySizeAnswer::of(windows, WINDOW * windows)
}

/// How many answers were held to the papers' rule, and for each wrong one how many of them it
/// gives otherwise.
pub struct Found {
    answers: u64,
    otherwise: [u64; WRONG.len()],
}

impl Default for Found {
    fn default() -> Self {
        Self { answers: 0, otherwise: [0; WRONG.len()] }
    }
}

impl Found {
    /// Tries the wrong rules on a file, beside what is due. The steps that they change give it.
    pub fn hold(&mut self, model: &Model, file: &[u8], due: ReplaySizeAnswer) {
        assert_eq!(RIGHT.size(model, file), due, "{}", Shown(file));
        self.answers += 1;
        for ((_, wrong), otherwise) in WRONG.iter().zip(&mut self.otherwise) {
            *otherwise += u64::from(wrong.size(model, file) != due);
        }
    }

    /// Shows how many answers each rule gives otherwise, and holds the rules that give all right
    /// to be these.
    pub fn assert_caught_all_but(&self, right_here: &[&str]) {
        println!("{} answers", self.answers);
        for ((name, _), otherwise) in WRONG.iter().zip(self.otherwise) {
            println!("{name}: {otherwise} otherwise");
            assert_eq!(otherwise == 0, right_here.contains(name), "{name}");
        }
    }
}
