//! Recorded drives as bytes: a trace is built from settings and records, its parts in
//! either order and with any bytes in the gaps.
//!
//! What is built judges nothing: settings and records are written as they are given.
//! A good trace is made a bad one by changing its bytes, such as the header's numbers.

use crate::{Block, Grant, Heard, Release, Settings, Slot};

/// The bytes of the header, of the settings, of a record, and of a window in the output.
pub const HEADER: usize = 8;
pub const SETTINGS: usize = 10;
pub const RECORD: usize = 4;
pub const WINDOW: usize = 8;

/// The most bytes of a trace, whose length is one of its 16-bit numbers; the most
/// records in so many bytes; and the most windows that these complete, in
/// configuration 6.
pub const LONGEST: usize = 65535;
pub const MOST_RECORDS: usize = 16379;
pub const MOST_WINDOWS: usize = 8190;

/// Where the records of a trace in its one spelling begin, and the most bytes that it
/// has.
pub const SPELLED_FIRST: usize = 18;
pub const LONGEST_SPELLED: usize = 65534;

/// Where the numbers of the header stand.
pub const RECORDS_AT: usize = 0;
pub const FIRST_AT: usize = 2;
pub const SETTINGS_AT: usize = 4;
pub const LENGTH_AT: usize = 6;

/// A trace before it is bytes.
#[derive(Clone, Debug)]
pub struct Trace {
    settings: Settings,
    records: Vec<Slot>,
    records_first: bool,
    gaps: [Vec<u8>; 3],
}

impl Trace {
    /// The settings directly behind the header, the records directly behind them.
    pub fn new(settings: Settings, records: &[Slot]) -> Self {
        let gaps = [const { Vec::new() }; 3];
        Self { settings, records: records.to_vec(), records_first: false, gaps }
    }

    /// The same with the records before the settings.
    pub fn records_first(self) -> Self {
        Self { records_first: true, ..self }
    }

    /// The same with these bytes behind the header, behind the part that follows it,
    /// and at the end.
    pub fn with_gaps(self, gaps: [&[u8]; 3]) -> Self {
        Self { gaps: gaps.map(<[u8]>::to_vec), ..self }
    }

    pub fn bytes(&self) -> Vec<u8> {
        let settings = settings_bytes(self.settings).to_vec();
        let records: Vec<u8> = self.records.iter().copied().flat_map(record_bytes).collect();
        let (one, other) =
            if self.records_first { (records, settings) } else { (settings, records) };
        let [behind_header, between, end] = &self.gaps;
        let one_at = HEADER + behind_header.len();
        let other_at = one_at + one.len() + between.len();
        let (first, settings_at) =
            if self.records_first { (one_at, other_at) } else { (other_at, one_at) };
        let length = other_at + other.len() + end.len();
        let header = [self.records.len(), first, settings_at, length].map(number_bytes);
        [header.as_flattened(), behind_header, &one, between, &other, end].concat()
    }
}

/// What is due for a trace, as far as its output is not at fault: a refusal before any
/// record, a stop with its refusal at the record of this number, or nothing is wrong.
#[derive(Clone, Copy, Debug, PartialEq, Eq)]
pub enum Due {
    Refused(u16),
    Stopped(u16, usize),
    Done,
}

/// Traces of four records with all causes at once, and then with one after another put
/// right, in the order 22, 1 to 6, 17, 19, and by records 9, 20, 10, 11, 12, 18: each with
/// what is due. With the last one nothing is wrong. An output that is too short, 23, has
/// another place in each call. A trace has no ports, and so none of it is refused 24.
pub fn one_cause_less() -> [(Due, Trace); 22] {
    let [refused @ .., (_, short), (_, long)] = Settings::one_cause_less();
    let [(_, all), ..] = refused;
    let refused = refused.into_iter().filter(|(number, _)| *number != 24);
    // Of configuration 5 subframe 1 is special, 2 is uplink with the only window, and
    // the others are downlink. N_RB 6 has CCEs 0 to 6.
    let wrong = Slot::grant(7, 5, Slot::TWO);
    let carried = Slot { results: 0, ..wrong };
    let cce = Slot { cce: 6, ..carried };
    let kind = Slot { kind: 4, ..wrong };
    let (nothing, block, release) = (Slot::NOTHING, Slot::block(0), Slot::release(6, 4));
    let of_kind = [all, long].map(|cell| (Due::Refused(22), cell, [wrong, wrong, wrong, kind]));
    let of_settings = refused.map(|(number, cell)| (Due::Refused(number), cell, [wrong; 4]));
    let of_records = [
        (Due::Stopped(10, 0), short, [wrong; 4]),
        (Due::Stopped(11, 0), short, [carried, wrong, wrong, wrong]),
        (Due::Stopped(12, 0), short, [cce, wrong, wrong, wrong]),
        (Due::Stopped(18, 0), short, [block, wrong, wrong, wrong]),
        (Due::Stopped(20, 1), short, [nothing, wrong, wrong, wrong]),
        (Due::Stopped(10, 1), long, [nothing, wrong, wrong, wrong]),
        (Due::Stopped(9, 2), long, [nothing, release, wrong, wrong]),
        (Due::Stopped(9, 2), long, [nothing, nothing, block, wrong]),
        (Due::Stopped(10, 3), long, [nothing, nothing, nothing, wrong]),
        (Due::Done, long, [nothing, release, nothing, nothing]),
    ];
    let steps = of_kind.into_iter().chain(of_settings).chain(of_records);
    let traces = steps.map(|(due, cell, records)| (due, Trace::new(cell, &records)));
    traces.collect::<Vec<_>>().try_into().expect("as many as there are steps")
}

/// The ten bytes of the settings in a trace. The number of ports is not among them.
pub fn settings_bytes(settings: Settings) -> [u8; SETTINGS] {
    let Settings { config, nrb, n1, mode, blocks, scheduled, prefix, special, .. } = settings;
    let byte = |number: u16| u8::try_from(number).expect("a setting of one byte");
    let [config, nrb, mode, blocks] = [config, nrb, mode, blocks].map(byte);
    let ([n1, n1_high], [scheduled, scheduled_high]) = (n1.to_le_bytes(), scheduled.to_le_bytes());
    let (special, prefix) = (byte(special), byte(prefix));
    [config, nrb, mode, blocks, special, prefix, n1, n1_high, scheduled, scheduled_high]
}

/// The four bytes of a record.
pub fn record_bytes(record: Slot) -> [u8; RECORD] {
    let Slot { kind, cce, dai, results } = record;
    [kind, cce, dai, results]
}

/// The record of what a subframe heard, as far as its bytes hold it; what its kind does
/// not use is 0.
pub fn record_of(heard: Heard) -> Slot {
    let results = |blocks: u16, first: u16, second: u16| {
        u8::from(first != 0) * Slot::FIRST
            + u8::from(second != 0) * Slot::SECOND
            + u8::from(blocks == 2) * Slot::TWO
    };
    match heard {
        Heard::Nothing => Slot::NOTHING,
        Heard::Grant(Grant { blocks, first, second, cce, dai }) => {
            Slot::grant(cce as u8, dai as u8, results(blocks, first, second))
        }
        Heard::Block(Block { blocks, first, second }) => {
            Slot::block(results(blocks, first, second))
        }
        Heard::Release(Release { cce, dai }) => Slot::release(cce as u8, dai as u8),
    }
}

/// A number of two bytes at a place of a trace, such as one of the header.
pub fn number_at(trace: &[u8], at: usize) -> usize {
    u16::from_le_bytes([trace[at], trace[at + 1]]).into()
}

/// Puts a number of two bytes there.
pub fn put_number(trace: &mut [u8], at: usize, number: usize) {
    trace[at..at + 2].copy_from_slice(&number_bytes(number));
}

/// Gives the header the length that the trace has now.
pub fn put_length(trace: &mut [u8]) {
    put_number(trace, LENGTH_AT, trace.len());
}

/// The bytes of a trace of so many records in its one spelling.
pub fn spelled_length(records: usize) -> usize {
    SPELLED_FIRST + RECORD * records
}

/// What a trace says whose parts lie in it: the bytes of its settings, and of each record
/// its kind and what that kind uses.
pub fn said(trace: &[u8]) -> (&[u8], Vec<Vec<u8>>) {
    let settings = &trace[number_at(trace, SETTINGS_AT)..][..SETTINGS];
    let first = number_at(trace, FIRST_AT);
    let record = |number: usize| said_by(&trace[first + RECORD * number..][..RECORD]);
    (settings, (0..number_at(trace, RECORDS_AT)).map(record).collect())
}

/// Kind 1 uses CCE, DAI and results, 2 the results, 3 CCE and DAI. The results are one for
/// each block that was carried: bit 2 tells of a second one, and without it bit 1 is not
/// used.
fn said_by(record: &[u8]) -> Vec<u8> {
    let (kind, pdcch, results) = (record[0], &record[1..3], record[3]);
    let of_blocks: &[u8] = match results & Slot::TWO {
        0 => &[results & Slot::FIRST],
        _ => &[results & Slot::FIRST, results & Slot::SECOND],
    };
    match kind {
        Slot::GRANT => [&[kind], pdcch, of_blocks].concat(),
        Slot::BLOCK => [&[kind], of_blocks].concat(),
        Slot::RELEASE => [&[kind], pdcch].concat(),
        _ => vec![kind],
    }
}

fn number_bytes(number: usize) -> [u8; 2] {
    u16::try_from(number).expect("a number of two bytes").to_le_bytes()
}
