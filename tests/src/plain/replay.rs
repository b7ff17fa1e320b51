//! Recorded drives: the record at a number, the replay, and how much it writes.
//!
//! The replay checks the settings once and keeps no memory of its own: what was heard
//! some subframes ago stands in the trace, as many records before.

use super::handset::{reply, Limits, Reply};
use super::{check, K, SIZES};
use crate::{RecordAnswer, ReplayAnswer, ReplaySizeAnswer, Settings, Slot};
use std::slice;

pub(super) const HEADER: usize = 8;
pub(super) const SETTINGS: usize = 10;
pub(super) const RECORD: usize = 4;
pub(super) const WINDOW: usize = 8;

/// The parts of a trace that lie in it, of any values.
pub(super) struct Parts<'a> {
    pub settings: &'a [u8; SETTINGS],
    pub records: &'a [[u8; RECORD]],
}

/// How many windows the first subframes of a frame complete, by configuration and their
/// number; last those of a whole frame.
const WINDOWS: [[u8; 11]; 7] = windows();

const fn windows() -> [[u8; 11]; 7] {
    let mut windows = [[0; 11]; 7];
    let mut config = 0;
    while config < 7 {
        let mut n = 0;
        while n < 10 {
            windows[config][n + 1] = windows[config][n] + (SIZES[config][n] > 0) as u8;
            n += 1;
        }
        config += 1;
    }
    windows
}

/// The replay of a trace, under the signature of the C call.
///
/// # Safety
///
/// The trace has `length` bytes to be read and the output `room` bytes to be written,
/// and the two do not overlap.
#[inline(never)]
pub unsafe extern "C" fn plain_replay(
    trace: *const u8,
    length: usize,
    out: *mut u8,
    room: usize,
) -> ReplayAnswer {
    // SAFETY: the caller lends both for as long as the call lasts.
    let (file, out) =
        unsafe { (slice::from_raw_parts(trace, length), slice::from_raw_parts_mut(out, room)) };
    match open_into(file, room) {
        Ok((settings, records)) => play(&settings, records, out),
        Err(refusal) => ReplayAnswer::refused(refusal),
    }
}

/// How much a replay writes, under the signature of the C call.
///
/// # Safety
///
/// The trace has `length` bytes to be read.
#[inline(never)]
pub unsafe extern "C" fn plain_replay_size(trace: *const u8, length: usize) -> ReplaySizeAnswer {
    // SAFETY: the caller lends the trace for as long as the call lasts.
    match windows_of(unsafe { slice::from_raw_parts(trace, length) }) {
        Ok(windows) => ReplaySizeAnswer::of(windows, WINDOW * windows),
        Err(refusal) => ReplaySizeAnswer::refused(refusal),
    }
}

/// The record of a number, under the signature of the C call.
///
/// # Safety
///
/// The trace has `length` bytes to be read.
#[inline(never)]
pub unsafe extern "C" fn plain_record(
    trace: *const u8,
    length: usize,
    next: usize,
) -> RecordAnswer {
    // SAFETY: the caller lends the trace for as long as the call lasts.
    match parts(unsafe { slice::from_raw_parts(trace, length) }) {
        Err(refusal) => RecordAnswer::refused(refusal),
        Ok(Parts { records, .. }) => match records.get(next) {
            None => RecordAnswer::END,
            Some([kind, ..]) if *kind > 3 => RecordAnswer::refused(22),
            Some(record) => RecordAnswer::read(used(slot(record))),
        },
    }
}

/// The settings and the records of a trace that can be replayed into so many bytes.
fn open_into(file: &[u8], room: usize) -> Result<(Settings, &[[u8; RECORD]]), u16> {
    let (settings, Parts { records, .. }) = open(file)?;
    if room < WINDOW * windows_among(&settings, records.len()) {
        return Err(23);
    }
    Ok((settings, records))
}

/// How many windows the records of a trace complete, of whatever kinds they are.
fn windows_of(file: &[u8]) -> Result<usize, u16> {
    let Parts { settings, records } = parts(file)?;
    let settings = settings_in(settings);
    check(&settings)?;
    Ok(windows_among(&settings, records.len()))
}

/// How many windows so many records complete, by settings that have been checked.
fn windows_among(settings: &Settings, records: usize) -> usize {
    let of_config = &WINDOWS[usize::from(settings.config)];
    records / 10 * usize::from(of_config[10]) + usize::from(of_config[records % 10])
}

/// The settings of a trace, which have been checked, and its parts, with records of
/// existing kinds.
pub(super) fn open(file: &[u8]) -> Result<(Settings, Parts<'_>), u16> {
    let parts = parts(file)?;
    if parts.records.iter().any(|[kind, ..]| *kind > 3) {
        return Err(22);
    }
    let settings = settings_in(parts.settings);
    check(&settings)?;
    Ok((settings, parts))
}

fn parts(file: &[u8]) -> Result<Parts<'_>, u16> {
    let header = file.first_chunk::<HEADER>().ok_or(21u16)?;
    let [records, first, settings, length] =
        [0, 2, 4, 6].map(|at| usize::from(u16::from_le_bytes([header[at], header[at + 1]])));
    if length != file.len() {
        return Err(21);
    }
    let settings_end = settings + SETTINGS;
    let records = match records {
        0 => HEADER..HEADER,
        _ => first..first + RECORD * records,
    };
    let fits = settings >= HEADER && settings_end <= length;
    let records_fit = records.start >= HEADER && records.end <= length;
    let apart = records.is_empty() || records.end <= settings || settings_end <= records.start;
    if !(fits && records_fit && apart) {
        return Err(22);
    }
    let settings = file[settings..].first_chunk().ok_or(22u16)?;
    let (records, _) = file[records].as_chunks();
    Ok(Parts { settings, records })
}

/// A trace does not say how many ports there are: always one.
fn settings_in(bytes: &[u8; SETTINGS]) -> Settings {
    let byte = |at: usize| u16::from(bytes[at]);
    let wide = |at: usize| u16::from_le_bytes([bytes[at], bytes[at + 1]]);
    let settings = Settings::plain(byte(0), byte(1), wide(6), byte(2), byte(3));
    settings.with_scheduled(wide(8)).with_special(byte(5), byte(4))
}

pub(super) fn slot(record: &[u8; RECORD]) -> Slot {
    let [kind, cce, dai, results] = *record;
    Slot { kind, cce, dai, results }
}

/// What the kind of a record uses; the rest is 0.
pub(super) fn used(record: Slot) -> Slot {
    let bits = if record.results & Slot::TWO != 0 { 7 } else { Slot::FIRST };
    let results = record.results & bits;
    match record.kind {
        Slot::GRANT => Slot { results, ..record },
        Slot::BLOCK => Slot::block(results),
        Slot::RELEASE => Slot::release(record.cce, record.dai),
        _ => Slot::NOTHING,
    }
}

/// The replay of records of existing kinds, by settings that have been checked, into an
/// output that is long enough.
fn play(settings: &Settings, records: &[[u8; RECORD]], out: &mut [u8]) -> ReplayAnswer {
    let mut limits = Limits::new(settings);
    let frame = &K[usize::from(settings.config)];
    let (out, _) = out.as_chunks_mut::<WINDOW>();
    let (mut written, mut subframe) = (0, 0);
    for (number, record) in records.iter().enumerate() {
        let heard = slot(record);
        let window = frame[usize::from(subframe)];
        if heard.kind != 0 {
            if let Err(refusal) = limits.check(subframe, heard) {
                return ReplayAnswer::stopped(refusal, number, written);
            }
        } else if !window.is_empty() {
            let ago = |k: u8| match number.checked_sub(k.into()) {
                Some(before) => slot(&records[before]),
                None => Slot::NOTHING,
            };
            let reply = reply(settings, settings.mode, window, ago);
            out[written] = window_bytes(subframe, reply);
            written += 1;
        }
        limits.go_on(subframe, heard.kind == Slot::BLOCK);
        subframe = if subframe == 9 { 0 } else { subframe + 1 };
    }
    ReplayAnswer::done(written)
}

pub(super) fn window_bytes(n: u16, reply: Option<Reply>) -> [u8; WINDOW] {
    let Some(Reply { kind, resource, bits: (b0, b1) }) = reply else {
        return [n as u8, 0, 0, 0, 0, 0, 0, 0];
    };
    let [low, high] = resource.to_le_bytes();
    [n as u8, kind as u8, low, high, b0 as u8, b1 as u8, 0, 0]
}
