//! A trace in its one spelling: a pass over the records to see that a replay would take
//! them all, and one that writes them, four bytes at a time.

use super::handset::Limits;
use super::replay::{open, slot, Parts, HEADER, RECORD, SETTINGS};
use crate::{Settings, Slot, WriteAnswer};
use std::slice;

/// Where the settings and the records are written.
const SETTINGS_AT: usize = HEADER;
const FIRST: usize = HEADER + SETTINGS;

/// What each kind uses of its four bytes; of the results all three bits.
const USED: [u32; 4] = [
    u32::from_le_bytes([255, 0, 0, 0]),
    u32::from_le_bytes([255, 255, 255, 7]),
    u32::from_le_bytes([255, 0, 0, 7]),
    u32::from_le_bytes([255, 255, 255, 0]),
];

/// Bits 1 and 2 of the results.
const SECOND: u32 = u32::from_le_bytes([0, 0, 0, Slot::SECOND]);
const TWO: u32 = u32::from_le_bytes([0, 0, 0, Slot::TWO]);

/// The writing of a trace, under the signature of the C call.
///
/// # Safety
///
/// The trace has `length` bytes to be read and the output `room` bytes to be written,
/// and the two do not overlap.
#[inline(never)]
pub unsafe extern "C" fn plain_trace_write(
    trace: *const u8,
    length: usize,
    out: *mut u8,
    room: usize,
) -> WriteAnswer {
    // SAFETY: the caller lends both for as long as the call lasts.
    let (file, out) =
        unsafe { (slice::from_raw_parts(trace, length), slice::from_raw_parts_mut(out, room)) };
    let (settings, parts) = match open(file) {
        Ok(opened) => opened,
        Err(refusal) => return WriteAnswer::refused(refusal),
    };
    if let Err((refusal, record)) = check_records(&settings, parts.records) {
        return WriteAnswer::stopped(refusal, record);
    }
    let bytes = FIRST + RECORD * parts.records.len();
    match out.get_mut(..bytes) {
        Some(out) => write(&parts, out),
        None => return WriteAnswer::refused(23),
    }
    WriteAnswer::done(bytes)
}

/// The refusal of the first record at which a replay would stop, and its number.
fn check_records(settings: &Settings, records: &[[u8; RECORD]]) -> Result<(), (u16, usize)> {
    let mut limits = Limits::new(settings);
    let mut subframe = 0;
    for (number, record) in records.iter().enumerate() {
        let heard = slot(record);
        if heard.kind != 0 {
            limits.check(subframe, heard).map_err(|refusal| (refusal, number))?;
        }
        limits.go_on(subframe, heard.kind == Slot::BLOCK);
        subframe = if subframe == 9 { 0 } else { subframe + 1 };
    }
    Ok(())
}

/// Writes the parts of an accepted trace to as many bytes as they take.
fn write(parts: &Parts, out: &mut [u8]) {
    let numbers = [parts.records.len(), FIRST, SETTINGS_AT, out.len()];
    for (to, number) in out.chunks_exact_mut(2).zip(numbers) {
        to.copy_from_slice(&(number as u16).to_le_bytes());
    }
    out[SETTINGS_AT..FIRST].copy_from_slice(parts.settings);
    let (out, _) = out[FIRST..].as_chunks_mut::<RECORD>();
    for (to, record) in out.iter_mut().zip(parts.records) {
        *to = used(record);
    }
}

/// What the kind of a record, which exists, uses; the rest is 0.
fn used(record: &[u8; RECORD]) -> [u8; RECORD] {
    let bytes = u32::from_le_bytes(*record) & USED[usize::from(record[0] & 3)];
    let unused = if bytes & TWO == 0 { SECOND } else { 0 };
    (bytes & !unused).to_le_bytes()
}
