//! Recorded drives: the record at a number, and the replay as feeds one by one.
//!
//! The parts of a trace are looked at byte by byte: each takes the bytes that are its
//! own, and a byte that is taken already or is not in the file makes the trace bad. A
//! part without a byte, as no records are, can't be in anyone's way, wherever it is.

use super::Model;
use crate::{Block, Fed, Grant, Heard, RecordAnswer, Release, ReplayAnswer, Settings, Slot};

/// The parts of a trace that lie in it, apart from each other.
pub(super) struct Parts<'a> {
    pub settings: &'a [u8],
    pub records: Vec<Slot>,
}

/// A replay that got to its first record: the windows, each with the number of the
/// record that completes it, and the refusal that stopped it, with its record's.
pub struct Played {
    pub windows: Vec<(usize, [u8; 8])>,
    pub stopped: Option<(u16, usize)>,
}

impl Model {
    /// The record of a number, from 0.
    pub fn record(&self, file: &[u8], next: usize) -> RecordAnswer {
        match parts(file) {
            Err(refusal) => RecordAnswer::refused(refusal),
            Ok(Parts { records, .. }) => match records.get(next) {
                None => RecordAnswer::END,
                Some(record) if record.kind > 3 => RecordAnswer::refused(22),
                Some(record) => RecordAnswer::read(used(*record)),
            },
        }
    }

    /// The answer of a replay, and every byte of the output afterwards.
    pub fn replay(&self, file: &[u8], output: &[u8]) -> (ReplayAnswer, Vec<u8>) {
        let Played { windows, stopped } = match self.play(file, output.len()) {
            Err(refusal) => return (ReplayAnswer::refused(refusal), output.to_vec()),
            Ok(played) => played,
        };
        let written: Vec<u8> = windows.iter().flat_map(|(_, window)| *window).collect();
        let kept = &output[written.len()..];
        let done = ReplayAnswer::done(windows.len());
        let answer = stopped.map_or(done, |(refusal, record)| {
            ReplayAnswer::stopped(refusal, record, windows.len())
        });
        (answer, [&written, kept].concat())
    }

    /// A replay into an output of so many bytes, or the refusal before any record.
    pub fn play(&self, file: &[u8], room: usize) -> Result<Played, u16> {
        let Parts { settings, records } = parts(file)?;
        if records.iter().any(|record| record.kind > 3) {
            return Err(22);
        }
        let made = self.make(settings_in(settings));
        if made.refusal != 0 {
            return Err(made.refusal);
        }
        let mut handset = made.handset;
        if room < 8 * self.windows_among(handset.settings.config, records.len()) {
            return Err(23);
        }
        let mut windows = Vec::new();
        for (number, record) in records.into_iter().enumerate() {
            let fed = self.feed(handset, heard(used(record)));
            if fed.refusal != 0 {
                return Ok(Played { windows, stopped: Some((fed.refusal, number)) });
            }
            windows.extend(window_bytes(number, &fed).map(|window| (number, window)));
            handset = fed.handset;
        }
        Ok(Played { windows, stopped: None })
    }

    /// How many windows so many records complete, by looking at each record: it
    /// completes one if its subframe has one.
    pub fn windows_among(&self, config: u16, records: usize) -> usize {
        let completes = |number: &usize| self.window(config, (number % 10) as u16).is_some();
        (0..records).filter(completes).count()
    }
}

/// The parts of a trace, or 21 or 22.
pub(super) fn parts(file: &[u8]) -> Result<Parts<'_>, u16> {
    let header: Vec<usize> = file.chunks_exact(2).take(4).map(number).collect();
    let [records, first, settings, length] = header[..] else {
        return Err(21);
    };
    if file.len() != length {
        return Err(21);
    }
    let mut taken = vec![false; length];
    for (start, bytes) in [(0, 8), (settings, 10), (first, 4 * records)] {
        for byte in start..start + bytes {
            match taken.get_mut(byte) {
                None | Some(true) => return Err(22),
                Some(free) => *free = true,
            }
        }
    }
    let record = |number| record_in(&file[first + 4 * number..][..4]);
    Ok(Parts { settings: &file[settings..][..10], records: (0..records).map(record).collect() })
}

/// Little-endian like all numbers of a trace.
fn number(bytes: &[u8]) -> usize {
    usize::from(bytes[0]) + 256 * usize::from(bytes[1])
}

/// Configuration, N_RB, mode, blocks, special, prefix, N1, scheduled resource. There is
/// always one port.
pub(super) fn settings_in(bytes: &[u8]) -> Settings {
    let byte = |at: usize| u16::from(bytes[at]);
    let wide = |at: usize| byte(at) + 256 * byte(at + 1);
    Settings {
        config: byte(0),
        nrb: byte(1),
        mode: byte(2),
        blocks: byte(3),
        special: byte(4),
        prefix: byte(5),
        n1: wide(6),
        scheduled: wide(8),
        ports: 1,
    }
}

/// Kind, first CCE, DAI, results.
pub(super) fn record_in(bytes: &[u8]) -> Slot {
    Slot { kind: bytes[0], cce: bytes[1], dai: bytes[2], results: bytes[3] }
}

/// What the kind of a record uses: 1 all, 2 the results, 3 CCE and DAI; of the results
/// three bits, bit 1 only with bit 2. The rest is ignored, and 0 here.
pub(super) fn used(record: Slot) -> Slot {
    let Slot { kind, cce, dai, results } = record;
    let has = |bit: u8| results & bit != 0;
    let bits: [(u8, bool); 3] = [(1, has(1)), (2, has(2) && has(4)), (4, has(4))];
    let results = bits.into_iter().filter(|(_, set)| *set).map(|(bit, _)| bit).sum();
    match kind {
        1 => Slot { kind, cce, dai, results },
        2 => Slot { kind, cce: 0, dai: 0, results },
        3 => Slot { kind, cce, dai, results: 0 },
        _ => Slot { kind, cce: 0, dai: 0, results: 0 },
    }
}

/// What a record of which all is used says that its subframe heard.
pub(super) fn heard(record: Slot) -> Heard {
    let Slot { kind, cce, dai, results } = record;
    let (cce, dai) = (cce.into(), dai.into());
    let [first, second, two] = [1, 2, 4].map(|bit| u16::from(results & bit != 0));
    match kind {
        1 => Heard::Grant(Grant { blocks: 1 + two, first, second, cce, dai }),
        2 => Heard::Block(Block { blocks: 1 + two, first, second }),
        3 => Heard::Release(Release { cce, dai }),
        _ => Heard::Nothing,
    }
}

/// The eight bytes of the window that a feed answers, if it answers one; the number is that of
/// its subframe, a count from 0 of which the last digit is the subframe in the frame.
pub(super) fn window_bytes(number: usize, fed: &Fed) -> Option<[u8; 8]> {
    let kind = match fed.kind {
        Fed::SILENT => 0,
        Fed::BUNDLED => 1,
        Fed::MULTIPLEXED => 2,
        _ => return None,
    };
    let (low, high) = (fed.resource % 256, fed.resource / 256);
    let bytes = [(number % 10) as u16, kind, low, high, fed.b0, fed.b1, 0, 0];
    Some(bytes.map(|byte| u8::try_from(byte).expect("a byte")))
}
