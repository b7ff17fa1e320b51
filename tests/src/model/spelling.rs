//! The one spelling of a trace: what is used of it, put together anew.

use super::replay::{parts, used, Parts, Played};
use super::Model;
use crate::{Slot, WriteAnswer};

/// Why a trace is not accepted: the refusal, and the number of the record that meets it,
/// if it is one that does.
type NotAccepted = (u16, Option<usize>);

impl Model {
    /// The answer of writing a trace, and every byte of the output afterwards.
    pub fn trace_write(&self, file: &[u8], output: &[u8]) -> (WriteAnswer, Vec<u8>) {
        let left = |answer: WriteAnswer| (answer, output.to_vec());
        match self.spelling(file) {
            Err((refusal, None)) => left(WriteAnswer::refused(refusal)),
            Err((refusal, Some(record))) => left(WriteAnswer::stopped(refusal, record)),
            Ok(spelled) => match output.get(spelled.len()..) {
                None => left(WriteAnswer::refused(23)),
                Some(kept) => (WriteAnswer::done(spelled.len()), [&spelled, kept].concat()),
            },
        }
    }

    /// The spelling of an accepted trace: one whose replay goes to its end. There is room
    /// for the windows of any replay, so that its own 23 is never met.
    pub fn spelling(&self, file: &[u8]) -> Result<Vec<u8>, NotAccepted> {
        let by_no_record = |refusal: u16| (refusal, None);
        let Played { stopped, .. } = self.play(file, usize::MAX).map_err(by_no_record)?;
        if let Some((refusal, record)) = stopped {
            return Err((refusal, Some(record)));
        }
        let Parts { settings, records } = parts(file).map_err(by_no_record)?;
        let header = [records.len(), 18, 8, 18 + 4 * records.len()].map(two_bytes);
        let records: Vec<[u8; 4]> = records.into_iter().map(four_bytes).collect();
        Ok([header.as_flattened(), settings, records.as_flattened()].concat())
    }
}

/// Little-endian like all numbers of a trace.
fn two_bytes(number: usize) -> [u8; 2] {
    [number % 256, number / 256].map(|byte| u8::try_from(byte).expect("a byte"))
}

/// Kind, first CCE, DAI, results; what the kind does not use is 0.
fn four_bytes(record: Slot) -> [u8; 4] {
    let Slot { kind, cce, dai, results } = used(record);
    [kind, cce, dai, results]
}
