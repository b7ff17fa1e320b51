//! Sizing a replay: the subframes of the records are gone through, one after the other, and the
//! eight bytes of each window are counted where it is answered. Of a record nothing is looked at.

use super::replay::{parts, settings_in, Parts};
use super::{settings_refusal, Model};
use crate::ReplaySizeAnswer;

impl Model {
    /// The windows and the bytes that a replay writes if it accepts all records. The settings are
    /// judged as a handset's are that is made; the kinds of the records are not.
    pub fn replay_size(&self, file: &[u8]) -> ReplaySizeAnswer {
        let Parts { settings, records } = match parts(file) {
            Ok(parts) => parts,
            Err(refusal) => return ReplaySizeAnswer::refused(refusal),
        };
        let settings = settings_in(settings);
        if let Some(refusal) = settings_refusal(settings) {
            return ReplaySizeAnswer::refused(refusal);
        }
        let (mut subframe, mut windows, mut bytes) = (0, 0, 0);
        for _ in records {
            if self.window(settings.config, subframe).is_some() {
                windows += 1;
                bytes += 8;
            }
            subframe = if subframe == 9 { 0 } else { subframe + 1 };
        }
        ReplaySizeAnswer::of(windows, bytes)
    }
}
