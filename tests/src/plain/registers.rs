//! The register block of a handset: bytes and bits in place. A record becomes a slot by a mask, and
//! the state that is lent is checked once for all kinds.

use super::handset::{answered_next, limits_of_good, remember};
use super::replay::{slot, used, window_bytes, RECORD, WINDOW};
use crate::{CommandAnswer, Handset};

const SIZE: usize = 16;

/// Where the parts of the block stand.
const COMMAND: usize = 4;
const FLAGS: usize = 5;
const MASK: usize = 6;
const NUMBER: usize = 7;
const REPLY: usize = SIZE - WINDOW;

/// The flags.
const READY: u8 = 1;
const REFUSED: u8 = 2;
const ALL: u8 = 7;

/// A command, under the signature of the C call.
///
/// # Safety
///
/// The block has `length` bytes to be written.
#[inline(never)]
pub unsafe extern "C" fn plain_command(
    handset: Handset,
    block: *mut u8,
    length: usize,
) -> CommandAnswer {
    if length != SIZE {
        return CommandAnswer { refusal: 29, line: 0, handset };
    }
    // SAFETY: the caller lends so many bytes for as long as the call lasts.
    let block = unsafe { &mut *block.cast::<[u8; SIZE]>() };
    let done = match block[COMMAND] {
        0 => Ok(handset),
        1 => feed(&handset, block),
        2 => {
            block[FLAGS] &= !(block[0] & ALL);
            Ok(handset)
        }
        _ => Err(28),
    };
    let (refusal, handset) = match done {
        Ok(after) => (0, after),
        Err(refusal) => {
            block[FLAGS] |= REFUSED;
            block[NUMBER] = refusal as u8;
            (refusal, handset)
        }
    };
    let line = u16::from(block[FLAGS] & block[MASK] & ALL != 0);
    CommandAnswer { refusal, line, handset }
}

#[inline(always)]
fn feed(handset: &Handset, block: &mut [u8; SIZE]) -> Result<Handset, u16> {
    let [kind, cce, dai, results, ..] = *block;
    let record: [u8; RECORD] = [kind, cce, dai, results];
    if kind > 3 {
        return Err(22);
    }
    let limits = limits_of_good(handset).ok_or(8u16)?;
    let heard = used(slot(&record));
    if kind != 0 {
        limits.check(handset.next, heard)?;
    } else if let Some(reply) = answered_next(handset) {
        // Bit 2 is four times bit 0.
        block[FLAGS] |= READY | (block[FLAGS] & READY) << 2;
        block[REPLY..].copy_from_slice(&window_bytes(handset.next, reply));
    }
    Ok(remember(handset, heard))
}
