//! The handset behind a register block. The 16 bytes are taken apart into the things that they
//! are for, a command changes these, and then every byte is put together anew. A flag is a truth
//! value; so is each of the other bits, which say nothing and come back as they were.

use super::replay::{heard, record_in, used, window_bytes};
use super::Model;
use crate::{CommandAnswer, Handset};

/// A block by its parts. Bits stand in lists, bit 0 first.
struct Registers {
    /// Bytes 0 to 3: a record as in a trace; of a clear byte 0 says which flags it drops.
    record: [u8; 4],
    /// Byte 4.
    command: u8,
    /// Bits 0 to 2 of byte 5: reply ready, refusal, reply overwritten unread.
    flags: [bool; 3],
    /// Bits 3 to 7 of byte 5.
    other_bits: [bool; 5],
    /// Byte 6: the interrupt mask.
    mask: [bool; 8],
    /// Byte 7: the refusal number.
    number: u8,
    /// Bytes 8 to 15: the last reply.
    reply: [u8; 8],
}

/// The flags by their bits.
const READY: usize = 0;
const REFUSED: usize = 1;
const OVERWRITTEN: usize = 2;

impl Model {
    /// The answer of a command, which leaves its marks in the block. A block that has not 16
    /// bytes stays as it is.
    pub fn command(&self, handset: Handset, block: &mut [u8]) -> CommandAnswer {
        let Some(mut registers) = Registers::of(block) else {
            return CommandAnswer::of(29, false, handset);
        };
        let (refusal, after) = match self.obey(handset, &mut registers) {
            Ok(after) => (0, after),
            Err(refusal) => {
                registers.flags[REFUSED] = true;
                registers.number = u8::try_from(refusal).expect("a refusal number is a byte");
                (refusal, handset)
            }
        };
        block.copy_from_slice(&registers.bytes());
        CommandAnswer::of(refusal, registers.line_is_high(), after)
    }

    /// 0 does nothing, 1 feeds, 2 drops the flags that are set in byte 0.
    fn obey(&self, handset: Handset, registers: &mut Registers) -> Result<Handset, u16> {
        match registers.command {
            0 => Ok(handset),
            1 => self.feed_record(handset, registers),
            2 => {
                let [dropped, ..] = registers.record.map(bits);
                for (flag, dropped) in registers.flags.iter_mut().zip(dropped) {
                    *flag = *flag && !dropped;
                }
                Ok(handset)
            }
            _ => Err(28),
        }
    }

    /// A window that is answered is a reply, also where the handset is silent. It overwrites one
    /// that was still ready.
    fn feed_record(&self, handset: Handset, registers: &mut Registers) -> Result<Handset, u16> {
        let record = record_in(&registers.record);
        if record.kind > 3 {
            return Err(22);
        }
        let fed = self.feed(handset, heard(used(record)));
        if fed.refusal != 0 {
            return Err(fed.refusal);
        }
        if let Some(reply) = window_bytes(handset.next.into(), &fed) {
            let was_ready = registers.flags[READY];
            registers.flags[OVERWRITTEN] = registers.flags[OVERWRITTEN] || was_ready;
            registers.flags[READY] = true;
            registers.reply = reply;
        }
        Ok(fed.handset)
    }
}

impl Registers {
    /// The parts of a block of 16 bytes.
    fn of(block: &[u8]) -> Option<Self> {
        let block: [u8; 16] = block.try_into().ok()?;
        let [kind, cce, dai, results, command, flags, mask, number, reply @ ..] = block;
        let [ready, refused, overwritten, other_bits @ ..] = bits(flags);
        Some(Self {
            record: [kind, cce, dai, results],
            command,
            flags: [ready, refused, overwritten],
            other_bits,
            mask: bits(mask),
            number,
            reply,
        })
    }

    /// The block of these parts.
    fn bytes(&self) -> [u8; 16] {
        let [kind, cce, dai, results] = self.record;
        let flags = byte(self.flags.into_iter().chain(self.other_bits));
        let mask = byte(self.mask);
        let head = [kind, cce, dai, results, self.command, flags, mask, self.number];
        let mut bytes = [0; 16];
        bytes[..8].copy_from_slice(&head);
        bytes[8..].copy_from_slice(&self.reply);
        bytes
    }

    /// Whether a flag and its mask bit are both set.
    fn line_is_high(&self) -> bool {
        self.flags.into_iter().zip(self.mask).any(|(flag, masked)| flag && masked)
    }
}

/// The bits of a byte: it is halved again and again, and what is left over is the next bit.
fn bits(byte: u8) -> [bool; 8] {
    let mut rest = byte;
    [(); 8].map(|()| {
        let bit = rest % 2 == 1;
        rest /= 2;
        bit
    })
}

/// The byte of these bits.
fn byte(bits: impl IntoIterator<Item = bool>) -> u8 {
    let values = [1, 2, 4, 8, 16, 32, 64, 128];
    bits.into_iter().zip(values).map(|(bit, value)| if bit { value } else { 0 }).sum()
}
