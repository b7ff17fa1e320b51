//! The calls as one would write them in plain Rust with speed in mind: table
//! lookup, the formula, a loop over the regions, a closed form for the inverse,
//! one pass over a window, a match for the symbols, a replay that looks back into the
//! trace, records that are spelled by a mask, positions of a window as sets of bits, a closed
//! form for the game, flags of a register block as bits in place. The benchmark measures the
//! engine against these, and the fuzzing compares with them.

mod charging;
mod game;
mod handset;
mod registers;
mod replay;
mod spelling;
mod station;
mod window;

pub use charging::{plain_add, plain_confirmed, plain_credit, plain_open_account};
pub use game::plain_game;
pub use handset::{
    plain_change_mode, plain_feed_grant, plain_feed_nothing, plain_feed_release,
    plain_feed_scheduled, plain_make, plain_silence,
};
pub use registers::plain_command;
pub use replay::{plain_record, plain_replay, plain_replay_size};
pub use spelling::plain_trace_write;
pub use station::{plain_claims, plain_claims_bits, plain_reading};
pub use window::{plain_answered, plain_window};

use crate::{InverseAnswer, ResourceAnswer, Settings, NONE};

/// K by configuration and subframe, in printed order; empty where there is no window.
pub const K: [[&[u8]; 10]; 7] = [
    [&[], &[], &[6], &[], &[4], &[], &[], &[6], &[], &[4]],
    [&[], &[], &[7, 6], &[4], &[], &[], &[], &[7, 6], &[4], &[]],
    [&[], &[], &[8, 7, 4, 6], &[], &[], &[], &[], &[8, 7, 4, 6], &[], &[]],
    [&[], &[], &[7, 6, 11], &[6, 5], &[5, 4], &[], &[], &[], &[], &[]],
    [&[], &[], &[12, 8, 7, 11], &[6, 5, 4, 7], &[], &[], &[], &[], &[], &[]],
    [&[], &[], &[13, 12, 9, 8, 7, 5, 4, 11, 6], &[], &[], &[], &[], &[], &[], &[]],
    [&[], &[], &[7], &[7], &[5], &[], &[], &[7], &[7], &[]],
];

/// The frame of each configuration.
const FRAMES: [&[u8; 10]; 7] = [
    b"DSUUUDSUUU",
    b"DSUUDDSUUD",
    b"DSUDDDSUDD",
    b"DSUUUDDDDD",
    b"DSUUDDDDDD",
    b"DSUDDDDDDD",
    b"DSUUUDSUUD",
];

/// The special subframes of each configuration, bit n for subframe n, and with the
/// downlink ones.
const SPECIAL: [u16; 7] = subframes(false);
const DOWNLINK: [u16; 7] = subframes(true);

const fn subframes(downlink: bool) -> [u16; 7] {
    let mut masks = [0; 7];
    let mut config = 0;
    while config < 7 {
        let mut n = 0;
        while n < 10 {
            let letter = FRAMES[config][n];
            if letter == b'S' || downlink && letter == b'D' {
                masks[config] |= 1 << n;
            }
            n += 1;
        }
        config += 1;
    }
    masks
}

/// By prefix the last special configuration, and those without data, bit s for s.
const LAST_SPECIAL: [u16; 2] = [8, 6];
const WITHOUT_DATA: [u16; 2] = [1 << 0 | 1 << 5, 1 << 0 | 1 << 4];

/// M by configuration and subframe, 0 where there is no window.
const SIZES: [[u8; 10]; 7] = sizes();

const fn sizes() -> [[u8; 10]; 7] {
    let mut sizes = [[0; 10]; 7];
    let mut config = 0;
    while config < 7 {
        let mut n = 0;
        while n < 10 {
            sizes[config][n] = K[config][n].len() as u8;
            n += 1;
        }
        config += 1;
    }
    sizes
}

/// The resource of a position and first CCE, under the signature of the C call.
#[inline(never)]
pub extern "C" fn plain_resource(
    settings: Settings,
    n: u16,
    position: u16,
    cce: u16,
) -> ResourceAnswer {
    match resource(&settings, n, position, cce) {
        Ok(resource) => ResourceAnswer::of_two(resource, second(&settings, resource)),
        Err(refusal) => ResourceAnswer::refused(refusal),
    }
}

/// The position and first CCE of a resource, under the signature of the C call.
#[inline(never)]
pub extern "C" fn plain_inverse(settings: Settings, n: u16, resource: u16) -> InverseAnswer {
    match inverse(&settings, n, resource) {
        Ok((position, cce)) => InverseAnswer::of(position, cce),
        Err(refusal) => InverseAnswer::refused(refusal),
    }
}

fn resource(settings: &Settings, n: u16, position: u16, cce: u16) -> Result<u16, u16> {
    check(settings)?;
    let size = window_size(settings.config, n)?;
    let (lower, upper) = region(settings.nrb, 1, cce).ok_or(11u16)?;
    if position >= size {
        return Err(11);
    }
    Ok((size - position - 1) * lower + position * upper + cce + settings.n1)
}

/// The resource of the second port, by settings that have been checked; 0 with one port.
fn second(settings: &Settings, resource: u16) -> u16 {
    if settings.ports == 2 {
        resource + 1
    } else {
        0
    }
}

fn inverse(settings: &Settings, n: u16, resource: u16) -> Result<(u16, u16), u16> {
    check(settings)?;
    pair(settings, window_size(settings.config, n)?, resource)
}

/// The position and first CCE of a resource in a window of `size` subframes.
fn pair(settings: &Settings, size: u16, resource: u16) -> Result<(u16, u16), u16> {
    let place = resource.checked_sub(settings.n1).ok_or(13u16)?;
    let (lower, upper) = region(settings.nrb, size, place).ok_or(13u16)?;
    let within = place - size * lower;
    let width = upper - lower;
    Ok((within / width, lower + within % width))
}

fn check(settings: &Settings) -> Result<(), u16> {
    if settings.config > 6 {
        Err(1)
    } else if settings.nrb < 6 || settings.nrb > 110 {
        Err(2)
    } else if settings.n1 > 2047 {
        Err(3)
    } else if settings.mode > 1 {
        Err(4)
    } else if settings.mode == 1 && settings.config == 5 {
        Err(5)
    } else if settings.blocks != 1 && settings.blocks != 2 {
        Err(6)
    } else if settings.scheduled != NONE && settings.scheduled >= settings.n1 {
        Err(17)
    } else if settings.prefix > 1 || settings.special > LAST_SPECIAL[usize::from(settings.prefix)] {
        Err(19)
    } else if settings.ports != 1 && !may_have_two_ports(settings) {
        Err(24)
    } else {
        Ok(())
    }
}

fn may_have_two_ports(settings: &Settings) -> bool {
    settings.ports == 2 && settings.mode == 0 && settings.scheduled == NONE
}

/// Whether the reply for a window of `size` subframes is bundled in a mode.
fn bundles(mode: u16, size: u16) -> bool {
    mode == 0 || size == 1
}

/// Whether special subframes are too short for data, by settings that have been checked.
fn is_short(settings: &Settings) -> bool {
    WITHOUT_DATA[usize::from(settings.prefix)] >> settings.special & 1 == 1
}

/// N_4, the number of CCEs, for a bandwidth that has been checked.
fn cces(nrb: u16) -> u16 {
    nrb * 44 / 36
}

/// M of a window, for a configuration that has been checked.
fn window_size(config: u16, n: u16) -> Result<u16, u16> {
    let row = &SIZES[usize::from(config)];
    match row.get(usize::from(n)) {
        Some(&size) if size > 0 => Ok(u16::from(size)),
        _ => Err(7),
    }
}

/// The edges N_p and N_(p+1) of the first region with `place` below `each` × N_(p+1).
fn region(nrb: u16, each: u16, place: u16) -> Option<(u16, u16)> {
    let mut lower = 0;
    for p in 1..=4 {
        let upper = nrb * (12 * p - 4) / 36;
        if place < each * upper {
            return Some((lower, upper));
        }
        lower = upper;
    }
    None
}
