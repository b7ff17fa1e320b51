//! The station's side: the reading of a reply and the claims of a cell.

use super::{bundles, check, is_short, pair, window_size, K, SPECIAL};
use crate::{ClaimsAnswer, ReadingAnswer, Settings, NONE, NOT_TOLD};
use std::slice;

/// The positions with a special subframe, bit m for position m, by configuration and
/// uplink subframe.
pub(super) const SPECIAL_POSITIONS: [[u16; 10]; 7] = special_positions();

const fn special_positions() -> [[u16; 10]; 7] {
    let mut positions = [[0; 10]; 7];
    let mut config = 0;
    while config < 7 {
        let mut n = 0;
        while n < 10 {
            let mut m = 0;
            while m < K[config][n].len() {
                let subframe = (n + 20 - K[config][n][m] as usize) % 10;
                positions[config][n] |= (SPECIAL[config] >> subframe & 1) << m;
                m += 1;
            }
            n += 1;
        }
        config += 1;
    }
    positions
}

/// Stands where no state sends a symbol.
const NO_ROW: u8 = 255;

/// The positions that a symbol delivers, bit p for position p, by M − 2, index
/// and 2 × b0 + b1.
const DELIVERED: [[[u8; 4]; 4]; 3] = [
    [[NO_ROW, 0b01, 0b00, NO_ROW], [0b10, NO_ROW, 0b00, 0b11], [NO_ROW; 4], [NO_ROW; 4]],
    [
        [NO_ROW, 0b001, 0b000, 0b101],
        [0b010, NO_ROW, 0b000, 0b011],
        [0b100, 0b000, 0b110, 0b111],
        [NO_ROW; 4],
    ],
    [
        [NO_ROW, 0b1001, 0b0000, 0b0001],
        [0b0000, 0b0010, 0b0011, 0b1111],
        [0b0100, 0b0101, 0b0110, 0b0000],
        [0b1000, 0b1100, 0b1010, 0b0000],
    ],
];

/// The reading of two bits on a resource, under the signature of the C call.
#[inline(never)]
pub extern "C" fn plain_reading(
    settings: Settings,
    n: u16,
    told: u16,
    resource: u16,
    b0: u16,
    b1: u16,
) -> ReadingAnswer {
    match reading(&settings, n, told, resource, b0, b1) {
        Ok(answer) => answer,
        Err(refusal) => ReadingAnswer::refused(refusal),
    }
}

/// The answer to a list of claims, under the signature of the C call.
///
/// # Safety
///
/// The list has `count` numbers to be read and the scratch `room` bytes to be
/// written, and the two do not overlap.
#[inline(never)]
pub unsafe extern "C" fn plain_claims(
    settings: Settings,
    n: u16,
    claims: *const u16,
    count: usize,
    scratch: *mut u8,
    room: usize,
) -> ClaimsAnswer {
    // SAFETY: the caller lends both for as long as the call lasts.
    let (claims, scratch) =
        unsafe { (slice::from_raw_parts(claims, count), slice::from_raw_parts_mut(scratch, room)) };
    answer(in_bytes(&settings, n, claims, scratch))
}

/// The same with a bit of the scratch for each resource.
///
/// # Safety
///
/// As for the bytes.
#[inline(never)]
pub unsafe extern "C" fn plain_claims_bits(
    settings: Settings,
    n: u16,
    claims: *const u16,
    count: usize,
    scratch: *mut u8,
    room: usize,
) -> ClaimsAnswer {
    // SAFETY: the caller lends both for as long as the call lasts.
    let (claims, scratch) =
        unsafe { (slice::from_raw_parts(claims, count), slice::from_raw_parts_mut(scratch, room)) };
    answer(in_bits(&settings, n, claims, scratch))
}

fn reading(
    settings: &Settings,
    n: u16,
    told: u16,
    resource: u16,
    b0: u16,
    b1: u16,
) -> Result<ReadingAnswer, u16> {
    check(settings)?;
    let size = window_size(settings.config, n)?;
    let is_told = told != NOT_TOLD;
    if is_told {
        check_told(settings, n, size, told)?;
    }
    let is_block = is_told && resource == settings.scheduled;
    let place = if is_block { (told, 0) } else { pair(settings, size, resource)? };
    let read = meaning(settings, size, place, b0, b1)?;
    Ok(if is_block { read.as_block() } else { read })
}

fn check_told(settings: &Settings, n: u16, size: u16, told: u16) -> Result<(), u16> {
    let special = SPECIAL_POSITIONS[usize::from(settings.config)][usize::from(n)];
    if told >= size {
        Err(11)
    } else if is_short(settings) && special >> told & 1 == 1 {
        Err(20)
    } else if settings.scheduled == NONE {
        Err(18)
    } else {
        Ok(())
    }
}

/// What two bits say at a position of a window of `size` subframes.
pub(super) fn meaning(
    settings: &Settings,
    size: u16,
    (position, cce): (u16, u16),
    b0: u16,
    b1: u16,
) -> Result<ReadingAnswer, u16> {
    if b0 > 1 || b1 > 1 {
        return Err(14);
    }
    if bundles(settings.mode, size) {
        if settings.blocks == 1 && b1 == 1 {
            return Err(14);
        }
        return Ok(ReadingAnswer::bundled(position, cce, b0, b1));
    }
    let of_index = &DELIVERED[usize::from(size - 2)][usize::from(position)];
    match of_index[usize::from(2 * b0 + b1)] {
        NO_ROW => Err(14),
        delivered => Ok(ReadingAnswer::multiplexed(position, cce, delivered.into())),
    }
}

/// The index of the first clash, if there is one, or a refusal and its index.
type Judged = Result<Option<usize>, (u16, usize)>;

fn answer(judged: Judged) -> ClaimsAnswer {
    match judged {
        Ok(None) => ClaimsAnswer::CLEAN,
        Ok(Some(index)) => ClaimsAnswer::clash(index),
        Err((refusal, index)) => ClaimsAnswer::refused(refusal, index),
    }
}

fn in_bytes(settings: &Settings, n: u16, claims: &[u16], scratch: &mut [u8]) -> Judged {
    let places = Places::of(settings, n)?;
    let marks = scratch.get_mut(..places.number()).ok_or((15, 0))?;
    places.check(claims)?;
    marks.fill(0);
    if settings.ports == 2 {
        let is_taken = |claim: &u16| match &mut marks[places.place(*claim)..] {
            [first @ 0, second @ 0, ..] => {
                (*first, *second) = (1, 1);
                false
            }
            _ => true,
        };
        return Ok(claims.iter().position(is_taken));
    }
    let is_taken = |claim: &u16| {
        let mark = &mut marks[places.place(*claim)];
        let was_taken = *mark == 1;
        *mark = 1;
        was_taken
    };
    Ok(claims.iter().position(is_taken))
}

fn in_bits(settings: &Settings, n: u16, claims: &[u16], scratch: &mut [u8]) -> Judged {
    let places = Places::of(settings, n)?;
    let marks = scratch.get_mut(..places.number().div_ceil(8)).ok_or((15, 0))?;
    places.check(claims)?;
    marks.fill(0);
    if settings.ports == 2 {
        let is_taken = |claim: &u16| {
            let place = places.place(*claim);
            // Both bits lie in one byte, but where the first is the last of its byte.
            let (low, high) = ((3u16 << (place & 7)) as u8, (place & 7 == 7) as u8);
            let (at, next) = (place >> 3, (place + 1) >> 3);
            if (marks[at] & low) | (marks[next] & high) != 0 {
                return true;
            }
            marks[at] |= low;
            marks[next] |= high;
            false
        };
        return Ok(claims.iter().position(is_taken));
    }
    let is_taken = |claim: &u16| {
        let place = places.place(*claim);
        let (mark, bit) = (&mut marks[place >> 3], 1 << (place & 7));
        let was_taken = *mark & bit != 0;
        *mark |= bit;
        was_taken
    };
    Ok(claims.iter().position(is_taken))
}

/// Where the resources of a window lie above N1.
struct Places {
    size: u16,
    edges: [u16; 5],
    ports: u16,
}

impl Places {
    #[inline(always)]
    fn of(settings: &Settings, n: u16) -> Result<Self, (u16, usize)> {
        let without_index = |refusal| (refusal, 0);
        check(settings).map_err(without_index)?;
        let size = window_size(settings.config, n).map_err(without_index)?;
        let edges = [0, 8, 20, 32, 44].map(|twelfths| settings.nrb * twelfths / 36);
        Ok(Self { size, edges, ports: settings.ports })
    }

    /// The second port of the last claim has one more.
    #[inline(always)]
    fn number(&self) -> usize {
        usize::from(self.size * self.edges[4] + self.ports - 1)
    }

    /// No claim of the list is bad.
    #[inline(always)]
    fn check(&self, claims: &[u16]) -> Result<(), (u16, usize)> {
        let (size, cces) = (self.size, self.edges[4]);
        let is_bad = |claim: &u16| claim >> 8 >= size || claim & 255 >= cces;
        claims.iter().position(is_bad).map_or(Ok(()), |index| Err((16, index)))
    }

    #[inline(always)]
    fn place(&self, claim: u16) -> usize {
        let (position, cce) = (claim >> 8, claim & 255);
        let p = self.edges[1..4].iter().filter(|edge| cce >= **edge).count();
        usize::from((self.size - position - 1) * self.edges[p] + position * self.edges[p + 1] + cce)
    }
}
