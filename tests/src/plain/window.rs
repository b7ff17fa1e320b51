//! Windows both ways: the one of an uplink subframe, and the one that a downlink
//! subframe is in. Both are lookups in tables that the compiler makes of K.

use super::{check, K};
use crate::{AnsweredAnswer, Settings, WindowAnswer};

/// The window by configuration and uplink subframe; refused 7 where there is none.
static WINDOWS: [[WindowAnswer; 10]; 7] = windows();

/// The answer by configuration and downlink subframe; refused 7 for an uplink one.
static ANSWERED: [[AnsweredAnswer; 10]; 7] = answered();

/// The window of an uplink subframe, under the signature of the C call.
#[inline(never)]
pub extern "C" fn plain_window(settings: Settings, n: u16) -> WindowAnswer {
    match check(&settings) {
        Err(refusal) => WindowAnswer::refused(refusal),
        Ok(()) => match WINDOWS[usize::from(settings.config)].get(usize::from(n)) {
            None => WindowAnswer::refused(7),
            Some(window) => *window,
        },
    }
}

/// The uplink subframe that answers for a downlink one, under the signature of
/// the C call.
#[inline(never)]
pub extern "C" fn plain_answered(settings: Settings, subframe: u16) -> AnsweredAnswer {
    match check(&settings) {
        Err(refusal) => AnsweredAnswer::refused(refusal),
        Ok(()) => match ANSWERED[usize::from(settings.config)].get(usize::from(subframe)) {
            None => AnsweredAnswer::refused(7),
            Some(answer) => *answer,
        },
    }
}

const fn windows() -> [[WindowAnswer; 10]; 7] {
    let mut windows = [[WindowAnswer::refused(7); 10]; 7];
    let mut config = 0;
    while config < 7 {
        let mut n = 0;
        while n < 10 {
            if !K[config][n].is_empty() {
                windows[config][n] = window(K[config][n]);
            }
            n += 1;
        }
        config += 1;
    }
    windows
}

/// A position comes as late in time as there are greater k.
const fn window(row: &[u8]) -> WindowAnswer {
    let mut answer = WindowAnswer { size: row.len() as u16, ..WindowAnswer::refused(0) };
    let mut position = 0;
    while position < row.len() {
        let (mut before, mut other) = (0, 0);
        while other < row.len() {
            before += (row[other] > row[position]) as usize;
            other += 1;
        }
        answer.k[position] = row[position] as u16;
        answer.order[before] = position as u16;
        position += 1;
    }
    answer
}

const fn answered() -> [[AnsweredAnswer; 10]; 7] {
    let mut answers = [[AnsweredAnswer::refused(7); 10]; 7];
    let mut config = 0;
    while config < 7 {
        let mut n = 0;
        while n < 10 {
            let mut position = 0;
            while position < K[config][n].len() {
                let k = K[config][n][position] as usize;
                let (n16, k16, position16) = (n as u16, k as u16, position as u16);
                answers[config][(n + 20 - k) % 10] = AnsweredAnswer::of(n16, k16, position16);
                position += 1;
            }
            n += 1;
        }
        config += 1;
    }
    answers
}
