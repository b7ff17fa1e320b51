//! The game of a scheduler and the radio, by its closed form.

use crate::GameAnswer;

/// Who can force the outcome, under the signature of the C call. The radio can if it may lose the
/// first four grants and there is a fifth to pass: DAI 1 comes again.
#[inline(never)]
pub extern "C" fn plain_game(size: u16, grants: u16, losses: u16) -> GameAnswer {
    if size.wrapping_sub(1) > 8 || grants > size || losses > 9 {
        GameAnswer::refused(27)
    } else {
        GameAnswer::of(grants >= 5 && losses >= 4)
    }
}
