//! What the programs `replay`, `replay_text`, `spell` and `game` print for their input.

use super::game::Game;
use super::replay::Played;
use super::Model;

/// Enough for every trace, so that 23 is never met.
const ROOM: usize = 65_520;

impl Model {
    /// Standard output and standard error of `replay`.
    pub fn replay_program(&self, input: &[u8]) -> (Vec<u8>, String) {
        match self.play(input, ROOM) {
            Err(refusal) => (Vec::new(), refused_line(refusal)),
            Ok(Played { windows, stopped }) => {
                let bytes = windows.into_iter().flat_map(|(_, window)| window).collect();
                (bytes, stopped.map(stopped_line).unwrap_or_default())
            }
        }
    }

    /// Standard output of `replay_text`; it prints nothing else.
    pub fn replay_text(&self, input: &[u8]) -> String {
        match self.play(input, ROOM) {
            Err(refusal) => refused_line(refusal),
            Ok(Played { windows, stopped }) => {
                let lines = windows.into_iter().map(window_line);
                lines.chain(stopped.map(stopped_line)).collect()
            }
        }
    }

    /// Standard output and standard error of `spell`.
    pub fn spell_program(&self, input: &[u8]) -> (Vec<u8>, String) {
        match self.spelling(input) {
            Ok(spelled) => (spelled, String::new()),
            Err((refusal, None)) => (Vec::new(), refused_line(refusal)),
            Err((refusal, Some(record))) => (Vec::new(), stopped_line((refusal, record))),
        }
    }

    /// Standard output of `game`; it prints nothing else.
    pub fn game_program(&self, input: &[u8]) -> String {
        match input {
            [digit @ b'1'..=b'9', b'\n'] => game_text((digit - b'0').into()),
            _ => refused_line(27),
        }
    }
}

/// Who can force the outcome for a window of this size: a line for each number of grants, and in
/// it a letter for each number of losses. The last line is the same for every window.
fn game_text(size: u16) -> String {
    let mut text = format!(
        "Window size {size}: R the radio can force a reply that hides a loss, S the scheduler can \
         prevent it\nA reply hides a loss if a grant before the last one heard was lost; a release \
         is a grant here\nL   0 1 2 3 4 5 6 7 8 9\n"
    );
    for grants in 0..=size {
        text += &format!("G {grants}");
        for losses in 0..=9 {
            let game = Game { size, grants, losses };
            text += if game.is_forced(&[]) { " R" } else { " S" };
        }
        text += "\n";
    }
    text + "Configuration 5 (size 9): a reply hides 0, 4 or 8 losses; 0 with at most 4 grants or 3 \
           losses\n"
}

fn refused_line(refusal: u16) -> String {
    format!("refused {refusal}\n")
}

fn stopped_line((refusal, record): (u16, usize)) -> String {
    format!("refused {refusal} at record {record}\n")
}

/// The frame is counted from 0, as the records are.
fn window_line((record, window): (usize, [u8; 8])) -> String {
    let [n, kind, low, high, b0, b1, ..] = window;
    let name = ["silent", "bundled", "multiplexed"][usize::from(kind)];
    let reply = match kind {
        0 => String::new(),
        _ => format!(", resource {}, bits {b0} {b1}", u16::from_le_bytes([low, high])),
    };
    format!("frame {} subframe {n}: {name}{reply}\n", record / 10)
}
