//! The game of a scheduler and the radio in one window, by its whole tree. A play is a list of
//! its subframes in time order, and who won is worked out at its end from that list alone: the
//! grants, the DAI of each, which of them were heard, and what a handset replies. Nothing is
//! counted along the way but what the two may do next.

use super::handset::dai_of;
use super::Model;
use crate::GameAnswer;

/// What became of a subframe.
#[derive(Clone, Copy, Debug, PartialEq, Eq, Hash)]
pub enum Turn {
    /// The scheduler held.
    Held,
    /// It granted, and the radio passed the grant.
    Passed,
    /// It granted, and the radio lost the grant.
    Lost,
}

/// What the two are given: the size of the window, the number of grants that the scheduler must
/// end with, and the most that the radio may lose.
#[derive(Clone, Copy, Debug, PartialEq, Eq)]
pub struct Game {
    pub size: u16,
    pub grants: u16,
    pub losses: u16,
}

/// A grant of a play, with its DAI.
#[derive(Clone, Copy, Debug, PartialEq, Eq)]
pub struct Granted {
    /// In which subframe of the window, from 0.
    pub subframe: usize,
    pub dai: u16,
    pub is_heard: bool,
}

impl Game {
    /// The game of these numbers, unless they are refused.
    pub fn of(size: u16, grants: u16, losses: u16) -> Option<Self> {
        let is_game = (1..=9).contains(&size) && (0..=size).contains(&grants) && losses <= 9;
        is_game.then_some(Self { size, grants, losses })
    }

    /// All games, by size, then grants, then losses.
    pub fn all() -> impl Iterator<Item = Self> {
        let sizes = 1..=9;
        let grants = sizes.flat_map(|size| (0..=size).map(move |grants| (size, grants)));
        grants.flat_map(|(size, grants)| (0..=9).map(move |losses| Self { size, grants, losses }))
    }

    /// Whether the radio can force that a play that goes on from here is won.
    pub fn is_forced(&self, played: &[Turn]) -> bool {
        self.is_forced_by(&hides_a_loss, played)
    }

    /// The same where another rule says which plays are won. The scheduler moves first in each
    /// subframe, and the radio sees the move: each move must have an answer.
    pub fn is_forced_by(&self, wins: &dyn Fn(&[Turn]) -> bool, played: &[Turn]) -> bool {
        if self.is_over(played) {
            return wins(played);
        }
        let forces = |turn: &Turn| self.is_forced_by(wins, &[played, &[*turn]].concat());
        self.moves(played).iter().all(|answers| answers.iter().any(forces))
    }

    pub fn is_over(&self, played: &[Turn]) -> bool {
        played.len() == usize::from(self.size)
    }

    /// The moves of the scheduler in the next subframe, each as what the radio may make of it.
    /// The scheduler holds unless every subframe left is needed for a grant, and grants unless
    /// none is missing. The radio has no part in what is held, passes any grant, and loses one
    /// unless it has lost as many as it may.
    pub fn moves(&self, played: &[Turn]) -> Vec<Vec<Turn>> {
        let granted = played.iter().filter(|turn| **turn != Turn::Held).count();
        let lost = played.iter().filter(|turn| **turn == Turn::Lost).count();
        let left = usize::from(self.size) - played.len();
        let missing = usize::from(self.grants) - granted;
        let mut moves = Vec::new();
        if missing < left {
            moves.push(vec![Turn::Held]);
        }
        if missing > 0 {
            let may_lose = lost < usize::from(self.losses);
            let answers = [Turn::Passed, Turn::Lost].into_iter();
            moves.push(answers.filter(|turn| may_lose || *turn != Turn::Lost).collect());
        }
        moves
    }

    /// An answer to a move by which the radio still forces that the play is won, if it has one;
    /// otherwise any.
    pub fn best_of_the_radio(&self, played: &[Turn], answers: &[Turn]) -> Turn {
        let forces = |turn: &&Turn| self.is_forced(&[played, &[**turn]].concat());
        *answers.iter().find(forces).unwrap_or(&answers[0])
    }

    /// A move after which no answer of the radio forces that the play is won, if the scheduler
    /// has one; otherwise any.
    pub fn best_of_the_scheduler(&self, played: &[Turn]) -> Vec<Turn> {
        let forces = |turn: &Turn| self.is_forced(&[played, &[*turn]].concat());
        let moves = self.moves(played);
        let prevents = |answers: &&Vec<Turn>| !answers.iter().any(forces);
        moves.iter().find(prevents).unwrap_or(&moves[0]).clone()
    }
}

/// The grants of a play in time order. The DAIs go 1, 2, 3, 4 and again 1, lost ones counted.
pub fn grants_of(play: &[Turn]) -> Vec<Granted> {
    let granted = play.iter().enumerate().filter(|(_, turn)| **turn != Turn::Held);
    let with_dai = granted.zip([1, 2, 3, 4].into_iter().cycle());
    let grant = |((subframe, turn), dai): ((usize, &Turn), u16)| Granted {
        subframe,
        dai,
        is_heard: *turn == Turn::Passed,
    };
    with_dai.map(grant).collect()
}

/// Whether a bundled reply is sent for the window of a play: U is the number of heard grants, and
/// V the DAI of the heard one latest in time. Silent are U = 0 and a V that is not the DAI of the
/// U-th grant.
pub fn replies(play: &[Turn]) -> bool {
    let grants = grants_of(play);
    let heard: Vec<&Granted> = grants.iter().filter(|grant| grant.is_heard).collect();
    match heard.last() {
        None => false,
        Some(latest) => Some(latest.dai) == dai_of(heard.len()),
    }
}

/// How many grants before the last heard one were lost; none where none is heard.
pub fn lost_before_the_last_heard(play: &[Turn]) -> usize {
    let grants = grants_of(play);
    let last_heard = grants.iter().rposition(|grant| grant.is_heard);
    grants[..last_heard.unwrap_or(0)].iter().filter(|grant| !grant.is_heard).count()
}

/// Whether the radio has won a play: a reply is sent though a grant before the last heard one was
/// lost.
pub fn hides_a_loss(play: &[Turn]) -> bool {
    replies(play) && lost_before_the_last_heard(play) > 0
}

impl Model {
    pub fn game(&self, size: u16, grants: u16, losses: u16) -> GameAnswer {
        match Game::of(size, grants, losses) {
            None => GameAnswer::refused(27),
            Some(game) => GameAnswer::of(game.is_forced(&[])),
        }
    }
}
