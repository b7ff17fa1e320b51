//! What a handset heard in the window that it answers next, read off its slots; and rules by
//! which the cause of a silence is told wrongly, each in one point.

use crate::model::{bundles, Window};
use crate::{Fed, Handset, Settings, SilenceAnswer, Slot};

/// A window with its positions in time order, earliest first.
pub struct Listener<'a> {
    pub window: &'a Window,
    in_time: Vec<usize>,
}

impl<'a> Listener<'a> {
    pub fn new(window: &'a Window) -> Self {
        let in_time = window.in_time().into_iter().map(usize::from).collect();
        Self { window, in_time }
    }

    /// The window as a handset heard it that answers it next, and what is answered.
    pub fn heard(&'a self, handset: Handset, fed: Fed) -> HeardWindow<'a> {
        assert_eq!((handset.settings.config, handset.next), (self.window.config, self.window.n));
        HeardWindow { window: self.window, in_time: &self.in_time, handset, fed }
    }

    /// How long ago its earliest subframe is.
    pub fn longest(&self) -> usize {
        self.window.k[self.in_time[0]].into()
    }
}

/// A window, what was heard there, and what is answered.
pub struct HeardWindow<'a> {
    pub window: &'a Window,
    in_time: &'a [usize],
    pub handset: Handset,
    pub fed: Fed,
}

/// Grants and releases come by PDCCH.
fn is_pdcch(slot: &Slot) -> bool {
    slot.kind == Slot::GRANT || slot.kind == Slot::RELEASE
}

fn is_block(slot: &Slot) -> bool {
    slot.kind == Slot::BLOCK
}

impl HeardWindow<'_> {
    /// What was heard at a position.
    fn at(&self, position: usize) -> Slot {
        self.handset.past[usize::from(self.window.k[position]) - 1]
    }

    /// What was heard, in time order.
    fn slots(&self) -> impl DoubleEndedIterator<Item = Slot> + '_ {
        self.in_time.iter().map(|position| self.at(*position))
    }

    pub fn is_silent(&self) -> bool {
        self.fed.kind == Fed::SILENT
    }

    /// U: how many PDCCHs were heard.
    pub fn u(&self) -> u16 {
        self.slots().filter(is_pdcch).count() as u16
    }

    /// V: the DAI of the latest of them; 0 of none.
    pub fn v(&self) -> u16 {
        self.slots().rfind(is_pdcch).map_or(0, |slot| slot.dai.into())
    }

    pub fn has_block(&self) -> bool {
        self.slots().any(|slot| is_block(&slot))
    }

    /// The mode that stood when the earliest subframe was fed.
    pub fn own_mode(&self) -> u16 {
        self.mode_at(self.in_time[0])
    }

    fn mode_at(&self, position: usize) -> u16 {
        self.handset.modes >> (self.window.k[position] - 1) & 1
    }

    /// Whether the reply would be bundled in a mode.
    pub fn bundles_in(&self, mode: u16) -> bool {
        bundles(Settings { mode, ..self.handset.settings }, self.window.size())
    }
}

/// The value expected: the DAI of the last of so many PDCCHs if none was lost; 0 of none.
pub fn expected(u: u16) -> u16 {
    match u {
        0 => 0,
        u => (u - 1) % 4 + 1,
    }
}

/// Cause, V and the value expected.
pub type Told = [u16; 3];

const NOT_SILENT: Told = [SilenceAnswer::NOT_SILENT, 0, 0];
const NOTHING_HEARD: Told = [SilenceAnswer::NOTHING_HEARD, 0, 0];

fn miss(v: u16, expected: u16) -> Told {
    [SilenceAnswer::MISS_SHOWN, v, expected]
}

/// A rule by which the cause of a silence is told.
pub type Rule = fn(&HeardWindow) -> Told;

/// Rules that differ from the papers' in one point.
pub const WRONG: [(&str, Rule); 16] = [
    ("the value expected without mod 4", |heard| match right(heard) {
        [SilenceAnswer::MISS_SHOWN, v, _] => miss(v, heard.u()),
        told => told,
    }),
    ("the value expected one on", |heard| match right(heard) {
        [SilenceAnswer::MISS_SHOWN, v, _] => miss(v, expected(heard.u() + 1)),
        told => told,
    }),
    ("V and the value expected exchanged", |heard| {
        let [cause, v, expected] = right(heard);
        [cause, expected, v]
    }),
    ("both values beside every answer", |heard| {
        let [cause, ..] = right(heard);
        [cause, heard.v(), expected(heard.u())]
    }),
    ("nothing heard for every silence", |heard| if_silent(heard, NOTHING_HEARD)),
    ("a miss only if V is the greater", |heard| match right(heard) {
        [SilenceAnswer::MISS_SHOWN, v, expected] if v < expected => NOTHING_HEARD,
        told => told,
    }),
    ("a lone scheduled block is nothing heard", |heard| match heard.u() {
        0 => NOTHING_HEARD,
        _ => right(heard),
    }),
    ("the scheduled block counted in U", |heard| {
        let counted = heard.u() + u16::from(heard.has_block());
        if_silent(heard, of_values(counted, heard.v(), false))
    }),
    ("releases not counted", |heard| {
        let grants = heard.slots().filter(|slot| slot.kind == Slot::GRANT);
        if_silent(heard, of_pdcchs(grants, heard.has_block()))
    }),
    ("V of the last position", |heard| {
        let by_position = (0..heard.in_time.len()).map(|position| heard.at(position));
        if_silent(heard, of_pdcchs(by_position.filter(is_pdcch), heard.has_block()))
    }),
    ("V of the first PDCCH", |heard| {
        let latest_first = heard.slots().rev();
        if_silent(heard, of_pdcchs(latest_first.filter(is_pdcch), heard.has_block()))
    }),
    ("all that is remembered for the window", |heard| {
        let remembered = heard.handset.past.into_iter().rev();
        let block_heard = remembered.clone().any(|slot| is_block(&slot));
        if_silent(heard, of_pdcchs(remembered.filter(is_pdcch), block_heard))
    }),
    ("the standing mode", |heard| in_mode(heard, heard.handset.settings.mode)),
    ("the mode at the last subframe", |heard| {
        let last = heard.in_time.last().expect("a window has subframes");
        in_mode(heard, heard.mode_at(*last))
    }),
    ("a miss told in configuration 0", |heard| match heard.handset.settings.config {
        0 => of_window(heard),
        _ => right(heard),
    }),
    ("a miss told beside a multiplexed reply", |heard| match heard.bundles_in(heard.own_mode()) {
        true => right(heard),
        false => of_window(heard),
    }),
];

/// The papers' rule.
fn right(heard: &HeardWindow) -> Told {
    if_silent(heard, of_window(heard))
}

/// What is told beside a silent answer only.
fn if_silent(heard: &HeardWindow, told: Told) -> Told {
    if heard.is_silent() {
        told
    } else {
        NOT_SILENT
    }
}

/// What is told by U, V and whether a scheduled block was heard, be the answer silent or not.
fn of_values(u: u16, v: u16, block_heard: bool) -> Told {
    let expected = expected(u);
    if u > 0 && v != expected {
        miss(v, expected)
    } else if u == 0 && !block_heard {
        NOTHING_HEARD
    } else {
        NOT_SILENT
    }
}

/// The same by PDCCHs, of which the last has V.
fn of_pdcchs(pdcchs: impl Iterator<Item = Slot>, block_heard: bool) -> Told {
    let (u, v) = pdcchs.fold((0, 0), |(u, _), slot| (u + 1, slot.dai.into()));
    of_values(u, v, block_heard)
}

/// The same by all that the window has.
fn of_window(heard: &HeardWindow) -> Told {
    of_values(heard.u(), heard.v(), heard.has_block())
}

/// What would be told if the window were answered in a mode.
fn in_mode(heard: &HeardWindow, mode: u16) -> Told {
    let reads_the_dai = heard.handset.settings.config != 0 && heard.bundles_in(mode);
    match of_window(heard) {
        [SilenceAnswer::MISS_SHOWN, ..] if !reads_the_dai => NOT_SILENT,
        told => told,
    }
}

/// What was found in windows: how many answers there were of each cause, how many misses by V
/// and the value expected, and for each wrong rule how many windows it tells otherwise.
pub struct Found {
    pub causes: [u64; 3],
    pub misses: [[u64; 5]; 5],
    otherwise: [u64; WRONG.len()],
}

impl Default for Found {
    fn default() -> Self {
        Self { causes: [0; 3], misses: [[0; 5]; 5], otherwise: [0; WRONG.len()] }
    }
}

impl Found {
    /// Holds what is told of a window to the papers' words, and tries the wrong rules.
    pub fn hold(&mut self, listener: &Listener, handset: Handset, given: SilenceAnswer) {
        let heard = self.hold_words(listener, handset, given);
        for ((_, wrong), otherwise) in WRONG.iter().zip(&mut self.otherwise) {
            *otherwise += u64::from(wrong(&heard) != given.told());
        }
    }

    /// Holds what is told of a window to the papers' words.
    pub fn hold_words<'a>(
        &mut self,
        listener: &'a Listener,
        handset: Handset,
        given: SilenceAnswer,
    ) -> HeardWindow<'a> {
        let heard = listener.heard(handset, given.fed);
        let problem = problem(&heard, given.told());
        assert!(
            problem.is_none(),
            "feedback_silence({handset:?}) gives {given:?}: {}",
            problem.unwrap_or_default()
        );
        let [cause, v, expected] = given.told().map(usize::from);
        self.causes[cause] += 1;
        self.misses[v][expected] += u64::from(given.cause == SilenceAnswer::MISS_SHOWN);
        heard
    }

    /// The number of windows.
    pub fn windows(&self) -> u64 {
        self.causes.iter().sum()
    }

    /// Adds what was found in other windows.
    pub fn add(&mut self, other: Self) {
        let add = |all: &mut [u64], more: &[u64]| {
            all.iter_mut().zip(more).for_each(|(number, more)| *number += more);
        };
        add(&mut self.causes, &other.causes);
        add(self.misses.as_flattened_mut(), other.misses.as_flattened());
        add(&mut self.otherwise, &other.otherwise);
    }

    /// How many windows a wrong rule tells otherwise.
    pub fn of_wrong(&self, name: &str) -> u64 {
        let at = WRONG.iter().position(|(each, _)| *each == name).expect("a wrong rule");
        self.otherwise[at]
    }

    /// Shows the rules that tell windows otherwise, with their number, and holds them to be all
    /// but these.
    pub fn assert_caught_all_but(&self, right_here: &[&str]) {
        println!("{} windows, by cause {:?}", self.windows(), self.causes);
        for (name, _) in WRONG {
            let otherwise = self.of_wrong(name);
            println!("{name}: {otherwise} otherwise");
            assert_eq!(otherwise == 0, right_here.contains(&name), "{name}");
        }
    }
}

/// What the papers say of a silence and is not so here.
fn problem(heard: &HeardWindow, [cause, v, value]: Told) -> Option<&'static str> {
    let (u, due) = (heard.u(), expected(heard.u()));
    let is_miss = cause == SilenceAnswer::MISS_SHOWN;
    if heard.is_silent() != (cause != SilenceAnswer::NOT_SILENT) {
        return Some("a cause is given exactly beside a silent answer");
    }
    let nothing_heard = u == 0 && !heard.has_block();
    if (cause == SilenceAnswer::NOTHING_HEARD) != nothing_heard {
        return Some("it is the first exactly if U = 0 and no scheduled block was heard");
    }
    if is_miss != (heard.is_silent() && u > 0 && heard.v() != due) {
        return Some("it is the second exactly if U is above 0 and the two values differ");
    }
    if !is_miss {
        return ((v, value) != (0, 0)).then_some("values without a miss");
    }
    if (v, value) != (heard.v(), due) {
        return Some("V is the DAI of the latest PDCCH, and the other value the one expected");
    }
    if v == value || ![v, value].iter().all(|value| (1..=4).contains(value)) {
        return Some("two values from 1 to 4 that differ");
    }
    let reads_the_dai = heard.handset.settings.config != 0 && heard.bundles_in(heard.own_mode());
    (!reads_the_dai).then_some("a miss is shown in bundled windows of configurations 1 to 6")
}
