//! However the losses fall, the station hears the truth: runs of a handset in
//! which every window meets every pattern of grants not sent, lost and heard.
//! Each reply is read, and the reading is held to what was sent, heard and
//! decoded, in the words of the papers; so is the cause of each silence. The model
//! gives the windows, the symbol of a state and the positions that are A in every
//! state with one symbol.

use feedback_tests::model::{bundles, edge, frame, Model, Window};
use feedback_tests::random::Random;
use feedback_tests::{
    feed, make, reading, resource, silence, Fed, Grant, Handset, ReadingAnswer, Settings,
    SilenceAnswer, NOT_TOLD,
};
use std::cmp::Reverse;

/// N_RB and N1 of the cells.
const CELLS: [(u16, u16); 3] = [(6, 0), (50, 10), (110, 2047)];

/// What the station sent in a subframe, and whether it was heard.
#[derive(Clone, Copy, Debug, PartialEq, Eq)]
enum Sent {
    Nothing,
    Lost(Grant),
    Heard(Grant),
}

impl Sent {
    fn heard(self) -> Option<Grant> {
        match self {
            Self::Heard(grant) => Some(grant),
            _ => None,
        }
    }

    fn is_lost(self) -> bool {
        matches!(self, Self::Lost(_))
    }
}

/// The fates of one position by number: 0 for nothing sent, 1 for a grant that
/// is lost, 2 and 3 for one heard with one block, 4 to 7 for one with two. Bit 0
/// then says if the first block is decoded, and bit 1 if the second is.
fn fates(blocks: u16) -> u64 {
    match blocks {
        1 => 4,
        _ => 8,
    }
}

fn decoded(grant: Grant, block: usize) -> bool {
    let sole = grant.blocks == 1;
    let flag = if sole || block == 0 { grant.first } else { grant.second };
    flag != 0
}

/// How the patterns of a run are counted through: in whole, or as nothing, lost
/// and heard with what is decoded at random, as many times over.
#[derive(Clone, Copy)]
enum Patterns {
    Whole,
    Thirds { times: u64 },
}

/// One run from a fresh handset.
struct Run<'a> {
    model: &'a Model,
    settings: Settings,
    windows: Vec<&'a Window>,
    patterns: Patterns,
    sent: Vec<Sent>,
    random: Random,
    checked: u64,
    refused: u64,
}

/// The frames before every window lies whole after the start.
const FIRST_FRAMES: u64 = 2;

/// A number without a common divisor with any number of patterns.
const STRIDE: u64 = 7919;

impl<'a> Run<'a> {
    fn new(model: &'a Model, settings: Settings, patterns: Patterns, seed: u64) -> Self {
        let of_config = |window: &&Window| window.config == settings.config;
        let windows = model.windows().iter().filter(of_config).collect();
        let (sent, random) = (Vec::new(), Random::new(seed));
        Self { model, settings, windows, patterns, sent, random, checked: 0, refused: 0 }
    }

    /// How many values a position has in the count of the patterns.
    fn base(&self) -> u64 {
        match self.patterns {
            Patterns::Whole => fates(self.settings.blocks),
            Patterns::Thirds { .. } => 3,
        }
    }

    fn number_of_patterns(&self, window: &Window) -> u64 {
        self.base().pow(window.size().into())
    }

    fn frames(&self) -> u64 {
        let longest = self.windows.iter().map(|window| self.number_of_patterns(window)).max();
        let times = match self.patterns {
            Patterns::Whole => 1,
            Patterns::Thirds { times } => times,
        };
        FIRST_FRAMES + longest.expect("a window") * times
    }

    /// Fills the run: in each frame, each window has its next pattern, no two of
    /// them in step. Shows how many patterns were used in windows fed whole.
    fn fill(&mut self) -> u64 {
        let frames = self.frames();
        self.sent = vec![Sent::Nothing; 10 * frames as usize];
        let mut used = 0;
        for window in self.windows.clone() {
            let patterns = self.number_of_patterns(window);
            let mut seen = vec![false; patterns as usize];
            // Windows past the end of the list count too.
            for frame in 0..frames + FIRST_FRAMES {
                let pattern = (frame * STRIDE + u64::from(window.n) * 1013) % patterns;
                let fates = self.fates_of(pattern, window.size());
                self.send(window, (10 * frame) as usize, &fates);
                if (FIRST_FRAMES..frames).contains(&frame) {
                    seen[pattern as usize] = true;
                }
            }
            assert!(seen.iter().all(|each| *each), "{window:?}: a pattern that was not used");
            used += patterns;
        }
        used
    }

    /// The digits of a pattern, one for each position, as fates.
    fn fates_of(&mut self, pattern: u64, size: u16) -> Vec<u64> {
        let base = self.base();
        let digit = |position| pattern / base.pow(position) % base;
        let digits: Vec<u64> = (0..u32::from(size)).map(digit).collect();
        match self.patterns {
            Patterns::Whole => digits,
            Patterns::Thirds { .. } => self.with_any_results(digits),
        }
    }

    /// Nothing, lost, or heard in any way. Every other time all is decoded but at
    /// one position, or else hardly any reply would say ACK.
    fn with_any_results(&mut self, mut thirds: Vec<u64>) -> Vec<u64> {
        let heard = (fates(self.settings.blocks) - 2) as usize;
        let size = thirds.len();
        let any_at = self.random.below(2 * size);
        for (position, fate) in thirds.iter_mut().enumerate().filter(|(_, third)| **third == 2) {
            let results = self.random.below(heard);
            let all_decoded = any_at < size && position != any_at;
            *fate = 2 + results as u64;
            if all_decoded {
                *fate |= if *fate < 4 { 1 } else { 3 };
            }
        }
        thirds
    }

    /// Sends the grants of the window of a frame, in time order: the j-th of them
    /// carries DAI ((j − 1) mod 4) + 1. Before the start nothing is sent, and what
    /// would be past the end is not fed.
    fn send(&mut self, window: &Window, frame_start: usize, fates: &[u64]) {
        let mut in_time_order: Vec<(u16, u64)> =
            window.k.iter().copied().zip(fates.iter().copied()).collect();
        in_time_order.sort_by_key(|(k, _)| Reverse(*k));
        let mut j = 0;
        for (k, fate) in in_time_order {
            let uplink = frame_start + usize::from(window.n);
            let Some(s) = uplink.checked_sub(k.into()) else { continue };
            if fate == 0 {
                continue;
            }
            j += 1;
            let grant = self.grant(fate, (j - 1) % 4 + 1);
            if let Some(sent) = self.sent.get_mut(s) {
                assert_eq!(*sent, Sent::Nothing, "subframe {s} is in two windows");
                *sent = if fate == 1 { Sent::Lost(grant) } else { Sent::Heard(grant) };
            }
        }
    }

    /// A grant; of the flags that say nothing, any value will do.
    fn grant(&mut self, fate: u64, dai: u16) -> Grant {
        let Settings { nrb, blocks, .. } = self.settings;
        let random = &mut self.random;
        let decoded = [1, 1, 2, 256, 65535];
        let mut flag = |set: bool| if set { random.one_of(&decoded) } else { 0 };
        let (first, second) = (flag(fate & 1 == 1), flag(fate & 2 == 2));
        let cces = edge(nrb, 4);
        let cce = random.below16(cces);
        let cce = random.one_of(&[cce, cce, cce, 0, cces - 1]);
        let (blocks, second) = match fate {
            1 => (1 + random.below16(blocks), 0),
            2 | 3 => (1, random.flag()),
            _ => (2, second),
        };
        Grant { blocks, first, second, cce, dai }
    }

    /// Feeds the run and checks every answer.
    fn check(&mut self) {
        let made = make(self.settings);
        assert_eq!((made.refusal, made.handset.next), (0, 0), "{:?}", self.settings);
        let mut handset = made.handset;
        for s in 0..self.sent.len() {
            if self.random.once_in(8) {
                self.check_refused(s, handset);
            }
            let fed = feed(handset, self.sent[s].heard());
            assert_eq!(fed.refusal, 0, "{:?}, s {s}: {:?}, {fed:?}", self.settings, self.sent[s]);
            let answer = match frame(self.settings.config).as_bytes()[s % 10] {
                b'U' => silence(handset),
                _ => SilenceAnswer::not_silent(fed),
            };
            assert_eq!(answer.fed, fed, "{:?}, s {s}: with a cause, without", self.settings);
            self.check_answer(s, answer);
            handset = fed.handset;
        }
    }

    /// A grant with one thing wrong is refused, and the handset is left.
    fn check_refused(&mut self, s: usize, handset: Handset) {
        let Settings { config, nrb, blocks, .. } = self.settings;
        let valid = Grant { blocks: 1, first: 1, second: 1, cce: 0, dai: 1 };
        let (number, grant) = if frame(config).as_bytes()[s % 10] == b'U' {
            (9, valid)
        } else {
            self.random.one_of(&[
                (10, Grant { blocks: 0, ..valid }),
                (10, Grant { blocks: blocks + 1, ..valid }),
                (11, Grant { cce: edge(nrb, 4), ..valid }),
                (12, Grant { dai: 0, ..valid }),
                (12, Grant { dai: 5, ..valid }),
            ])
        };
        let fed = feed(handset, Some(grant));
        assert_eq!(fed, Fed::refused(number, handset), "{:?}, s {s}: {grant:?}", self.settings);
        self.refused += 1;
    }

    fn check_answer(&mut self, s: usize, answer: SilenceAnswer) {
        let SilenceAnswer { fed, cause, v, expected } = answer;
        let n = (s % 10) as u16;
        let window = self.windows.iter().find(|window| window.n == n);
        let without_cause = |kind| SilenceAnswer::not_silent(Fed::answer(kind, fed.handset));
        match (window, frame(self.settings.config).as_bytes()[s % 10]) {
            (None, b'U') => assert_eq!(answer, without_cause(Fed::NO_WINDOW), "s {s}"),
            (None, _) => assert_eq!(answer, without_cause(Fed::TAKEN), "s {s}"),
            (Some(window), _) => {
                let positions: Vec<(u16, Sent)> = window
                    .k
                    .iter()
                    .map(|k| {
                        (*k, s.checked_sub(usize::from(*k)).map_or(Sent::Nothing, |s| self.sent[s]))
                    })
                    .collect();
                let problem = match bundles(self.settings, window.size()) {
                    true => self.bundled(window, &positions, fed),
                    false => self.multiplexed(window, &positions, fed),
                };
                let problem = problem.or_else(|| self.cause(window, &positions, answer));
                assert!(
                    problem.is_none(),
                    "{:?}, s {s}, n {n}, positions (k, sent) {positions:?}: the answer is kind {}, \
                     resource {}, second {}, bits {} {}, cause {cause}, V {v}, expected {expected}, \
                     its reading {:?}: {}",
                    self.settings,
                    fed.kind,
                    fed.resource,
                    fed.second,
                    fed.b0,
                    fed.b1,
                    reading(self.settings, n, NOT_TOLD, fed.resource, fed.b0, fed.b1),
                    problem.unwrap_or_default()
                );
                self.checked += 1;
            }
        }
    }

    /// What the papers say of the cause of a silence and is not so here.
    fn cause(
        &self,
        window: &Window,
        positions: &[(u16, Sent)],
        answer: SilenceAnswer,
    ) -> Option<&'static str> {
        let SilenceAnswer { fed, cause, v, expected } = answer;
        if (cause != SilenceAnswer::NOT_SILENT) != (fed.kind == Fed::SILENT) {
            return Some("a cause is given exactly beside a silent answer");
        }
        let heard = |sent: &Sent| sent.heard().is_some();
        if (cause == SilenceAnswer::NOTHING_HEARD) == positions.iter().any(|(_, sent)| heard(sent))
        {
            return Some("it is the first exactly if nothing was heard in the window");
        }
        if cause > SilenceAnswer::MISS_SHOWN {
            return Some("a cause is 0, 1 or 2");
        }
        if cause != SilenceAnswer::MISS_SHOWN {
            return ((v, expected) != (0, 0)).then_some("values without a miss");
        }
        if self.settings.config == 0 || !bundles(self.settings, window.size()) {
            return Some("a miss is shown in bundled windows of configurations 1 to 6");
        }
        let latest = positions.iter().filter(|(_, sent)| heard(sent)).min_by_key(|(k, _)| *k);
        let (latest, dai) = latest.map(|(k, sent)| (*k, sent.heard().map(|grant| grant.dai)))?;
        if Some(v) != dai || v == expected || !(1..=4).contains(&expected) {
            return Some("V is the DAI of the last heard grant, and another value was expected");
        }
        let lost = positions.iter().filter(|(k, sent)| *k > latest && sent.is_lost()).count();
        let beyond = usize::from((v + 4 - expected) % 4);
        let counted = if window.size() <= 4 { lost } else { lost % 4 };
        (beyond != counted).then_some("V is beyond the value expected by the lost ones, modulo 4")
    }

    /// What the papers say of a bundled window and is not so here.
    fn bundled(
        &self,
        window: &Window,
        positions: &[(u16, Sent)],
        fed: Fed,
    ) -> Option<&'static str> {
        let Settings { blocks, .. } = self.settings;
        // The window's grants in time order.
        let mut grants: Vec<(usize, u16, Sent)> = Vec::new();
        for (position, (k, sent)) in positions.iter().enumerate() {
            if *sent != Sent::Nothing {
                grants.push((position, *k, *sent));
            }
        }
        grants.sort_by_key(|(_, k, _)| Reverse(*k));
        let last = grants.iter().rposition(|(_, _, sent)| sent.heard().is_some());
        let lost_before_last = last.map(|last| {
            let before = grants[..last].iter();
            before.filter(|(_, _, sent)| sent.is_lost()).count()
        });
        if ![Fed::BUNDLED, Fed::SILENT].contains(&fed.kind) {
            return Some("neither a bundled reply nor silent");
        }
        let reply_is_due = lost_before_last.is_some_and(|lost| [0, 4, 8].contains(&lost));
        if (fed.kind == Fed::BUNDLED) != reply_is_due {
            return Some("a reply is sent exactly when a grant was heard and 0, 4 or 8 were lost");
        }
        if !reply_is_due {
            return (fed != Fed::answer(Fed::SILENT, fed.handset)).then_some("silent with values");
        }
        let (position, _, sent) = grants[last.expect("a heard grant")];
        let (position, grant) = (position as u16, sent.heard().expect("a heard grant"));
        let due = resource(self.settings, window.n, position, grant.cce);
        if due.refusal != 0 || fed.resource != due.resource {
            return Some("the resource is that of the last heard grant");
        }
        let second = if self.settings.ports == 2 { fed.resource + 1 } else { 0 };
        if (fed.second, due.second) != (second, second) {
            return Some("a second port has the resource one above, and one port has no second");
        }
        let read = reading(self.settings, window.n, NOT_TOLD, fed.resource, fed.b0, fed.b1);
        if read != ReadingAnswer::bundled(position, grant.cce, fed.b0, fed.b1) {
            return Some("it is read as the last heard grant, with the reply's bits");
        }
        let heard: Vec<Grant> = grants.iter().filter_map(|(_, _, sent)| sent.heard()).collect();
        for (block, bit) in [fed.b0, fed.b1].into_iter().enumerate().take(blocks.into()) {
            if bit != u16::from(heard.iter().all(|grant| decoded(*grant, block))) {
                return Some("a block's bit is ACK exactly when every heard grant decoded it");
            }
        }
        (blocks == 1 && fed.b1 != 0).then_some("a second bit in a one-bit reply")
    }

    /// What the papers say of a multiplexed window and is not so here.
    fn multiplexed(
        &self,
        window: &Window,
        positions: &[(u16, Sent)],
        fed: Fed,
    ) -> Option<&'static str> {
        let is_a = |grant: Grant| decoded(grant, 0) && decoded(grant, 1);
        let letter = |(_, sent): &(u16, Sent)| match sent.heard() {
            None => 'D',
            Some(grant) if is_a(grant) => 'A',
            Some(_) => 'N',
        };
        let state: String = positions.iter().map(letter).collect();
        if ![Fed::MULTIPLEXED, Fed::SILENT].contains(&fed.kind) {
            return Some("neither a multiplexed reply nor silent");
        }
        let reply_is_due = positions.iter().any(|(_, sent)| sent.heard().is_some());
        if (fed.kind == Fed::MULTIPLEXED) != reply_is_due {
            return Some("a symbol is sent exactly when a grant was heard");
        }
        if !reply_is_due {
            return (fed != Fed::answer(Fed::SILENT, fed.handset)).then_some("silent with values");
        }
        let Some(symbol) = self.model.symbol(&state) else {
            return Some("the model has no symbol");
        };
        let Some(grant) = positions[usize::from(symbol.index)].1.heard() else {
            return Some("the index is always a heard position");
        };
        let due = resource(self.settings, window.n, symbol.index, grant.cce);
        let bits = (symbol.b0, symbol.b1);
        if due.refusal != 0 || fed.resource != due.resource || (fed.b0, fed.b1) != bits {
            return Some("the symbol of the state is sent");
        }
        if fed.second != 0 {
            return Some("one port has no second resource");
        }
        let read = reading(self.settings, window.n, NOT_TOLD, fed.resource, fed.b0, fed.b1);
        let delivered = self.model.delivered(window.size(), symbol).expect("a state that sends it");
        if read != ReadingAnswer::multiplexed(symbol.index, grant.cce, delivered) {
            return Some(
                "it is read as the grant at its index, delivered for exactly the positions",
            );
        }
        let wrongly = |(position, (_, sent)): (usize, &(u16, Sent))| {
            read.delivered >> position & 1 == 1 && !sent.heard().is_some_and(is_a)
        };
        let mut by_position = positions.iter().enumerate();
        (read.delivered >> window.size() != 0 || by_position.any(wrongly))
            .then_some("nothing is delivered that was not decoded")
    }
}

/// The mode and the number of ports of a cell: two ports are for bundling.
const MODE_AND_PORTS: [(u16, u16); 3] = [(0, 1), (0, 2), (1, 1)];

/// Runs of one configuration in both modes, if it has both, and with two ports, in all
/// cells; of configuration 5, whose patterns are many, one cell has two ports. Shows how many
/// windows were checked.
fn hold(configs: &[u16], blocks: u16, patterns: Patterns) -> u64 {
    let model = Model::new();
    let (mut checked, mut refused, mut used) = (0, 0, 0);
    for config in configs {
        for (mode, ports) in MODE_AND_PORTS {
            let cells = match (config, mode, ports) {
                (5, 1, _) => &[],
                (5, _, 2) => &CELLS[1..2],
                _ => &CELLS[..],
            };
            for (nrb, n1) in cells {
                let settings = Settings::plain(*config, *nrb, *n1, mode, blocks);
                let settings = settings.with_ports(ports);
                let mut run = Run::new(&model, settings, patterns, used);
                used += run.fill();
                run.check();
                assert_eq!(run.checked, run.frames() * run.windows.len() as u64);
                checked += run.checked;
                refused += run.refused;
            }
        }
    }
    println!("{checked} windows checked, {used} patterns, {refused} refused feeds");
    assert!(refused > checked / 8);
    checked
}

/// All configurations but 5, one block: 4^M patterns. A run lasts as long as the
/// patterns of its longest window, and two frames more.
#[test]
fn every_pattern_of_one_block() {
    let frames = |longest: u32| 2 + 4u64.pow(longest);
    let windows = 4 * frames(1) + 4 * frames(2) + 2 * frames(4) + 3 * frames(3) + 2 * frames(4);
    let checked = hold(&[0, 1, 2, 3, 4, 6], 1, Patterns::Whole);
    assert_eq!(checked, (windows + 5 * frames(1)) * 3 * 3);
}

/// All configurations but 5, two blocks: 8^M patterns.
#[test]
fn every_pattern_of_two_blocks() {
    let frames = |longest: u32| 2 + 8u64.pow(longest);
    let windows = 4 * frames(1) + 4 * frames(2) + 2 * frames(4) + 3 * frames(3) + 2 * frames(4);
    let checked = hold(&[0, 1, 2, 3, 4, 6], 2, Patterns::Whole);
    assert_eq!(checked, (windows + 5 * frames(1)) * 3 * 3);
}

/// Configuration 5, one block: 4^9 patterns of its window of nine.
#[test]
fn every_pattern_of_one_block_in_configuration_5() {
    let checked = hold(&[5], 1, Patterns::Whole);
    assert_eq!(checked, (2 + 262_144) * (3 + 1));
}

/// Configuration 5, two blocks: 3^9 patterns of nothing, lost and heard, ten
/// times over, with other results each time.
#[test]
fn every_pattern_of_two_blocks_in_configuration_5() {
    let checked = hold(&[5], 2, Patterns::Thirds { times: 10 });
    assert_eq!(checked, (2 + 10 * 19_683) * (3 + 1));
}
