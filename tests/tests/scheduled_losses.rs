//! However the losses fall, the station hears the truth, with a schedule too: runs
//! of a handset in which every window meets every pattern of grants, releases and
//! at most one scheduled block, not sent, lost and heard. In special subframes that
//! are too short for data the station sends releases only. It is told where the block
//! was sent, heard or not. In some runs the mode changes between the feeds, and each window
//! is answered and read in its own mode. Each reply and its reading are held to what the
//! papers say of what was sent, heard and decoded. The model gives the windows, the
//! symbol of a state and the positions that are A in every state with one symbol;
//! beside this, the engine's answers are compared with the model's own.

use feedback_tests::compare::Comparison;
use feedback_tests::model::{bundles, edge, is_short, is_uplink, Model, Window};
use feedback_tests::random::Random;
use feedback_tests::{
    feed, make, reading, resource, Block, Changed, Fed, Grant, Handset, Heard, ReadingAnswer,
    Release, Settings, NONE, NOT_TOLD,
};
use std::cmp::Reverse;

/// The cells, of which configuration, mode and blocks are set later.
const CELLS: [Settings; 3] = [cell(6, 1, 0), cell(50, 10, 9), cell(110, 2047, 3)];

/// Cells with special subframes that are too short for data.
const SHORT_CELLS: [Settings; 4] = [
    cell(6, 1, 0).with_special(0, 0),
    cell(50, 10, 9).with_special(0, 5),
    cell(110, 2047, 3).with_special(1, 0),
    cell(50, 10, 9).with_special(1, 4),
];

const fn cell(nrb: u16, n1: u16, scheduled: u16) -> Settings {
    Settings::plain(0, nrb, n1, 0, 1).with_scheduled(scheduled)
}

/// What the station sent in a subframe, with the results it has if it is heard.
#[derive(Clone, Copy, Debug, PartialEq, Eq)]
struct Sent {
    what: Heard,
    lost: bool,
}

impl Sent {
    const NOTHING: Self = Self { what: Heard::Nothing, lost: false };

    fn heard(self) -> Heard {
        match self.lost {
            true => Heard::Nothing,
            false => self.what,
        }
    }

    fn is_heard(self) -> bool {
        self.heard() != Heard::Nothing
    }

    fn is_block(self) -> bool {
        matches!(self.what, Heard::Block(_))
    }

    /// The first CCE of what was sent by PDCCH.
    fn cce(self) -> Option<u16> {
        match self.what {
            Heard::Grant(Grant { cce, .. }) | Heard::Release(Release { cce, .. }) => Some(cce),
            Heard::Nothing | Heard::Block(_) => None,
        }
    }
}

/// Whether a block was decoded: a sole one stands for both, and where there is no
/// block, as in a release, none failed.
fn decoded(heard: Heard, block: usize) -> bool {
    let (blocks, first, second) = match heard {
        Heard::Grant(Grant { blocks, first, second, .. }) => (blocks, first, second),
        Heard::Block(Block { blocks, first, second }) => (blocks, first, second),
        Heard::Nothing | Heard::Release(_) => return true,
    };
    let flag = if blocks == 1 || block == 0 { first } else { second };
    flag != 0
}

/// What becomes of the transport blocks that a position carries.
#[derive(Clone, Copy, Debug)]
enum Results {
    Lost,
    One(bool),
    Two(bool, bool),
    /// Heard, with one block or two, and results that are drawn.
    Drawn,
}

/// What becomes of a position.
#[derive(Clone, Copy, Debug)]
enum Fate {
    Nothing,
    Grant(Results),
    Release {
        lost: bool,
    },
    /// A grant or a release.
    Pdcch {
        lost: bool,
    },
    Block(Results),
}

/// The fates of a position without a scheduled block, and those of one with it; and
/// those of a position whose subframe is too short for data.
struct Fates {
    others: Vec<Fate>,
    blocks: Vec<Fate>,
    without_data: Vec<Fate>,
}

impl Fates {
    /// All of them, in a cell of as many transport blocks.
    fn all(blocks: u16) -> Self {
        use Results::{Lost, One, Two};
        let mut results = vec![Lost, One(true), One(false)];
        if blocks == 2 {
            let two = [(false, false), (false, true), (true, false), (true, true)];
            results.extend(two.map(|(first, second)| Two(first, second)));
        }
        let mut others = vec![Fate::Nothing];
        others.extend(results.iter().copied().map(Fate::Grant));
        others.extend([true, false].map(|lost| Fate::Release { lost }));
        let blocks = results.into_iter().map(Fate::Block).collect();
        Self { others, blocks, without_data: Self::without_data() }
    }

    /// Nothing, lost and heard, where it is drawn what comes by PDCCH and what is
    /// decoded.
    fn thirds() -> Self {
        let pdcch = [true, false].map(|lost| Fate::Pdcch { lost });
        Self {
            others: [Fate::Nothing].into_iter().chain(pdcch).collect(),
            blocks: [Results::Lost, Results::Drawn].map(Fate::Block).to_vec(),
            without_data: Self::without_data(),
        }
    }

    /// Nothing, and a release, lost and heard.
    fn without_data() -> Vec<Fate> {
        vec![Fate::Nothing, Fate::Release { lost: true }, Fate::Release { lost: false }]
    }

    /// The same without scheduled blocks.
    fn without_blocks(self) -> Self {
        Self { blocks: Vec::new(), ..self }
    }

    /// The patterns with at most one scheduled block over these positions, of which
    /// some are short. A block is at one that is not.
    fn number_of_patterns(&self, short: &[bool]) -> u64 {
        let (others, blocks) = (self.others.len() as u64, self.blocks.len() as u64);
        let long = short.iter().filter(|short| !**short).count() as u64;
        let without = self.number_without_blocks(short);
        without + long * blocks * (without / others)
    }

    fn number_without_blocks(&self, short: &[bool]) -> u64 {
        short.iter().map(|short| self.others_at(*short).len() as u64).product()
    }

    /// The pattern of a number: first come those without a block.
    fn pattern(&self, number: u64, short: &[bool]) -> Vec<Fate> {
        let without = self.number_without_blocks(short);
        if number < without {
            return self.others_by(number, short);
        }
        let mut rest = (number - without) as usize;
        let long: Vec<usize> = (0..short.len()).filter(|at| !short[*at]).collect();
        let place = long[rest % long.len()];
        rest /= long.len();
        let block = self.blocks[rest % self.blocks.len()];
        rest /= self.blocks.len();
        let mut other_positions = short.to_vec();
        other_positions.remove(place);
        let mut pattern = self.others_by(rest as u64, &other_positions);
        pattern.insert(place, block);
        pattern
    }

    fn others_by(&self, mut number: u64, short: &[bool]) -> Vec<Fate> {
        let digit = |short: &bool| {
            let others = self.others_at(*short);
            let fate = others[(number % others.len() as u64) as usize];
            number /= others.len() as u64;
            fate
        };
        short.iter().map(digit).collect()
    }

    fn others_at(&self, short: bool) -> &[Fate] {
        match short {
            true => &self.without_data,
            false => &self.others,
        }
    }
}

/// Whether the subframe of each position of a window is too short for data.
fn short_positions(settings: Settings, window: &Window) -> Vec<bool> {
    window.k.iter().map(|k| is_short(settings, (window.n + 20 - k) % 10)).collect()
}

/// What a reply is read as.
#[derive(Clone, Copy, Debug, PartialEq, Eq)]
enum Place {
    Pdcch { position: u16, cce: u16 },
    Block { position: u16 },
}

impl Place {
    fn of(position: usize, sent: Sent) -> Self {
        let position = position as u16;
        match sent.cce() {
            Some(cce) => Self::Pdcch { position, cce },
            None => Self::Block { position },
        }
    }
}

/// A reply that is due, and how it is read.
#[derive(Clone, Copy, Debug, PartialEq, Eq)]
struct Reply {
    kind: u16,
    resource: u16,
    bits: (u16, u16),
    read: ReadingAnswer,
}

/// A window at the time of its answer: what was sent, by position and in time.
struct Answered<'a> {
    model: &'a Model,
    settings: Settings,
    window: &'a Window,
    positions: Vec<Sent>,
    in_time: Vec<(usize, Sent)>,
}

impl<'a> Answered<'a> {
    fn new(model: &'a Model, settings: Settings, window: &'a Window, positions: Vec<Sent>) -> Self {
        let mut in_time: Vec<(usize, Sent)> = positions.iter().copied().enumerate().collect();
        in_time.sort_by_key(|(m, _)| Reverse(window.k[*m]));
        Self { model, settings, window, positions, in_time }
    }

    /// The position of the scheduled block that was SENT, heard or lost.
    fn told(&self) -> u16 {
        let sent = self.positions.iter().position(|sent| sent.is_block());
        sent.map_or(NOT_TOLD, |position| position as u16)
    }

    fn is_bundled(&self) -> bool {
        bundles(self.settings, self.window.size())
    }

    /// What the papers say is to be sent; or nothing, where that is silence.
    fn due(&self) -> Option<Reply> {
        match self.is_bundled() {
            true => self.bundled_place().map(|place| self.bundled_reply(place)),
            false => self.multiplexed_reply(),
        }
    }

    /// A PDCCH was heard, and 0, 4 or 8 PDCCHs were lost before the last heard one:
    /// the reply is read as that one. None was heard and a scheduled block was: it is
    /// read as that block. Else silent.
    fn bundled_place(&self) -> Option<Place> {
        let pdcchs: Vec<(usize, Sent)> =
            self.in_time.iter().copied().filter(|(_, sent)| sent.cce().is_some()).collect();
        let Some(last) = pdcchs.iter().rposition(|(_, sent)| sent.is_heard()) else {
            let mut heard = self.in_time.iter().filter(|(_, sent)| sent.is_heard());
            return heard.next().map(|(position, block)| Place::of(*position, *block));
        };
        let lost = pdcchs[..last].iter().filter(|(_, sent)| sent.lost).count();
        let (position, sent) = pdcchs[last];
        [0, 4, 8].contains(&lost).then(|| Place::of(position, sent))
    }

    /// A bit is ACK exactly when every heard PDCCH and a heard scheduled block
    /// decoded that block.
    fn bundled_reply(&self, place: Place) -> Reply {
        let ack = |block| {
            let heard = self.positions.iter().map(|sent| sent.heard());
            u16::from(heard.into_iter().all(|heard| decoded(heard, block)))
        };
        let bits = (ack(0), if self.settings.blocks == 2 { ack(1) } else { 0 });
        let read = |position, cce| ReadingAnswer::bundled(position, cce, bits.0, bits.1);
        self.reply(Fed::BUNDLED, place, bits, read)
    }

    /// A symbol is sent exactly when something was heard, and read as what was heard
    /// at its index.
    fn multiplexed_reply(&self) -> Option<Reply> {
        let letter = |sent: &Sent| match sent.heard() {
            Heard::Nothing => 'D',
            heard if decoded(heard, 0) && decoded(heard, 1) => 'A',
            _ => 'N',
        };
        let state: String = self.positions.iter().map(letter).collect();
        if self.positions.iter().all(|sent| !sent.is_heard()) {
            return None;
        }
        let symbol = self.model.symbol(&state).expect("a symbol of what was heard");
        let sent = self.positions[usize::from(symbol.index)];
        assert!(sent.is_heard(), "{state}: the index is always a heard position");
        let delivered = self.model.delivered(self.window.size(), symbol).expect("a state sends it");
        let of_state = (0..).zip(state.chars()).filter(|(_, letter)| *letter == 'A');
        let all_a: u16 = of_state.map(|(position, _)| 1 << position).sum();
        assert_eq!(delivered & !all_a, 0, "{state}: nothing is delivered that was not decoded");
        let place = Place::of(symbol.index.into(), sent);
        let read = |position, cce| ReadingAnswer::multiplexed(position, cce, delivered);
        Some(self.reply(Fed::MULTIPLEXED, place, (symbol.b0, symbol.b1), read))
    }

    /// A reply for a PDCCH goes on the resource of its position and first CCE, one
    /// for a scheduled block on the resource that is set.
    fn reply(
        &self,
        kind: u16,
        place: Place,
        bits: (u16, u16),
        read: impl Fn(u16, u16) -> ReadingAnswer,
    ) -> Reply {
        match place {
            Place::Pdcch { position, cce } => {
                let there = resource(self.settings, self.window.n, position, cce);
                assert_eq!(there.refusal, 0, "{place:?}");
                Reply { kind, resource: there.resource, bits, read: read(position, cce) }
            }
            Place::Block { position } => {
                let read = read(position, 0).as_block();
                Reply { kind, resource: self.settings.scheduled, bits, read }
            }
        }
    }

    /// The reply that was sent, if one was, and its reading as the station does it.
    fn given(&self, fed: Fed) -> Option<Reply> {
        if fed == Fed::answer(Fed::SILENT, fed.handset) {
            return None;
        }
        let (settings, n) = (self.settings, self.window.n);
        let read = reading(settings, n, self.told(), fed.resource, fed.b0, fed.b1);
        Some(Reply { kind: fed.kind, resource: fed.resource, bits: (fed.b0, fed.b1), read })
    }

    /// Not told of the block, the station could not read what came on its resource.
    fn is_deaf_untold(&self, reply: Reply) -> bool {
        let (b0, b1) = reply.bits;
        let read = reading(self.settings, self.window.n, NOT_TOLD, reply.resource, b0, b1);
        match reply.read.scheduled {
            1 => read == ReadingAnswer::refused(13),
            _ => read == reply.read,
        }
    }
}

/// How often what is rare was met.
#[derive(Debug, Default)]
struct Met {
    lone_blocks: u64,
    blocks_at_an_index: u64,
    blocks_after_the_pdcch: u64,
    blocks_though_missed: u64,
    lost_blocks: u64,
    releases: u64,
    short_releases: u64,
    after_four: u64,
    after_eight: u64,
}

impl Met {
    fn note(&mut self, answered: &Answered, reply: Option<Reply>) {
        let bundled = answered.is_bundled();
        let block = answered.in_time.iter().position(|(_, sent)| sent.is_block());
        let heard_block = block.is_some_and(|at| answered.in_time[at].1.is_heard());
        self.lost_blocks += u64::from(block.is_some() && !heard_block);
        let Some(Reply { read, .. }) = reply else {
            self.blocks_though_missed += u64::from(heard_block);
            return;
        };
        let named = usize::from(read.position);
        let named_at = answered.in_time.iter().position(|(m, _)| *m == named);
        let later = block.is_some_and(|at| heard_block && Some(at) > named_at);
        let lost = answered.in_time.iter().take(named_at.unwrap_or(0));
        let lost = lost.filter(|(_, sent)| sent.lost && sent.cce().is_some()).count();
        self.lone_blocks += u64::from(bundled && read.scheduled == 1);
        self.blocks_at_an_index += u64::from(!bundled && read.scheduled == 1);
        self.blocks_after_the_pdcch += u64::from(bundled && later);
        let is_release = matches!(answered.positions[named].what, Heard::Release(_));
        self.releases += u64::from(is_release);
        let is_short = short_positions(answered.settings, answered.window)[named];
        self.short_releases += u64::from(is_release && is_short);
        self.after_four += u64::from(bundled && read.scheduled == 0 && lost == 4);
        self.after_eight += u64::from(bundled && read.scheduled == 0 && lost == 8);
    }

    fn add(&mut self, other: Self) {
        self.lone_blocks += other.lone_blocks;
        self.blocks_at_an_index += other.blocks_at_an_index;
        self.blocks_after_the_pdcch += other.blocks_after_the_pdcch;
        self.blocks_though_missed += other.blocks_though_missed;
        self.lost_blocks += other.lost_blocks;
        self.releases += other.releases;
        self.short_releases += other.short_releases;
        self.after_four += other.after_four;
        self.after_eight += other.after_eight;
    }
}

/// Whether the mode of a run stands, or changes between its feeds.
#[derive(Clone, Copy, Debug, PartialEq, Eq)]
enum Mode {
    Stands,
    Changes,
}

/// One run from a fresh handset.
struct Run<'a> {
    model: &'a Model,
    comparison: Comparison<'a>,
    settings: Settings,
    mode: Mode,
    windows: Vec<&'a Window>,
    fates: &'a Fates,
    times: u64,
    sent: Vec<Sent>,
    /// By the subframe that answers a window, whether it has heard a block.
    has_block: Vec<bool>,
    /// The mode that stood at each feed that was not refused.
    modes: Vec<u16>,
    random: Random,
    checked: u64,
    in_another_mode: u64,
    refused: u64,
    refused_short: u64,
    met: Met,
}

/// The frames before every window lies whole after the start.
const FIRST_FRAMES: u64 = 2;

/// A number without a common divisor with any number of patterns.
const STRIDE: u64 = 7919;

impl<'a> Run<'a> {
    fn new(model: &'a Model, settings: Settings, fates: &'a Fates, times: u64, seed: u64) -> Self {
        let of_config = |window: &&Window| window.config == settings.config;
        Self {
            model,
            comparison: Comparison::with(model),
            settings,
            mode: Mode::Stands,
            windows: model.windows().iter().filter(of_config).collect(),
            fates,
            times,
            sent: Vec::new(),
            has_block: Vec::new(),
            modes: Vec::new(),
            random: Random::new(seed),
            checked: 0,
            in_another_mode: 0,
            refused: 0,
            refused_short: 0,
            met: Met::default(),
        }
    }

    fn frames(&self) -> u64 {
        let longest = self.windows.iter().map(|window| self.number_of_patterns(window)).max();
        FIRST_FRAMES + longest.expect("a window") * self.times
    }

    fn number_of_patterns(&self, window: &Window) -> u64 {
        self.fates.number_of_patterns(&short_positions(self.settings, window))
    }

    /// Fills the run: in each frame, each window has its next pattern, no two of
    /// them in step. Shows how many patterns were used in windows fed whole.
    fn fill(&mut self) -> u64 {
        let frames = self.frames();
        self.sent = vec![Sent::NOTHING; 10 * frames as usize];
        let mut used = 0;
        for window in self.windows.clone() {
            let short = short_positions(self.settings, window);
            let patterns = self.number_of_patterns(window);
            let mut seen = vec![false; patterns as usize];
            // Windows past the end of the list count too.
            for frame in 0..frames + FIRST_FRAMES {
                let number = (frame * STRIDE + u64::from(window.n) * 1013) % patterns;
                let pattern = self.fates.pattern(number, &short);
                self.send(window, (10 * frame) as usize, &pattern);
                if (FIRST_FRAMES..frames).contains(&frame) {
                    seen[number as usize] = true;
                }
            }
            assert!(seen.iter().all(|each| *each), "{window:?}: a pattern that was not used");
            used += patterns;
        }
        used
    }

    /// Sends what a pattern says, in time order: the j-th PDCCH carries DAI
    /// ((j − 1) mod 4) + 1, be it a grant or a release. Before the start nothing is
    /// sent, and what would be past the end is not fed. What is drawn is decoded
    /// every other time but at one position, or else hardly any reply would say ACK.
    fn send(&mut self, window: &Window, frame_start: usize, pattern: &[Fate]) {
        let uplink = frame_start + usize::from(window.n);
        let any_at = self.random.below(2 * pattern.len());
        let mut in_time: Vec<usize> = (0..pattern.len()).collect();
        in_time.sort_by_key(|m| Reverse(window.k[*m]));
        let mut j = 0;
        for m in in_time {
            let Some(s) = uplink.checked_sub(window.k[m].into()) else { continue };
            let all_decoded = any_at < pattern.len() && any_at != m;
            let sent = self.sent_by(pattern[m], j % 4 + 1, all_decoded);
            j += u16::from(sent.cce().is_some());
            if let Some(place) = self.sent.get_mut(s) {
                assert_eq!(*place, Sent::NOTHING, "subframe {s} is in two windows");
                *place = sent;
            }
        }
    }

    fn sent_by(&mut self, fate: Fate, dai: u16, all_decoded: bool) -> Sent {
        match fate {
            Fate::Nothing => Sent::NOTHING,
            Fate::Grant(results) => self.grant(results, dai, all_decoded),
            Fate::Release { lost } => self.release(lost, dai),
            Fate::Block(results) => self.block(results, all_decoded),
            Fate::Pdcch { lost } if self.random.once_in(3) => self.release(lost, dai),
            Fate::Pdcch { lost: true } => self.grant(Results::Lost, dai, all_decoded),
            Fate::Pdcch { lost: false } => self.grant(Results::Drawn, dai, all_decoded),
        }
    }

    fn grant(&mut self, results: Results, dai: u16, all_decoded: bool) -> Sent {
        let (blocks, first, second, lost) = self.results(results, all_decoded);
        let cce = self.cce();
        Sent { what: Heard::Grant(Grant { blocks, first, second, cce, dai }), lost }
    }

    fn block(&mut self, results: Results, all_decoded: bool) -> Sent {
        let (blocks, first, second, lost) = self.results(results, all_decoded);
        Sent { what: Heard::Block(Block { blocks, first, second }), lost }
    }

    fn release(&mut self, lost: bool, dai: u16) -> Sent {
        let cce = self.cce();
        Sent { what: Heard::Release(Release { cce, dai }), lost }
    }

    fn cce(&mut self) -> u16 {
        let cces = edge(self.settings.nrb, 4);
        let cce = self.random.below16(cces);
        self.random.one_of(&[cce, cce, cce, 0, cces - 1])
    }

    /// Blocks carried, both flags, and whether all is lost. Of the flags that say
    /// nothing, any value will do.
    fn results(&mut self, results: Results, all_decoded: bool) -> (u16, u16, u16, bool) {
        let random = &mut self.random;
        let mut flag = |set: bool| if set { random.one_of(&[1, 1, 2, 256, 65535]) } else { 0 };
        match results {
            Results::One(first) => (1, flag(first), random.flag(), false),
            Results::Two(first, second) => (2, flag(first), flag(second), false),
            Results::Lost => (1 + random.below16(self.settings.blocks), 0, 0, true),
            Results::Drawn => {
                let first = all_decoded || random.once_in(2);
                let second = all_decoded || random.once_in(2);
                let drawn = match random.below16(self.settings.blocks) {
                    0 => Results::One(first),
                    _ => Results::Two(first, second),
                };
                self.results(drawn, all_decoded)
            }
        }
    }

    /// Feeds the run and checks every answer.
    fn check(&mut self) {
        let made = make(self.settings);
        assert_eq!((made.refusal, made.handset.next), (0, 0), "{:?}", self.settings);
        self.has_block = vec![false; self.sent.len() + 20];
        let mut handset = made.handset;
        for s in 0..self.sent.len() {
            if self.mode == Mode::Changes {
                handset = self.check_changes(s, handset);
            }
            if self.random.once_in(8) {
                self.check_refused(s, handset);
            }
            if self.random.once_in(4) {
                self.check_second_block(s, handset);
            }
            if self.mode == Mode::Changes {
                handset = self.check_changes(s, handset);
            }
            handset = self.check_feed(s, handset);
        }
    }

    /// Mode changes between two feeds: mostly none, or one, or more, refused ones too. What
    /// is not refused moves the standing mode alone.
    fn check_changes(&mut self, s: usize, mut handset: Handset) -> Handset {
        while self.random.once_in(3) {
            let mode = self.random.one_of(&[0, 0, 0, 1, 1, 1, 2, 257, 65535]);
            let due = match (mode, self.settings.config) {
                (1, 5) => Changed::refused(5, handset),
                (0 | 1, _) => Changed::to(handset.in_mode(mode)),
                _ => Changed::refused(4, handset),
            };
            let changed = self.comparison.change_mode(handset, mode);
            assert_eq!(changed, due, "{:?}, s {s}, to mode {mode}", self.settings);
            handset = changed.handset;
        }
        handset
    }

    /// The settings of a window: its mode is the one that stood when its earliest subframe
    /// was fed, or before the start the one that the handset was made with.
    fn settings_of(&self, window: &Window, s: usize) -> Settings {
        let largest = window.k.iter().copied().max().expect("a window has subframes");
        let fed_in = s.checked_sub(largest.into()).map(|earliest| self.modes[earliest]);
        Settings { mode: fed_in.unwrap_or(self.settings.mode), ..self.settings }
    }

    /// What the next subframe brings, beside the model where a window is answered,
    /// and everywhere in the shorter runs.
    fn check_feed(&mut self, s: usize, handset: Handset) -> Handset {
        let (config, n) = (self.settings.config, (s % 10) as u16);
        let heard = self.sent[s].heard();
        self.modes.push(handset.settings.mode);
        if !is_uplink(config, n) {
            let fed = match self.settings.blocks {
                1 if config != 5 => self.comparison.feed(handset, heard),
                _ => feed(handset, heard),
            };
            let context = || format!("{:?}, s {s}: {:?}", self.settings, self.sent[s]);
            assert_eq!(fed, Fed::answer(Fed::TAKEN, fed.handset), "{}", context());
            if let (Heard::Block(_), Some(uplink)) = (heard, self.answered_at(s)) {
                self.has_block[uplink] = true;
            }
            return fed.handset;
        }
        let fed = self.comparison.feed(handset, heard);
        match self.windows.iter().find(|window| window.n == n) {
            None => assert_eq!(fed, Fed::answer(Fed::NO_WINDOW, fed.handset), "s {s}"),
            Some(window) => self.check_answer(window, s, fed),
        }
        fed.handset
    }

    fn check_answer(&mut self, window: &'a Window, s: usize, fed: Fed) {
        let at = |k: &u16| s.checked_sub(usize::from(*k)).map_or(Sent::NOTHING, |s| self.sent[s]);
        let positions: Vec<Sent> = window.k.iter().map(at).collect();
        let settings = self.settings_of(window, s);
        let answered = Answered::new(self.model, settings, window, positions);
        let (given, due) = (answered.given(fed), answered.due());
        assert!(
            given == due,
            "{settings:?}, s {s}, {window:?}, sent {:?}, told {}: the engine gives {given:?}, due \
             is {due:?}",
            answered.positions,
            answered.told()
        );
        assert!(due.is_none_or(|reply| answered.is_deaf_untold(reply)), "{window:?}, {due:?}");
        self.met.note(&answered, due);
        self.checked += 1;
        self.in_another_mode += u64::from(settings.mode != self.modes[s]);
    }

    /// The subframe that answers a downlink one.
    fn answered_at(&self, s: usize) -> Option<usize> {
        let mut ends = self
            .windows
            .iter()
            .flat_map(|window| window.k.iter().map(|k| (usize::from(*k), usize::from(window.n))));
        ends.find(|(k, n)| (s + k) % 10 == *n).map(|(k, _)| s + k)
    }

    /// A block in the next subframe: refused 20 exactly if that is too short for data,
    /// and else 18 exactly if a block was heard in the window, or no resource is set.
    /// Where it is taken, the run goes on without it.
    fn check_second_block(&mut self, s: usize, handset: Handset) {
        let Some(uplink) = self.answered_at(s) else { return };
        let second = self.has_block[uplink] || self.settings.scheduled == NONE;
        let block = Block { blocks: self.settings.blocks, first: 1, second: 1 };
        let fed = feed(handset, Heard::Block(block));
        let context = || format!("{:?}, s {s}, {handset:?}", self.settings);
        let number = match is_short(self.settings, (s % 10) as u16) {
            true => 20,
            false if second => 18,
            false => 0,
        };
        match number {
            0 => assert_eq!(fed, Fed::answer(Fed::TAKEN, fed.handset), "{}", context()),
            _ => assert_eq!(fed, Fed::refused(number, handset), "{}", context()),
        }
        self.count_refused(number);
    }

    fn count_refused(&mut self, number: u16) {
        self.refused += u64::from(number != 0);
        self.refused_short += u64::from(number == 20);
    }

    /// Something with one thing wrong is refused, and the handset is left: a block or a
    /// release, and where data is what is wrong a grant too.
    fn check_refused(&mut self, s: usize, handset: Handset) {
        let Settings { config, nrb, blocks, .. } = self.settings;
        let grant = |blocks| Heard::Grant(Grant { blocks, first: 1, second: 1, cce: 0, dai: 1 });
        let block = |blocks| Heard::Block(Block { blocks, first: 1, second: 1 });
        let release = |cce, dai| Heard::Release(Release { cce, dai });
        let n = (s % 10) as u16;
        let (number, wrong) = match (is_uplink(config, n), is_short(self.settings, n)) {
            (true, _) => self.random.one_of(&[(9, block(1)), (9, block(0)), (9, release(0, 1))]),
            (_, true) => self.random.one_of(&[
                (20, grant(1)),
                (20, grant(0)),
                (20, block(1)),
                (20, block(blocks + 1)),
                (11, release(edge(nrb, 4), 1)),
                (12, release(0, 5)),
            ]),
            _ => self.random.one_of(&[
                (10, block(0)),
                (10, block(blocks + 1)),
                (11, release(edge(nrb, 4), 1)),
                (12, release(0, 0)),
                (12, release(0, 5)),
            ]),
        };
        let fed = feed(handset, wrong);
        assert_eq!(fed, Fed::refused(number, handset), "{:?}, s {s}: {wrong:?}", self.settings);
        self.count_refused(number);
    }
}

/// Runs of these configurations in both modes, if they have both. Shows how many
/// windows were checked, and what was met in them.
fn hold(configs: &[u16], blocks: u16, cells: &[Settings], fates: &Fates, times: u64) -> (u64, Met) {
    hold_in(Mode::Stands, configs, blocks, cells, fates, times)
}

/// The same with a mode that stands, or with one that changes.
fn hold_in(
    runs_mode: Mode,
    configs: &[u16],
    blocks: u16,
    cells: &[Settings],
    fates: &Fates,
    times: u64,
) -> (u64, Met) {
    let model = Model::new();
    let (mut checked, mut refused, mut used, mut met) = (0, 0, 0, Met::default());
    for config in configs.iter().copied() {
        for mode in 0..=u16::from(config != 5) {
            for cell in cells {
                let settings = Settings { config, mode, blocks, ..*cell };
                let run = Run::new(&model, settings, fates, times, used);
                let mut run = Run { mode: runs_mode, ..run };
                used += run.fill();
                run.check();
                assert_eq!(run.checked, run.frames() * run.windows.len() as u64);
                let has_short = is_short(settings, 1);
                assert_eq!(has_short, run.refused_short > 0, "{settings:?}");
                assert_eq!(has_short, run.met.short_releases > 0, "{settings:?}");
                let both_modes = runs_mode == Mode::Changes && config != 5;
                assert_eq!(both_modes, run.in_another_mode > 0, "{settings:?}");
                assert!(!both_modes || run.in_another_mode > run.checked / 8, "{settings:?}");
                checked += run.checked;
                refused += run.refused;
                met.add(run.met);
            }
        }
    }
    println!("{checked} windows checked, {used} patterns, {refused} refused feeds, {met:?}");
    assert!(refused > checked / 8);
    (checked, met)
}

/// All configurations but 5: how many windows are checked for each cell. A run lasts
/// as long as the patterns of its longest window, and two frames more.
fn windows_of_up_to_four(patterns: impl Fn(u64) -> u64) -> u64 {
    let frames = |longest| FIRST_FRAMES + patterns(longest);
    let one = 4 * frames(1) + 5 * frames(1);
    2 * (one + 4 * frames(2) + 3 * frames(3) + 2 * frames(4) + 2 * frames(4))
}

const UP_TO_FOUR: [u16; 6] = [0, 1, 2, 3, 4, 6];

/// Windows of up to four, one transport block: at a position nothing, a grant in
/// three ways, a release in two, or the scheduled block in three.
#[test]
fn every_pattern_of_one_block() {
    let (checked, met) = hold(&UP_TO_FOUR, 1, &CELLS, &Fates::all(1), 1);
    let patterns = |size: u64| 6u64.pow(size as u32 - 1) * (6 + 3 * size);
    assert_eq!(checked, 3 * windows_of_up_to_four(patterns));
    assert_all_met_but_four_lost(&met);
}

/// Likewise with two transport blocks: a grant in seven ways, and so the scheduled
/// block.
#[test]
fn every_pattern_of_two_blocks() {
    let (checked, met) = hold(&UP_TO_FOUR, 2, &CELLS, &Fates::all(2), 1);
    let patterns = |size: u64| 10u64.pow(size as u32 - 1) * (10 + 7 * size);
    assert_eq!(checked, 3 * windows_of_up_to_four(patterns));
    assert_all_met_but_four_lost(&met);
}

fn assert_all_met_but_four_lost(met: &Met) {
    assert!(met.lone_blocks > 0 && met.blocks_at_an_index > 0, "{met:?}");
    assert!(met.blocks_after_the_pdcch > 0 && met.blocks_though_missed > 0, "{met:?}");
    assert!(met.lost_blocks > 0 && met.releases > 0, "{met:?}");
    assert_eq!((met.after_four, met.after_eight), (0, 0), "{met:?}");
}

/// A cell without a scheduled resource, where N1 is 0 and none can be set: grants
/// and releases, and every block is refused.
#[test]
fn every_pattern_without_a_scheduled_resource() {
    for blocks in [1, 2] {
        let fates = Fates::all(blocks).without_blocks();
        let cells = [cell(6, 0, NONE), cell(50, 10, NONE)];
        let (checked, met) = hold(&UP_TO_FOUR, blocks, &cells, &fates, 1);
        let base = if blocks == 1 { 6 } else { 10u64 };
        assert_eq!(checked, 2 * windows_of_up_to_four(|size| base.pow(size as u32)));
        assert!(met.releases > 0 && met.lone_blocks + met.lost_blocks == 0, "{met:?}");
    }
}

/// The window of nine: 3^9 patterns of nothing, lost and heard without a block, and
/// for each place of a block, heard or lost, 3^8 of the other positions.
#[test]
fn every_pattern_of_nine() {
    for (blocks, times) in [(1, 1), (2, 1)] {
        let (checked, met) = hold(&[5], blocks, &CELLS, &Fates::thirds(), times);
        assert_eq!(checked, 3 * (2 + times * (19_683 + 9 * 2 * 6_561)));
        assert!(met.lone_blocks > 0 && met.blocks_after_the_pdcch > 0, "{met:?}");
        assert!(met.blocks_though_missed > 0 && met.lost_blocks > 0, "{met:?}");
        assert!(met.releases > 0 && met.after_four > 0 && met.after_eight > 0, "{met:?}");
    }
}

/// Special subframes too short for data, windows of up to four: there nothing is sent
/// or a release, lost and heard, and elsewhere all that is above. A run lasts as long
/// as the patterns of its longest window. With l long positions and s short ones, with
/// so many fates of a long position and so many of a block, those are: in configurations
/// 0 and 6 a window of one long position, in 1 one long and one short, in 2 three and
/// one, in 3 two and one, in 4 four long ones.
#[test]
fn every_pattern_with_short_specials() {
    for (blocks, fates, of_block, cells) in
        [(1, 6, 3, &SHORT_CELLS[..]), (2, 10, 7, &SHORT_CELLS[1..3])]
    {
        let (checked, met) = hold(&UP_TO_FOUR, blocks, cells, &Fates::all(blocks), 1);
        let windows = windows_with_short_specials(fates, of_block);
        assert_eq!(checked, cells.len() as u64 * windows);
        assert_all_met_but_four_lost(&met);
    }
}

/// The windows of up to four with short specials, in one cell and both modes.
fn windows_with_short_specials(fates: u64, of_block: u64) -> u64 {
    let frames = |long: u32, short: u32| {
        let with_a_block = u64::from(long) * of_block * fates.pow(long - 1);
        FIRST_FRAMES + (fates.pow(long) + with_a_block) * 3u64.pow(short)
    };
    let windows = [
        4 * frames(1, 0),
        4 * frames(1, 1),
        2 * frames(3, 1),
        3 * frames(2, 1),
        2 * frames(4, 0),
        5 * frames(1, 0),
    ];
    2 * windows.iter().sum::<u64>()
}

/// Likewise the window of nine: 3^9 patterns without a block, and for each of eight
/// places of a block, heard or lost, 3^8 of the other positions.
#[test]
fn every_pattern_of_nine_with_a_short_special() {
    for (blocks, cells) in [(1, &SHORT_CELLS[..1]), (2, &SHORT_CELLS[3..])] {
        let (checked, met) = hold(&[5], blocks, cells, &Fates::thirds(), 1);
        assert_eq!(checked, 2 + 19_683 + 8 * 2 * 6_561);
        assert!(met.lone_blocks > 0 && met.blocks_though_missed > 0, "{met:?}");
        assert!(met.after_four > 0 && met.after_eight > 0, "{met:?}");
    }
}

/// Windows of up to four as above, with mode changes between the feeds: several windows are
/// open together, and each is bundled or not by its own mode. Every pattern comes twice.
#[test]
fn every_pattern_of_one_block_with_mode_changes() {
    let (checked, met) = hold_in(Mode::Changes, &UP_TO_FOUR, 1, &CELLS, &Fates::all(1), 2);
    let patterns = |size: u64| 6u64.pow(size as u32 - 1) * (6 + 3 * size);
    assert_eq!(checked, 3 * windows_of_up_to_four(|size| 2 * patterns(size)));
    assert_all_met_but_four_lost(&met);
}

/// Likewise with two transport blocks.
#[test]
fn every_pattern_of_two_blocks_with_mode_changes() {
    let (checked, met) = hold_in(Mode::Changes, &UP_TO_FOUR, 2, &CELLS[1..2], &Fates::all(2), 1);
    let patterns = |size: u64| 10u64.pow(size as u32 - 1) * (10 + 7 * size);
    assert_eq!(checked, windows_of_up_to_four(patterns));
    assert_all_met_but_four_lost(&met);
}

/// Likewise with special subframes too short for data.
#[test]
fn every_pattern_with_short_specials_and_mode_changes() {
    let (checked, met) = hold_in(Mode::Changes, &UP_TO_FOUR, 1, &SHORT_CELLS, &Fates::all(1), 1);
    assert_eq!(checked, SHORT_CELLS.len() as u64 * windows_with_short_specials(6, 3));
    assert_all_met_but_four_lost(&met);
}

/// In configuration 5 every change to multiplexing is refused, and nothing moves.
#[test]
fn every_pattern_of_nine_with_refused_changes() {
    let (checked, met) = hold_in(Mode::Changes, &[5], 1, &CELLS[1..2], &Fates::thirds(), 1);
    assert_eq!(checked, 2 + 19_683 + 9 * 2 * 6_561);
    assert!(met.after_four > 0 && met.after_eight > 0, "{met:?}");
}
