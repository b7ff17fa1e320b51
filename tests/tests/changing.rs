//! Mode changes between feeds: every place of one change in the first frame and a half, and
//! every two places, while windows are open; random lists with refused changes and refused
//! feeds. A window is answered in the mode that stood when its earliest subframe was fed.
//! Here the test counts that mode by itself, from the list of steps. Each answer is held to
//! that of a handset which has this mode all along, each reply is read in this mode and held
//! to what was sent, and beside this the engine's answers are compared with the model's own.

use feedback_tests::compare::Comparison;
use feedback_tests::model::{bundles, edge, is_uplink, Model, Window};
use feedback_tests::random::Random;
use feedback_tests::{
    feed, make, reading, Changed, Fed, Grant, Handset, Heard, ReadingAnswer, Settings, NOT_TOLD,
};
use std::cmp::Reverse;

/// The places of a change: before each subframe of the first frame and a half.
const PLACES: usize = 15;

/// So many feeds answer every window that a change at one of the places is in: the last
/// one has subframe 14 and is answered at most 12 later.
const FEEDS: usize = 30;

/// All patterns of heard and decoded, heard and not decoded, and lost in a window of four,
/// and so in shorter ones.
const PATTERNS: usize = 81;

/// Each mode with one block and with two, in a configuration that has both modes, and three
/// bandwidths with an N1 each.
fn cells(config: u16) -> [Settings; 4] {
    let cell = |(nrb, n1, mode, blocks)| Settings::plain(config, nrb, n1, mode, blocks);
    [(50, 10, 0, 1), (50, 10, 1, 1), (6, 2047, 0, 2), (110, 0, 1, 2)].map(cell)
}

/// A grant that the station sent, and whether it was lost.
#[derive(Clone, Copy, Debug)]
struct Sent {
    grant: Grant,
    lost: bool,
}

impl Sent {
    fn heard(self) -> Option<Grant> {
        (!self.lost).then_some(self.grant)
    }
}

/// The second block counts only if it was carried.
fn decoded(grant: Grant) -> [bool; 2] {
    let first = grant.first != 0;
    [first, if grant.blocks == 2 { grant.second != 0 } else { first }]
}

/// A grant in every downlink subframe of so many, by the DAI rule. The positions of each
/// window are decoded, not decoded or lost by the digits to base 3 of a number, which rises
/// with the pattern and differs from window to window.
fn grants(model: &Model, settings: Settings, pattern: usize, feeds: usize) -> Vec<Option<Sent>> {
    let mut sent = vec![None; feeds];
    for window in model.windows().iter().filter(|window| window.config == settings.config) {
        for uplink in (usize::from(window.n)..feeds + 20).step_by(10) {
            let mut in_time: Vec<usize> = (0..window.k.len()).collect();
            in_time.sort_by_key(|m| Reverse(window.k[*m]));
            let after_start = |m: usize| Some((m, uplink.checked_sub(window.k[m].into())?));
            let numbered = (0..).zip(in_time.into_iter().filter_map(after_start));
            for (j, (m, s)) in numbered {
                let digit = (pattern + 31 * uplink) / 3usize.pow(m as u32) % 3;
                if let Some(place) = sent.get_mut(s) {
                    *place = Some(grant(settings, pattern + s, j % 4 + 1, digit));
                }
            }
        }
    }
    sent
}

/// Digit 0 is decoded, 1 is not, of two blocks one or none, and 2 is lost.
fn grant(settings: Settings, number: usize, dai: u16, digit: usize) -> Sent {
    let (first, second) = match digit {
        1 => [(0, 0), (0, 1), (u16::from(settings.blocks == 2), 0)][number % 3],
        _ => (1, 1),
    };
    let cce = (13 * number) as u16 % edge(settings.nrb, 4);
    let grant = Grant { blocks: settings.blocks, first, second, cce, dai };
    Sent { grant, lost: digit == 2 }
}

/// A run from a fresh handset.
struct Run<'a> {
    model: &'a Model,
    comparison: Comparison<'a>,
    made: Settings,
    sent: &'a [Option<Sent>],
    handset: Handset,
    /// By mode a handset that has it all along and is fed the same. Configuration 5 has one.
    unchanged: Vec<Handset>,
    /// The mode that stood at each feed that was not refused.
    modes: Vec<u16>,
    count: Count,
}

/// Windows answered; those in another mode than the one that stood; and those of which the
/// answer differs by that.
#[derive(Clone, Copy, Debug, Default, PartialEq, Eq)]
struct Count {
    windows: u64,
    in_another_mode: u64,
    differing: u64,
}

impl Count {
    fn add(&mut self, other: Self) {
        self.windows += other.windows;
        self.in_another_mode += other.in_another_mode;
        self.differing += other.differing;
    }
}

/// Kind, resource and bits.
fn answer(fed: &Fed) -> (u16, u16, (u16, u16)) {
    (fed.kind, fed.resource, (fed.b0, fed.b1))
}

impl<'a> Run<'a> {
    fn new(model: &'a Model, made: Settings, sent: &'a [Option<Sent>]) -> Self {
        let mut comparison = Comparison::with(model);
        let handset = comparison.make(made);
        let modes = 0..=u16::from(made.config != 5);
        let unchanged = modes.map(|mode| make(Settings { mode, ..made }).handset).collect();
        let (modes, count) = (Vec::new(), Count::default());
        Self { model, comparison, made, sent, handset, unchanged, modes, count }
    }

    fn context(&self) -> String {
        format!("{:?}, modes at the feeds {:?}, {:?}", self.made, self.modes, self.handset)
    }

    /// A change that is not refused moves the standing mode and nothing else.
    fn change(&mut self, mode: u16) {
        let changed = self.comparison.change_mode(self.handset, mode);
        let due = Changed::to(self.handset.in_mode(mode));
        assert_eq!(changed, due, "to {mode}: {}", self.context());
        self.handset = changed.handset;
    }

    fn refuse_change(&mut self, number: u16, mode: u16) {
        let changed = self.comparison.change_mode(self.handset, mode);
        let due = Changed::refused(number, self.handset);
        assert_eq!(changed, due, "to {mode}: {}", self.context());
    }

    /// A grant with one thing wrong, which is neither sent nor heard.
    fn refuse_feed(&mut self) {
        let n = (self.modes.len() % 10) as u16;
        let wrong = Grant { blocks: 1, first: 1, second: 1, cce: 0, dai: 5 };
        let number = if is_uplink(self.made.config, n) { 9 } else { 12 };
        let fed = self.comparison.feed(self.handset, Some(wrong));
        assert_eq!(fed, Fed::refused(number, self.handset), "{}", self.context());
    }

    /// The next subframe.
    fn feed(&mut self) {
        let s = self.modes.len();
        let heard: Heard = self.sent[s].and_then(Sent::heard).into();
        let fed = self.comparison.feed(self.handset, heard);
        let unchanged: Vec<Fed> = self.unchanged.iter().map(|each| feed(*each, heard)).collect();
        assert_eq!(fed.refusal, 0, "{}", self.context());
        self.modes.push(self.handset.settings.mode);
        match self.model.window(self.made.config, (s % 10) as u16) {
            None => assert_eq!(answer(&fed), answer(&unchanged[0]), "{}", self.context()),
            Some(window) => self.check(window, s, fed, &unchanged),
        }
        self.handset = fed.handset;
        self.unchanged = unchanged.into_iter().map(|fed| fed.handset).collect();
    }

    /// The mode of the window that is answered in subframe s: the one that stood at the feed
    /// of its earliest subframe, or before the start the one that the handset was made with.
    fn mode_of(&self, window: &Window, s: usize) -> u16 {
        let mut subframes = window.k.iter().map(|k| s as i32 - i32::from(*k)).collect::<Vec<_>>();
        subframes.sort();
        match subframes[0] {
            ..0 => self.made.mode,
            earliest => self.modes[earliest as usize],
        }
    }

    fn check(&mut self, window: &Window, s: usize, fed: Fed, unchanged: &[Fed]) {
        let mode = self.mode_of(window, s);
        let due = &unchanged[usize::from(mode)];
        let settings = Settings { mode, ..self.made };
        let context = || format!("{window:?}, s {s}, in mode {mode}: {}", self.context());
        assert_eq!(answer(&fed), answer(due), "{}", context());
        let kind = match bundles(settings, window.size()) {
            true => Fed::BUNDLED,
            false => Fed::MULTIPLEXED,
        };
        assert!([kind, Fed::SILENT].contains(&fed.kind), "{fed:?}, {}", context());
        if fed.kind != Fed::SILENT {
            let read = reading(settings, window.n, NOT_TOLD, fed.resource, fed.b0, fed.b1);
            assert_eq!(read, self.read_due(settings, window, s), "{}", context());
        }
        let is_other = mode != self.modes[s];
        let in_both = unchanged.iter().map(answer).collect::<Vec<_>>();
        self.count.windows += 1;
        self.count.in_another_mode += u64::from(is_other);
        self.count.differing += u64::from(is_other && in_both.first() != in_both.last());
    }

    /// What the reply of a window is read as. Bundled: the last heard grant, a bit ACK if every
    /// heard grant decoded that block. Multiplexed: the grant at the index of the symbol, with
    /// the positions that are A in every state of that symbol. Each was heard and decoded.
    fn read_due(&self, settings: Settings, window: &Window, s: usize) -> ReadingAnswer {
        let at = |k: &u16| s.checked_sub(usize::from(*k)).and_then(|s| self.sent[s]);
        let heard: Vec<Option<Grant>> =
            window.k.iter().map(|k| at(k).and_then(Sent::heard)).collect();
        if bundles(settings, window.size()) {
            let by_k = window.k.iter().zip(&heard).enumerate();
            let last = by_k.filter_map(|(m, (k, grant))| Some((k, m, (*grant)?)));
            let (_, m, grant) = last.min_by_key(|(k, _, _)| **k).expect("a grant was heard");
            let ack = |block: usize| {
                u16::from(heard.iter().flatten().all(|grant| decoded(*grant)[block]))
            };
            let b1 = if settings.blocks == 2 { ack(1) } else { 0 };
            return ReadingAnswer::bundled(m as u16, grant.cce, ack(0), b1);
        }
        let letter = |grant: &Option<Grant>| match grant {
            None => 'D',
            Some(grant) if decoded(*grant) == [true, true] => 'A',
            Some(_) => 'N',
        };
        let state: String = heard.iter().map(letter).collect();
        let symbol = self.model.symbol(&state).expect("something was heard");
        let delivered = self.model.delivered(window.size(), symbol).expect("this state sends it");
        let is_delivered = |m: usize| delivered >> m & 1 == 1;
        let mut by_position = state.chars().enumerate();
        assert!(by_position.all(|(m, letter)| letter == 'A' || !is_delivered(m)), "{state}");
        let named = heard[usize::from(symbol.index)].expect("the index is heard");
        ReadingAnswer::multiplexed(symbol.index, named.cce, delivered)
    }
}

/// The configurations with both modes.
const BOTH_MODES: [u16; 6] = [0, 1, 2, 3, 4, 6];

/// So many windows are answered in the feeds of a run, by configuration as above.
const WINDOWS: [u64; 6] = [12, 12, 6, 9, 6, 15];

/// A window that is answered after a change and began before it has the mode from before the
/// change. So it is for as many places as its largest k, if all of them are among the fifteen.
/// Over the windows of three frames these are, by configuration as above:
const OVERTAKEN: [u64; 6] = [30, 33, 24, 37, 30, 52];

/// One change to the other mode, at every place, with every pattern.
#[test]
fn one_change_at_every_place() {
    let model = Model::new();
    let (mut all, mut compared) = (Count::default(), 0);
    for (at, config) in BOTH_MODES.into_iter().enumerate() {
        let mut count = Count::default();
        for settings in cells(config) {
            for pattern in 0..PATTERNS {
                let sent = grants(&model, settings, pattern, FEEDS);
                for place in 0..PLACES {
                    let mut run = Run::new(&model, settings, &sent);
                    for s in 0..FEEDS {
                        if s == place {
                            run.change(1 - settings.mode);
                        }
                        run.feed();
                    }
                    count.add(run.count);
                    compared += run.comparison.total();
                }
            }
        }
        let runs = 4 * PATTERNS as u64;
        assert_eq!(count.windows, runs * PLACES as u64 * WINDOWS[at], "configuration {config}");
        assert_eq!(count.in_another_mode, runs * OVERTAKEN[at], "configuration {config}");
        assert_eq!(count.differing > 0, [1, 2, 3, 4].contains(&config), "{config}: {count:?}");
        all.add(count);
    }
    println!("{all:?}, {compared} compared");
    // A make, a change and the feeds of each run.
    let runs = (6 * 4 * PATTERNS * PLACES) as u64;
    assert_eq!(compared, runs * (2 + FEEDS as u64));
}

/// The same over all pairs of places, with a change at the first and back at the second.
const OVERTAKEN_TWICE: [u64; 6] = [312, 324, 198, 314, 216, 484];

/// Two changes, to the other mode and back, at every two places, and both at one place too.
#[test]
fn two_changes_at_every_pair_of_places() {
    let model = Model::new();
    let patterns: Vec<usize> = (0..PATTERNS).step_by(10).collect();
    let pairs = (PLACES * (PLACES + 1) / 2) as u64;
    for (at, config) in BOTH_MODES.into_iter().enumerate() {
        let mut count = Count::default();
        for settings in cells(config) {
            for pattern in &patterns {
                let sent = grants(&model, settings, *pattern, FEEDS);
                for (first, second) in pairs_of_places() {
                    let mut run = Run::new(&model, settings, &sent);
                    for s in 0..FEEDS {
                        if s == first {
                            run.change(1 - settings.mode);
                        }
                        if s == second {
                            run.change(settings.mode);
                        }
                        run.feed();
                    }
                    count.add(run.count);
                }
            }
        }
        println!("configuration {config}: {count:?}");
        let runs = 4 * patterns.len() as u64;
        assert_eq!(count.windows, runs * pairs * WINDOWS[at], "configuration {config}");
        assert_eq!(count.in_another_mode, runs * OVERTAKEN_TWICE[at], "configuration {config}");
        assert_eq!(count.differing > 0, [1, 2, 3, 4].contains(&config), "{config}: {count:?}");
    }
}

fn pairs_of_places() -> impl Iterator<Item = (usize, usize)> {
    (0..PLACES).flat_map(|first| (first..PLACES).map(move |second| (first, second)))
}

/// In configuration 5 a change to multiplexing is refused at every place, and all is answered
/// as if it had not been asked for.
#[test]
fn configuration_5_has_no_other_mode() {
    let model = Model::new();
    let mut windows = 0;
    for blocks in [1, 2] {
        let settings = Settings::plain(5, 50, 10, 0, blocks);
        for pattern in 0..PATTERNS {
            let sent = grants(&model, settings, 241 * pattern, FEEDS);
            for place in 0..PLACES {
                let mut run = Run::new(&model, settings, &sent);
                for s in 0..FEEDS {
                    if s == place {
                        run.refuse_change(5, 1);
                        run.refuse_change(4, 2);
                        run.change(0);
                    }
                    run.feed();
                }
                assert_eq!(run.handset, run.unchanged[0]);
                windows += run.count.windows;
            }
        }
    }
    assert_eq!(windows, (2 * PATTERNS * PLACES * 3) as u64);
}

/// A change beside a refused feed, at every place. The mode at the refused feed is not that
/// of a feed: changed back before the feed that is accepted, all goes as without a change,
/// and a change behind the refused feed counts at the accepted one.
#[test]
fn a_refused_feed_between_changes() {
    let model = Model::new();
    let mut count = Count::default();
    for settings in [1, 2, 3, 4].into_iter().flat_map(cells) {
        let other = 1 - settings.mode;
        for pattern in (0..PATTERNS).step_by(20) {
            let sent = grants(&model, settings, pattern, FEEDS);
            for place in 0..PLACES {
                let mut there_and_back = Run::new(&model, settings, &sent);
                let mut behind = Run::new(&model, settings, &sent);
                let mut without = Run::new(&model, settings, &sent);
                for s in 0..FEEDS {
                    if s == place {
                        there_and_back.change(other);
                        there_and_back.refuse_feed();
                        there_and_back.change(settings.mode);
                        behind.refuse_feed();
                        behind.change(other);
                        without.change(other);
                    }
                    there_and_back.feed();
                    behind.feed();
                    without.feed();
                    assert_eq!(behind.handset, without.handset);
                    let made_mode = usize::from(settings.mode);
                    assert_eq!(there_and_back.handset, there_and_back.unchanged[made_mode]);
                }
                assert_eq!(there_and_back.count.in_another_mode, 0);
                count.add(behind.count);
            }
        }
    }
    println!("{count:?}");
    assert!(count.in_another_mode > 1000 && count.differing > 500);
}

/// Random lists of feeds and changes from a fresh handset, refused ones of both among them.
#[test]
fn random_lists() {
    const RUNS: u64 = 1500;
    const LENGTH: usize = 80;
    let model = Model::new();
    let mut count = Count::default();
    let (mut feeds, mut refused_changes) = (0, 0);
    for seed in 0..RUNS {
        let mut random = Random::new(8 << 40 | seed);
        let settings = random.plain_settings();
        let sent = grants(&model, settings, random.below(19_683), LENGTH);
        let mut run = Run::new(&model, settings, &sent);
        let often = random.one_of(&[2, 4, 8, 16]);
        while run.modes.len() < LENGTH {
            match random.below(often) {
                0 => {
                    let number = change_any(&mut run, random.wild_mode(4));
                    refused_changes += u64::from(number != 0);
                }
                1 if random.once_in(2) => run.refuse_feed(),
                _ => {
                    run.feed();
                    feeds += 1;
                }
            }
        }
        count.add(run.count);
    }
    println!("{count:?}, {refused_changes} refused changes");
    assert_eq!(feeds, RUNS * LENGTH as u64);
    assert!(refused_changes > 1000 && count.in_another_mode > 5000 && count.differing > 2000);
}

/// A change to any number, and its refusal, 0 for none.
fn change_any(run: &mut Run, mode: u16) -> u16 {
    let number = match (mode, run.made.config) {
        (1, 5) => 5,
        (0 | 1, _) => 0,
        _ => 4,
    };
    match number {
        0 => run.change(mode),
        _ => run.refuse_change(number, mode),
    }
    number
}
