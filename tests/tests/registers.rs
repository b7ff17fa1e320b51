//! The register block of a handset in lists of commands. Every block, line, refusal and handset on
//! the way is held to the model, and to a running handset that the engine's feeds make with flags
//! beside it; what the block shows is held to a replay. Rules that differ from the papers' in one
//! point are shown to leave something otherwise.

use feedback_tests::compare::Comparison;
use feedback_tests::guarded::Guarded;
use feedback_tests::model::{is_uplink, Model};
use feedback_tests::random::Random;
use feedback_tests::registers::{
    is_high, Found, Written, ALL, CLEAR, COMMAND, FEED, FLAGS, MASK, NO_COMMAND, OVERWRITTEN,
    READY, REFUSED, REPLY, SIZE, ZEROS,
};
use feedback_tests::trace::{Trace, WINDOW};
use feedback_tests::{
    change_mode, command, feed_grant, feed_nothing, feed_release, feed_scheduled, make, replay,
    Block, CommandAnswer, Fed, Grant, Handset, Release, ReplayAnswer, Settings, Slot,
};

/// A command, with the block and the handset before it and the block after it.
struct Seen<'a> {
    handset: Handset,
    before: &'a [u8],
    after: &'a [u8],
    answer: CommandAnswer,
    has_window: bool,
}

impl Seen<'_> {
    fn is(&self, command: u8) -> bool {
        self.before[COMMAND] == command
    }

    fn is_fed(&self) -> bool {
        self.is(FEED) && self.answer.refusal == 0
    }

    fn is_uplink(&self) -> bool {
        is_uplink(self.handset.settings.config, self.handset.next)
    }

    /// Whether a reply came of a kind.
    fn replied(&self, kind: u8) -> bool {
        self.is_fed() && self.has_window && self.after[REPLY + 1] == kind
    }

    fn had(&self, flag: u8) -> bool {
        self.before[FLAGS] & flag != 0
    }

    fn has(&self, flag: u8) -> bool {
        self.after[FLAGS] & flag != 0
    }

    /// The line before and after, by the mask that is written.
    fn line(&self) -> (bool, bool) {
        (is_high(self.before), self.answer.line == 1)
    }

    /// The resource of a reply.
    fn resource(&self) -> u16 {
        u16::from_le_bytes([self.after[REPLY + 2], self.after[REPLY + 3]])
    }
}

/// What may be seen of a command.
type Sight = fn(&Seen) -> bool;

const SIGHTS: [(&str, Sight); 28] = [
    ("a bundled reply", |seen| seen.replied(1)),
    ("a multiplexed reply", |seen| seen.replied(2)),
    ("a silent window", |seen| seen.replied(0)),
    ("a reply with two ports", |seen| seen.replied(1) && seen.handset.settings.ports == 2),
    ("a resource above 255", |seen| seen.replied(1) && seen.resource() > 255),
    ("a reply on the scheduled resource", |seen| {
        seen.replied(1) && seen.resource() == seen.handset.settings.scheduled
    }),
    ("a reply that overwrites", |seen| {
        seen.replied(1) && seen.had(READY) && !seen.had(OVERWRITTEN)
    }),
    ("a silence that overwrites", |seen| {
        seen.replied(0) && seen.had(READY) && !seen.had(OVERWRITTEN)
    }),
    ("one more that overwrites", |seen| {
        seen.replied(1) && seen.had(READY) && seen.had(OVERWRITTEN)
    }),
    ("a reply that does not overwrite", |seen| seen.replied(1) && !seen.has(OVERWRITTEN)),
    ("a reply beside an older bit 2", |seen| {
        seen.replied(1) && !seen.had(READY) && seen.has(OVERWRITTEN)
    }),
    ("a reply beside an older refusal", |seen| seen.replied(1) && seen.has(REFUSED)),
    ("taken", |seen| seen.is_fed() && seen.before[0] != 0),
    ("nothing that is taken", |seen| seen.is_fed() && seen.before[0] == 0 && !seen.is_uplink()),
    ("no window", |seen| seen.is_fed() && seen.is_uplink() && !seen.has_window),
    ("a refused feed beside a reply that is ready", |seen| {
        seen.is(FEED) && seen.answer.refusal != 0 && seen.had(READY)
    }),
    ("a refusal after a refusal", |seen| seen.answer.refusal != 0 && seen.had(REFUSED)),
    ("a bad kind under another command", |seen| seen.answer.refusal == 28 && seen.before[0] > 3),
    ("none", |seen| seen.is(NO_COMMAND)),
    ("bit 0 cleared", |seen| seen.is(CLEAR) && seen.had(READY) && !seen.has(READY)),
    ("bit 1 cleared", |seen| seen.is(CLEAR) && seen.had(REFUSED) && !seen.has(REFUSED)),
    ("bit 2 cleared", |seen| seen.is(CLEAR) && seen.had(OVERWRITTEN) && !seen.has(OVERWRITTEN)),
    ("a clear that leaves a flag", |seen| seen.is(CLEAR) && seen.has(ALL)),
    ("a clear that finds none", |seen| seen.is(CLEAR) && seen.before == seen.after),
    ("the line goes up", |seen| seen.line() == (false, true)),
    ("the line goes down", |seen| seen.line() == (true, false)),
    ("the line stays high", |seen| seen.line() == (true, true)),
    ("a flag that is masked", |seen| seen.has(ALL) && seen.answer.line == 0),
];

/// How often each was seen.
#[derive(Default)]
struct Sights([u64; SIGHTS.len()]);

impl Sights {
    fn see(&mut self, seen: &Seen) {
        for ((_, sight), number) in SIGHTS.iter().zip(&mut self.0) {
            *number += u64::from(sight(seen));
        }
    }

    /// Each was seen so often at least.
    fn assert_each(&self, least: u64) {
        for ((name, _), number) in SIGHTS.iter().zip(self.0) {
            println!("{name}: {number}");
            assert!(number >= least, "{name}: {number}");
        }
    }
}

/// Whether the next subframe of a handset has a window.
fn has_window(model: &Model, handset: Handset) -> bool {
    model.window(handset.settings.config, handset.next).is_some()
}

/// Settings of any kind: two ports, one, with a scheduled resource or without.
fn settings(random: &mut Random) -> Settings {
    match random.once_in(2) {
        true => random.settings(),
        false => random.scheduled_settings(),
    }
}

/// A list that goes on from a handset and a block, each command held to the model.
struct List<'a> {
    model: &'a Model,
    comparison: Comparison<'a>,
    lent: Guarded,
    sights: Sights,
    found: Found,
}

impl<'a> List<'a> {
    fn new(model: &'a Model) -> Self {
        let (comparison, lent) = (Comparison::with(model), Guarded::new(SIZE));
        Self { model, comparison, lent, sights: Sights::default(), found: Found::default() }
    }

    /// So many commands. The handset and the block are always those that the one before left.
    fn run(
        &mut self,
        mut handset: Handset,
        mut block: [u8; SIZE],
        commands: u64,
        random: &mut Random,
    ) {
        for _ in 0..commands {
            random.written(self.model, handset).write(&mut block);
            let (answer, left) = self.comparison.command(&mut self.lent, handset, &block);
            let has_window = has_window(self.model, handset);
            self.sights.see(&Seen { handset, before: &block, after: &left, answer, has_window });
            self.found.hold(self.model, handset, &block, (answer, &left));
            handset = answer.handset;
            block.copy_from_slice(&left);
        }
    }
}

/// The refusals that a list of commands can meet.
const REFUSALS: [usize; 9] = [0, 9, 10, 11, 12, 18, 20, 22, 28];

/// Lists from a fresh handset and a block of zeros.
#[test]
fn lists_from_zeros() {
    const LISTS: u64 = 200;
    const COMMANDS: u64 = 200;
    let model = Model::new();
    let mut list = List::new(&model);
    for seed in 0..LISTS {
        let mut random = Random::new(seed);
        let made = make(settings(&mut random));
        assert_eq!(made.refusal, 0);
        list.run(made.handset, ZEROS, COMMANDS, &mut random);
    }
    list.comparison.finish_with(LISTS * COMMANDS * 2, &REFUSALS, &[]);
    list.sights.assert_each(100);
    // No state is bad here, every block has 16 bytes, and the other bits of byte 5 stay 0.
    list.found.assert_caught_all_but(&[
        "clear drops bits 3 to 7",
        "none answers 8 on a bad state",
        "clear answers 8 on a bad state",
        "the line over all eight bits",
        "28 before 29",
        "8 before 22",
    ]);
}

/// Lists that go on from any block, in which flags, other bits and a reply stand that never came.
#[test]
fn lists_from_any_block() {
    const LISTS: u64 = 200;
    const COMMANDS: u64 = 100;
    let model = Model::new();
    let mut list = List::new(&model);
    for seed in 0..LISTS {
        let mut random = Random::new(1000 + seed);
        let handset = make(settings(&mut random)).handset;
        let block = random.register_block();
        list.run(handset, block, COMMANDS, &mut random);
    }
    list.comparison.finish_with(LISTS * COMMANDS * 2, &REFUSALS, &[]);
    list.sights.assert_each(50);
    list.found.assert_caught_all_but(&[
        "none answers 8 on a bad state",
        "clear answers 8 on a bad state",
        "28 before 29",
        "8 before 22",
    ]);
}

/// The running handset of the engine's feeds, with the flags of the request beside it. No flag is a
/// bit here, and no part has a place in a block.
struct Panel {
    handset: Handset,
    reply_ready: bool,
    refusal: bool,
    overwritten_unread: bool,
    refusal_number: u8,
    last_reply: [u8; WINDOW],
}

impl Panel {
    fn new(handset: Handset) -> Self {
        Self {
            handset,
            reply_ready: false,
            refusal: false,
            overwritten_unread: false,
            refusal_number: 0,
            last_reply: [0; WINDOW],
        }
    }

    /// The refusal of a command and whether the line is high.
    fn command(&mut self, written: Written) -> (u16, bool) {
        let Written { record, command, mask } = written;
        let refusal = match command {
            0 => 0,
            1 => self.feed(record),
            2 => {
                self.clear(record.kind);
                0
            }
            _ => 28,
        };
        if refusal != 0 {
            self.refusal = true;
            self.refusal_number = refusal as u8;
        }
        let high = self.reply_ready && is_set(mask, 0)
            || self.refusal && is_set(mask, 1)
            || self.overwritten_unread && is_set(mask, 2);
        (refusal, high)
    }

    fn clear(&mut self, dropped: u8) {
        self.reply_ready = self.reply_ready && !is_set(dropped, 0);
        self.refusal = self.refusal && !is_set(dropped, 1);
        self.overwritten_unread = self.overwritten_unread && !is_set(dropped, 2);
    }

    /// The refusal of a feed.
    fn feed(&mut self, record: Slot) -> u16 {
        let n = self.handset.next;
        let Some(fed) = feed_of(self.handset, record) else {
            return 22;
        };
        self.handset = fed.handset;
        match fed.kind {
            Fed::SILENT => self.arrive([n, 0, 0, 0, 0, 0, 0, 0]),
            Fed::BUNDLED | Fed::MULTIPLEXED => {
                let (low, high) = (fed.resource % 256, fed.resource / 256);
                self.arrive([n, fed.kind, low, high, fed.b0, fed.b1, 0, 0]);
            }
            _ => {}
        }
        fed.refusal
    }

    fn arrive(&mut self, reply: [u16; WINDOW]) {
        if self.reply_ready {
            self.overwritten_unread = true;
        }
        self.reply_ready = true;
        self.last_reply = reply.map(|number| number as u8);
    }

    /// The block that shows all this, with the bytes that are written.
    fn block(&self, written: Written) -> [u8; SIZE] {
        let Written { record: Slot { kind, cce, dai, results }, command, mask } = written;
        let flags = u8::from(self.reply_ready)
            + 2 * u8::from(self.refusal)
            + 4 * u8::from(self.overwritten_unread);
        let head = [kind, cce, dai, results, command, flags, mask, self.refusal_number];
        [head, self.last_reply].concat().try_into().expect("16 bytes")
    }
}

/// Whether a bit of a byte is set.
fn is_set(byte: u8, bit: u32) -> bool {
    byte / 2u8.pow(bit) % 2 == 1
}

/// The engine's feed of a record, unless it has no such kind. Bit 2 of the results says that two
/// blocks came, and bit 1 tells of the second.
fn feed_of(handset: Handset, record: Slot) -> Option<Fed> {
    let Slot { kind, cce, dai, results } = record;
    let (cce, dai) = (cce.into(), dai.into());
    let is_two = is_set(results, 2);
    let first = is_set(results, 0).into();
    let second = (is_two && is_set(results, 1)).into();
    let blocks = if is_two { 2 } else { 1 };
    match kind {
        0 => Some(feed_nothing(handset)),
        1 => Some(feed_grant(handset, Grant { blocks, first, second, cce, dai })),
        2 => Some(feed_scheduled(handset, Block { blocks, first, second })),
        3 => Some(feed_release(handset, Release { cce, dai })),
        _ => None,
    }
}

/// Lists beside a running handset, and what was met on the way.
struct Beside<'a> {
    model: &'a Model,
    sights: Sights,
    by_refusal: [u64; 30],
}

impl<'a> Beside<'a> {
    fn new(model: &'a Model) -> Self {
        Self { model, sights: Sights::default(), by_refusal: [0; 30] }
    }

    /// One command. After it the block is that of the running handset with the flags beside it, and
    /// the handset returned is the running one, every byte.
    fn hold(
        &mut self,
        panel: &mut Panel,
        handset: Handset,
        block: &mut [u8; SIZE],
        random: &mut Random,
    ) -> Handset {
        let written = random.written(self.model, handset);
        written.write(block);
        let before = *block;
        let answer = command(handset, block);
        let (refusal, high) = panel.command(written);
        let due = CommandAnswer::of(refusal, high, panel.handset);
        let block_due = panel.block(written);
        assert!(
            answer == due && *block == block_due,
            "{written:?} on {handset:?} and {before:?}: {answer:?} and {block:?}; the running \
             handset gives {due:?} and {block_due:?}"
        );
        assert_eq!(answer.handset.bytes(), panel.handset.bytes(), "{written:?} on {handset:?}");
        self.by_refusal[usize::from(refusal)] += 1;
        let has_window = has_window(self.model, handset);
        self.sights.see(&Seen { handset, before: &before, after: &block[..], answer, has_window });
        answer.handset
    }
}

/// Many lists from fresh handsets and blocks of zeros.
#[test]
fn equals_the_running_handset_with_flags_beside_it() {
    const LISTS: u64 = 2000;
    const COMMANDS: u64 = 300;
    let model = Model::new();
    let mut beside = Beside::new(&model);
    for seed in 0..LISTS {
        let mut random = Random::new(2000 + seed);
        let fresh = make(settings(&mut random)).handset;
        let (mut handset, mut block, mut panel) = (fresh, ZEROS, Panel::new(fresh));
        for _ in 0..COMMANDS {
            handset = beside.hold(&mut panel, handset, &mut block, &mut random);
        }
    }
    println!("by refusal {:?}", beside.by_refusal);
    assert_eq!(beside.by_refusal.iter().sum::<u64>(), LISTS * COMMANDS);
    assert!(REFUSALS.into_iter().all(|number| beside.by_refusal[number] > 1000));
    beside.sights.assert_each(1000);
}

/// The same while between commands the mode of the handset changes and a subframe is fed, by their
/// own calls, which touch no block. Each command is held to the model too, so each reply is of its
/// window's mode. Counted are those of another mode than the one that stands.
#[test]
fn goes_on_through_own_calls() {
    const LISTS: u64 = 500;
    const COMMANDS: u64 = 300;
    let model = Model::new();
    let mut beside = Beside::new(&model);
    let (mut changes, mut own_feeds, mut in_another_mode) = (0, 0, [0; 2]);
    for seed in 0..LISTS {
        let mut random = Random::new(5000 + seed);
        let fresh = make(random.scheduled_settings()).handset;
        let (mut handset, mut block, mut panel) = (fresh, ZEROS, Panel::new(fresh));
        for _ in 0..COMMANDS {
            if random.once_in(6) {
                let changed = change_mode(handset, random.below16(2));
                changes += u64::from(changed.refusal == 0);
                (handset, panel.handset) = (changed.handset, changed.handset);
            }
            if random.once_in(20) {
                let fed = feed_nothing(handset);
                own_feeds += u64::from(fed.refusal == 0);
                (handset, panel.handset) = (fed.handset, fed.handset);
            }
            let (before, lent) = (block, handset);
            handset = beside.hold(&mut panel, handset, &mut block, &mut random);
            let mut due = before;
            due[..FLAGS].copy_from_slice(&block[..FLAGS]);
            due[MASK] = block[MASK];
            let told = model.command(lent, &mut due);
            assert!(
                told.handset == handset && due == block,
                "{lent:?} and {before:?}: {block:?}, {due:?} by the model"
            );
            let window = model.window(lent.settings.config, lent.next);
            let is_long = window.is_some_and(|window| window.size() > 1);
            let replied = handset != lent && is_long && before[REPLY..] != block[REPLY..];
            let of_kind = |kind: u8| replied && block[REPLY + 1] == kind;
            in_another_mode[0] += u64::from(of_kind(1) && lent.settings.mode == 1);
            in_another_mode[1] += u64::from(of_kind(2) && lent.settings.mode == 0);
        }
    }
    println!("{changes} changes, {own_feeds} own feeds, {in_another_mode:?} replies, by mode, while the other stands");
    assert!(changes > 10_000 && own_feeds > 5000);
    assert!(in_another_mode.iter().all(|number| *number > 500));
}

/// Records that a replay takes to the end, with the windows that it writes.
fn replayed(model: &Model, random: &mut Random) -> (Settings, Vec<Slot>, Vec<u8>) {
    let settings = random.mixed_settings();
    let number = random.below(200);
    let records = random.records(model, settings, number);
    let windows = model.windows_among(settings.config, records.len());
    let mut output = vec![0; WINDOW * windows];
    let answer = replay(&Trace::new(settings, &records).bytes(), &mut output);
    assert_eq!(answer, ReplayAnswer::done(windows));
    (settings, records, output)
}

/// After each record the block shows the last window that a replay of the records so far writes,
/// though no one takes the replies away, and whatever other commands come in between.
#[test]
fn shows_the_windows_of_a_replay() {
    let model = Model::new();
    let mut random = Random::new(3);
    let (mut shown, mut between) = (0, 0);
    for _ in 0..2000 {
        let (settings, records, output) = replayed(&model, &mut random);
        let (mut handset, mut block) = (make(settings).handset, ZEROS);
        for (number, record) in records.into_iter().enumerate() {
            while random.once_in(3) {
                let other = random.one_of(&[NO_COMMAND, CLEAR, 3, 255]);
                let [kind, cce, dai, results, mask, ..] = random.register_block();
                let record = Slot { kind, cce, dai, results };
                Written { record, command: other, mask }.write(&mut block);
                let answer = command(handset, &mut block);
                assert_eq!(answer.refusal, if other > CLEAR { 28 } else { 0 });
                assert_eq!(answer.handset, handset);
                between += 1;
            }
            Written::feed(record, random.any_byte()).write(&mut block);
            let answer = command(handset, &mut block);
            assert_eq!(answer.refusal, 0, "{settings:?}, record {number}, {record:?}");
            let windows = model.windows_among(settings.config, number + 1);
            let last = match windows {
                0 => &ZEROS[..WINDOW],
                _ => &output[..WINDOW * windows][WINDOW * (windows - 1)..],
            };
            assert_eq!(&block[REPLY..], last, "{settings:?}, record {number}, {record:?}");
            handset = answer.handset;
            shown += 1;
        }
    }
    println!("{shown} records, {between} other commands");
    assert!(shown > 150_000 && between > 50_000);
}

/// One who looks at the line alone, with bit 0 in the mask, and clears the bit when a reply is
/// read, has read the bytes that a replay writes, all of them and nothing else. No reply is
/// overwritten.
#[test]
fn read_by_the_line_it_is_a_replay() {
    let model = Model::new();
    let mut random = Random::new(4);
    let mut windows = 0;
    for _ in 0..2000 {
        let (settings, records, output) = replayed(&model, &mut random);
        let (mut handset, mut block, mut read) = (make(settings).handset, ZEROS, Vec::new());
        for record in records {
            Written::feed(record, READY).write(&mut block);
            let answer = command(handset, &mut block);
            handset = answer.handset;
            if answer.line == 1 {
                read.extend_from_slice(&block[REPLY..]);
                Written::clear(READY, READY).write(&mut block);
                let cleared = command(handset, &mut block);
                assert_eq!(cleared, CommandAnswer::of(0, false, handset));
            }
            assert_eq!(block[FLAGS], 0, "{settings:?}, {record:?}");
        }
        assert_eq!(read, output, "{settings:?}");
        windows += read.len() / WINDOW;
    }
    println!("{windows} windows");
    assert!(windows > 50_000);
}

/// The bytes of a block by their digits; blanks part them for the eye.
fn bytes(digits: &str) -> [u8; SIZE] {
    let digits: Vec<char> = digits.chars().filter(|digit| *digit != ' ').collect();
    let byte = |pair: &[char]| {
        let text: String = pair.iter().collect();
        u8::from_str_radix(&text, 16).expect("two digits")
    };
    digits.chunks(2).map(byte).collect::<Vec<u8>>().try_into().expect("16 bytes")
}

/// Configuration 1: DSUUDDSUUD, where 7 answers for 0 and 1 and 8 for 4. N_RB 50, N1 300, up to
/// two blocks. Before each command six bytes are written, and after it every byte is here: the
/// record, the command, flags, mask, number and reply. Then the refusal, the line, and the subframe
/// that is expected.
const BY_HAND: [([u8; 6], &str, u16, u16, u16); 20] = [
    // A grant in 0 is taken: first CCE 5, DAI 1, two blocks of which the first is decoded.
    ([1, 5, 1, 5, 1, 7], "01050105 01 00 07 00 0000000000000000", 0, 0, 1),
    // Nothing in 1; what its kind does not use may be anything.
    ([0, 255, 255, 255, 1, 7], "00ffffff 01 00 07 00 0000000000000000", 0, 0, 2),
    // 2 is uplink: 9, and the line by bit 1 of the mask.
    ([1, 5, 1, 5, 1, 2], "01050105 01 02 02 09 0000000000000000", 9, 1, 2),
    // The window of 2 lies before the start: silent, and a reply. Bit 1 and the number stay.
    ([0, 0, 0, 0, 1, 4], "00000000 01 03 04 09 0200000000000000", 0, 0, 3),
    // None changes nothing, but the line goes by the mask that stands now.
    ([9, 9, 9, 9, 0, 1], "09090909 00 03 01 09 0200000000000000", 0, 1, 3),
    // The window of 3 too: the reply before it was not read.
    ([0, 0, 0, 0, 1, 4], "00000000 01 07 04 09 0300000000000000", 0, 1, 4),
    // Bits 0 and 2 are cleared; the number and the reply stay, and the line goes down.
    ([0xfd, 0, 0, 0, 2, 5], "fd000000 02 02 05 09 0300000000000000", 0, 0, 4),
    // Another command is 28, whatever the kind.
    ([4, 5, 1, 5, 3, 5], "04050105 03 02 05 1c 0300000000000000", 28, 0, 4),
    // A kind over 3 is 22.
    ([4, 5, 1, 5, 1, 5], "04050105 01 02 05 16 0300000000000000", 22, 0, 4),
    // A first CCE of 61 is 11.
    ([3, 61, 5, 0, 1, 5], "033d0500 01 02 05 0b 0300000000000000", 11, 0, 4),
    // DAI 5 is 12.
    ([3, 60, 5, 0, 1, 5], "033c0500 01 02 05 0c 0300000000000000", 12, 0, 4),
    // No resource is set for a scheduled block: 18.
    ([2, 60, 5, 1, 1, 5], "023c0501 01 02 05 12 0300000000000000", 18, 0, 4),
    // A release in 4 is taken: first CCE 60, DAI 1.
    ([3, 60, 1, 255, 1, 5], "033c01ff 01 02 05 12 0300000000000000", 0, 0, 5),
    ([0, 0, 0, 0, 1, 5], "00000000 01 02 05 12 0300000000000000", 0, 0, 6),
    ([0, 0, 0, 0, 1, 5], "00000000 01 02 05 12 0300000000000000", 0, 0, 7),
    // 7: the grant of 0 at position 0, 300 + 5 = 305, and its bits 1 and 0. The line goes up.
    ([0, 0, 0, 0, 1, 5], "00000000 01 03 05 12 0701310101000000", 0, 1, 8),
    // A clear of nothing.
    ([0xf8, 0, 0, 0, 2, 5], "f8000000 02 03 05 12 0701310101000000", 0, 1, 8),
    // 8: the release of 4, 300 + 60 = 360, and an ACK for both blocks. The reply of 7 is lost.
    ([0, 0, 0, 0, 1, 5], "00000000 01 07 05 12 0801680101010000", 0, 1, 9),
    // All flags are cleared, and the reply can still be read.
    ([7, 0, 0, 0, 2, 255], "07000000 02 00 ff 12 0801680101010000", 0, 0, 9),
    ([0, 0, 0, 0, 1, 255], "00000000 01 00 ff 12 0801680101010000", 0, 0, 0),
];

#[test]
fn a_list_by_hand() {
    let made = make(Settings::plain(1, 50, 300, 0, 2));
    let (mut handset, mut block) = (made.handset, ZEROS);
    for (at, (written, due, refusal, line, expected)) in BY_HAND.into_iter().enumerate() {
        Written::of(written).write(&mut block);
        let answer = command(handset, &mut block);
        assert_eq!(block, bytes(due), "command {at}");
        let given = (answer.refusal, answer.line, answer.handset.next);
        assert_eq!(given, (refusal, line, expected), "command {at}");
        let keeps = refusal != 0 || written[4] != FEED;
        assert_eq!(answer.handset == handset, keeps, "command {at}");
        handset = answer.handset;
    }
}
