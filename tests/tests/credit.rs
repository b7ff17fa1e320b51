//! What is credited. Every size of the table comes through a credit, and every window meets
//! every way in which what was sent is lost, heard and decoded: a handset answers through the C
//! calls, and the reply is credited. Sizes are chosen so that the octets say which blocks they
//! are of; each of these must have been decoded. Nothing is sampled: a window of nine has 3^9
//! ways to send nothing, lose a grant or hear it. Rules that differ in one point are shown to
//! credit otherwise, and mostly what never arrived.

use feedback_tests::charging::{every_size, ToldApart};
use feedback_tests::compare::{Comparison, WINDOWS};
use feedback_tests::every;
use feedback_tests::fates::{
    every_pattern, every_pattern_with_a_block, fates_with_releases, heard_two, Cell, Fate, Outcome,
    BLOCKS_OF_ONE, BLOCKS_OF_TWO, DECODED, LOST, LOST_TWO,
};
use feedback_tests::model::{
    is_special, positions_of, Blocks, Model, Rule, Sole, Window, CONFIRMED, CREDITED,
};
use feedback_tests::{
    confirmed, credit, Account, ConfirmedAnswer, CreditAnswer, Exchange, Sent, SentWindow,
    Settings, NONE,
};

/// N_RB and N1 of the cells, and the scheduled resource where one is set.
const NRB: [u16; 1] = [50];
const N1: [u16; 1] = [10];
const SCHEDULED: u16 = 9;

/// A price at which the carry takes all kinds of values.
const PRICE: u32 = 777_777;

/// The rules that differ from the right one in one point.
const WRONG: [(&str, Rule); 8] = [
    ("five for four", Rule { most: 5, ..CREDITED }),
    ("three for four", Rule { most: 3, ..CREDITED }),
    ("releases not counted", Rule { releases_counted: false, ..CREDITED }),
    ("position for time order", Rule { by_time: false, ..CREDITED }),
    ("a block by the ACK of a PDCCH", Rule { blocks_apart: false, ..CREDITED }),
    ("a sole block by the second bit", Rule { sole: Sole::SecondBit, ..CREDITED }),
    ("a sole block by either bit", Rule { sole: Sole::EitherBit, ..CREDITED }),
    ("another first CCE there", Rule { named_compared: false, ..CREDITED }),
];

/// A window of a cell, with sizes by which its blocks are told apart.
struct Billed<'a> {
    cell: Cell<'a>,
    apart: ToldApart,
}

impl<'a> Billed<'a> {
    fn new(model: &Model, settings: Settings, window: &'a Window) -> Self {
        let apart = ToldApart::new(model, window, settings.blocks.into());
        Self { cell: Cell::new(settings, window).with_sizes(apart.sizes), apart }
    }
}

/// What was found in one window: how many patterns there were, how many of them a handset
/// answered, and the blocks credited. For each wrong rule the replies that it credits
/// otherwise, and those by which it credits what was not decoded.
struct Found {
    patterns: u64,
    replies: u64,
    blocks: u64,
    otherwise: [u64; WRONG.len()],
    unsound: [u64; WRONG.len()],
    account: Account,
}

impl Found {
    fn new() -> Self {
        let none = [0; WRONG.len()];
        let account = Account::new(PRICE);
        Self { patterns: 0, replies: 0, blocks: 0, otherwise: none, unsound: none, account }
    }

    /// Credits the reply for a pattern, if there is one, and goes on with the account.
    fn try_pattern(&mut self, billed: &Billed, pattern: &[Fate]) {
        let Billed { cell, apart } = billed;
        let outcome = cell.run(pattern);
        self.patterns += 1;
        if let Some(given) =
            self.hold(cell.window, pattern, &outcome, |blocks| apart.octets(blocks))
        {
            assert_eq!(
                apart.blocks(given.octets).map(|blocks| blocks & !outcome.decoded),
                Some(0),
                "{pattern:?}, {outcome:?}: {given:?} is of blocks that were not decoded"
            );
        }
    }

    /// The reply is credited with the octets of the blocks that the rule credits.
    fn hold(
        &mut self,
        window: &Window,
        pattern: &[Fate],
        outcome: &Outcome,
        octets: impl Fn(Blocks) -> u32,
    ) -> Option<CreditAnswer> {
        let Outcome { ref sent, exchange, read, decoded, .. } = *outcome;
        let read = read?;
        self.replies += 1;
        let due = CREDITED.confirms(window, sent, read);
        let before = self.account;
        let given = credit(exchange, before);
        let total = before.octets + u64::from(octets(due));
        assert_eq!(
            given,
            CreditAnswer::of(octets(due), Account::with(PRICE, total)),
            "{pattern:?}, {exchange:?}, {before:?}: the engine gives the first, and the blocks \
             are {due:b}"
        );
        assert_eq!(due & !decoded, 0, "{pattern:?}, {exchange:?}: {due:b} of {decoded:b}");
        let (first, second) = positions_of(CONFIRMED.confirms(window, sent, read));
        let all = confirmed(exchange);
        assert_eq!(all, ConfirmedAnswer::of(first, second), "{pattern:?}, {exchange:?}");
        for ((_, wrong), at) in WRONG.iter().zip(0..) {
            let blocks = wrong.confirms(window, sent, read);
            self.otherwise[at] += u64::from(blocks != due);
            self.unsound[at] += u64::from(blocks & !decoded != 0);
        }
        self.blocks += u64::from(due.count_ones());
        self.account = given.account;
        Some(given)
    }

    /// Shows what was found, and how many replies a wrong rule credits otherwise, and how many
    /// so that it credits what was not decoded.
    fn of_wrong(&self, name: &str) -> (u64, u64) {
        let at = WRONG.iter().position(|(each, _)| *each == name).expect("a wrong rule");
        let (otherwise, unsound) = (self.otherwise[at], self.unsound[at]);
        println!("{name}: {otherwise} of {} otherwise, {unsound} unsound", self.replies);
        (otherwise, unsound)
    }
}

/// The window of nine in a cell with a schedule.
fn nine(model: &Model, blocks: u16) -> (Settings, &Window) {
    let settings = Settings::plain(5, 50, 10, 0, blocks).with_scheduled(SCHEDULED);
    (settings, model.window(5, 2).expect("a window"))
}

/// The ways to choose so many places of some.
fn choose(places: u64, chosen: u64) -> u64 {
    (0..chosen).map(|c| places.saturating_sub(c)).product::<u64>() / (1..=chosen).product::<u64>()
}

/// Every size in a subframe and in a special one, as a grant and as a scheduled block, the
/// first and the second of two; bundled and multiplexed. What is due is read off the lines of
/// the table here. In configuration 1 the window of 2 has 5 and 6, which is a special subframe.
#[test]
fn every_size_is_credited() {
    let model = Model::new();
    let mut comparison = Comparison::with(&model);
    let text = include_str!("../data/table-7.1.7.2.1-1.csv");
    let rows: Vec<Vec<u32>> = text
        .lines()
        .skip(1)
        .map(|line| line.split(',').skip(1).map(|size| size.parse().expect("a size")).collect())
        .collect();
    let greatest = (26, 110);
    let mut sizes = Vec::new();
    for (itbs, nprb) in every_size() {
        for special in [false, true] {
            let column = if special { (3 * nprb / 4).max(1) } else { nprb };
            let size = rows[usize::from(itbs)][usize::from(column) - 1];
            assert!(
                size.is_multiple_of(8) && (16..=75_376).contains(&size),
                "{itbs}, {nprb}: {size}"
            );
            let other = rows[26][if special { 81 } else { 109 }] / 8;
            sizes.push(size);
            for (mode, is_block, second) in [
                (0, false, false),
                (0, true, false),
                (1, false, true),
                (0, false, true),
                (1, true, false),
            ] {
                let settings = Settings::plain(1, 50, 10, mode, 2).with_scheduled(SCHEDULED);
                let at = usize::from(special);
                let mine = (itbs, nprb);
                let (blocks, both) = match second {
                    true => (2, [greatest, mine]),
                    false => (1, [mine, (99, 999)]),
                };
                let mut sent = SentWindow::NOTHING;
                sent.at[at] = match is_block {
                    true => Sent::block(blocks, both),
                    false => Sent::grant(blocks, 0, 1, both),
                };
                let resource = if is_block { SCHEDULED } else { 10 + 11 * at as u16 };
                // Multiplexed, A at position 0 alone is 01, and at position 1 alone 00.
                let (b0, b1) = match (mode, special) {
                    (0, _) => (1 - u16::from(second), 1),
                    (_, false) => (0, 1),
                    (_, true) => (0, 0),
                };
                let exchange = Exchange { settings, n: 2, sent, resource, b0, b1 };
                let due = size / 8 + if second && mode == 1 { other } else { 0 };
                let given = comparison.credit(exchange, Account::new(1_000_000));
                let account = Account::with(1_000_000, due.into());
                assert_eq!(given, CreditAnswer::of(due, account), "{itbs}, {nprb}: {exchange:?}");
            }
        }
    }
    assert_eq!(sizes.len(), 2 * 2970);
    assert_eq!((sizes.iter().min(), sizes.iter().max()), (Some(&16), Some(&75_376)));
    comparison.finish(2 * 2970 * 5, 2 * 2970 * 5);
}

/// Every way to send nothing, lose a grant or hear it at nine positions. By the place i in time
/// of the last heard one: with u heard before it and none lost all u + 1 are credited, if they
/// are no more than four, and it alone if they are more or if four or eight were lost.
#[test]
fn every_pattern_of_nine() {
    let model = Model::new();
    let (settings, window) = nine(&model, 1);
    let billed = Billed::new(&model, settings, window);
    let mut found = Found::new();
    every_pattern(&[Fate::Nothing, LOST, DECODED], 9, |pattern| {
        found.try_pattern(&billed, pattern)
    });
    let none_lost = |i: u64| {
        let of = |u: u64| choose(i, u) * if u < 4 { u + 1 } else { 1 };
        (0..=i).map(of).sum::<u64>()
    };
    let lost = |i: u64, lost: u64| if i < lost { 0 } else { choose(i, lost) << (i - lost) };
    let replies = |i: u64| (0..=i).map(|u| choose(i, u)).sum::<u64>() + lost(i, 4) + lost(i, 8);
    let after = |i: u64| 1u64 << (8 - i);
    let all_replies: u64 = (0..9).map(|i| after(i) * replies(i)).sum();
    let blocks: u64 = (0..9).map(|i| after(i) * (none_lost(i) + lost(i, 4) + lost(i, 8))).sum();
    println!("{all_replies} replies, {blocks} blocks");
    assert_eq!((found.patterns, found.replies, found.blocks), (19_683, all_replies, blocks));
    // Five: the first four are lost, and the fifth is heard at place i. Of five that are all
    // heard the rule credits more, and rightly, but cannot know it.
    let first_four_lost: u64 = (4..9).map(|i| choose(i, 4) * after(i)).sum();
    assert_eq!(found.of_wrong("five for four"), (2 * first_four_lost, first_four_lost));
    // Three: four are sent up to and with the named one, and all are heard.
    let four_heard: u64 = (3..9).map(|i| choose(i, 3) * after(i)).sum();
    assert_eq!(found.of_wrong("three for four"), (four_heard, 0));
    let (otherwise, unsound) = found.of_wrong("position for time order");
    assert!(unsound > 100 && otherwise > unsound);
}

/// Likewise with each of what is sent a release, lost or heard.
#[test]
fn every_pattern_of_nine_with_a_release() {
    let model = Model::new();
    let (settings, window) = nine(&model, 1);
    let billed = Billed::new(&model, settings, window);
    let mut found = Found::new();
    every_pattern(&[Fate::Nothing, LOST, DECODED], 9, |pattern| {
        for m in 0..9 {
            let mut pattern = pattern.to_vec();
            pattern[m] = match pattern[m] {
                Fate::Nothing => continue,
                Fate::Lost { .. } => Fate::LostRelease,
                _ => Fate::HeardRelease,
            };
            found.try_pattern(&billed, &pattern);
        }
    });
    assert_eq!(found.patterns, 9 * 2 * 3u64.pow(8));
    // Five are sent up to and with the one that is named at place i, of which four are lost, or
    // none is: one of the five is the release, and it is not counted. A limit of five is wrong
    // also where the release is lost behind them.
    let among: u64 = 5 * (4..9).map(|i| choose(i, 4) << (8 - i)).sum::<u64>();
    let behind: u64 = (4..8).map(|i| (choose(i, 4) * (8 - i)) << (7 - i)).sum();
    assert_eq!(found.of_wrong("releases not counted"), (2 * among, among));
    assert_eq!(found.of_wrong("five for four"), (2 * (among + behind), among + behind));
    let (otherwise, unsound) = found.of_wrong("three for four");
    assert!(unsound == 0 && otherwise > 100);
    let (_, unsound) = found.of_wrong("position for time order");
    assert!(unsound > 100);
}

/// Likewise with a scheduled block in each place, lost or decoded: it is not counted, and is
/// credited only where the reply is read as it.
#[test]
fn every_pattern_of_nine_with_a_block() {
    let model = Model::new();
    let (settings, window) = nine(&model, 1);
    let billed = Billed::new(&model, settings, window);
    let mut found = Found::new();
    let mut alone = 0;
    every_pattern_with_a_block(
        &[Fate::Nothing, LOST, DECODED],
        &BLOCKS_OF_ONE[..2],
        9,
        |pattern| {
            let before = found.blocks;
            found.try_pattern(&billed, pattern);
            let is_alone = !pattern.iter().any(|fate| matches!(fate, Fate::Heard { .. }));
            alone += if is_alone { found.blocks - before } else { 0 };
        },
    );
    assert_eq!(found.patterns, 9 * 2 * 3u64.pow(8));
    // Decoded, and everything else unheard.
    assert_eq!(alone, 9 * 2u64.pow(8));
    let (otherwise, unsound) = found.of_wrong("a block by the ACK of a PDCCH");
    assert!(unsound > 1000 && otherwise > unsound);
}

/// The window of nine in a cell of two blocks, where every other grant has one: all ways to
/// send nothing, lose or hear, and each of them with all blocks decoded, with one position's
/// first block failed, and with its second.
#[test]
fn every_pattern_of_nine_with_two_blocks() {
    let model = Model::new();
    let (settings, window) = nine(&model, 2);
    // Eighteen blocks cannot all be told apart by their octets.
    let size = |at: u16| (at % 27, 1 + 37 * at % 110);
    let sizes = [0, 1, 2, 3, 4, 5, 6, 7, 8].map(|m| [size(26 - m), size(9 + m)]);
    let cell = Cell::new(settings, window).with_sizes(sizes);
    let octets = |blocks: Blocks| -> u32 {
        let of = |at: u16| {
            let (m, block) = (usize::from(at / 2), usize::from(at % 2));
            let (itbs, nprb) = sizes[m][block];
            model.size(itbs, nprb, is_special(5, window.subframe(m))) / 8
        };
        (0..18).filter(|at| blocks >> at & 1 == 1).map(of).sum()
    };
    let mut found = Found::new();
    let mut failing = (0..9).cycle();
    every_pattern(&[Fate::Nothing, LOST, DECODED], 9, |pattern| {
        let mut pattern = pattern.to_vec();
        for fate in pattern.iter_mut().skip(1).step_by(2) {
            *fate = match fate {
                Fate::Nothing => Fate::Nothing,
                Fate::Lost { .. } => LOST_TWO,
                _ => heard_two(true, true),
            };
        }
        let at: usize = failing.next().expect("a position");
        for (first_decoded, second_decoded) in [(true, true), (false, true), (true, false)] {
            let mut pattern = pattern.clone();
            if let Fate::Heard { blocks, first, second } = &mut pattern[at] {
                (*first, *second) = match blocks {
                    1 => (first_decoded && second_decoded, false),
                    _ => (first_decoded, second_decoded),
                };
            }
            let outcome = cell.run(&pattern);
            found.patterns += 1;
            found.hold(window, &pattern, &outcome, octets);
        }
    });
    assert_eq!(found.patterns, 3 * 19_683);
    // Its result stands for both bits, so that what was not decoded is not credited.
    let (otherwise, unsound) = found.of_wrong("a sole block by the second bit");
    assert!(unsound == 0 && otherwise > 100, "{otherwise}, {unsound}");
    let (otherwise, unsound) = found.of_wrong("a sole block by either bit");
    assert!(unsound == 0 && otherwise > 100, "{otherwise}, {unsound}");
    let (_, unsound) = found.of_wrong("five for four");
    assert!(unsound > 100);
}

/// Every window of at most four positions, in both modes, with every fate of grants, releases
/// and a scheduled block. In a cell of two blocks the windows of four are one: the one whose
/// positions are least in time order and which has a special subframe.
#[test]
fn every_pattern_of_short_windows() {
    let model = Model::new();
    let mut otherwise = [0; WRONG.len()];
    let mut windows = 0;
    let all = every::window(&model, NRB, &N1, &every::MODE_AND_BLOCKS);
    for (settings, window) in all.filter(|(settings, _)| settings.config != 5) {
        let size = window.size();
        if settings.blocks == 2 && size == 4 && (window.config, window.n) != (4, 2) {
            continue;
        }
        let settings = settings.with_scheduled(SCHEDULED);
        let billed = Billed::new(&model, settings, window);
        let fates = fates_with_releases(settings);
        let blocks = if settings.blocks == 1 { &BLOCKS_OF_ONE[..] } else { &BLOCKS_OF_TWO };
        let mut found = Found::new();
        every_pattern(&fates, size, |pattern| found.try_pattern(&billed, pattern));
        every_pattern_with_a_block(&fates, blocks, size, |pattern| {
            found.try_pattern(&billed, pattern);
        });
        assert!(found.blocks > 0, "{settings:?}, {window:?}");
        for (sum, of_window) in otherwise.iter_mut().zip(found.otherwise) {
            *sum += of_window;
        }
        windows += 1;
    }
    println!("{windows} windows; credited otherwise by each wrong rule: {otherwise:?}");
    assert_eq!(windows, 4 * (WINDOWS - 1) - 2 * 3);
    // Five are never sent, and a handset names what was sent.
    let differ = otherwise.map(|number| number > 0);
    assert_eq!(differ, [false, true, false, true, true, true, true, false]);
}

/// What is sent at a position, with sizes of its own, by kind: nothing, a grant of one block or
/// of two, a release, or a scheduled block of one or of two. The first CCE is 2 × m.
fn of_kind(kind: usize, m: usize, dai: u16) -> Sent {
    let sizes = [(m as u16, 20 + m as u16), (13 + m as u16, 50 + m as u16)];
    let cce = 2 * m as u16;
    match kind {
        0 => Sent::NOTHING,
        1 => Sent::grant(1, cce, dai, sizes),
        2 => Sent::grant(2, cce, dai, sizes),
        3 => Sent::release(cce, dai),
        4 => Sent::block(1, sizes),
        _ => Sent::block(2, sizes),
    }
}

/// Every way to send these kinds at the positions of a window, with at most one scheduled block,
/// and DAIs by the rule.
fn every_window(window: &Window, kinds: &[usize], mut each: impl FnMut(SentWindow)) {
    let size = window.k.len();
    for number in 0..kinds.len().pow(size as u32) {
        let at = |m: usize| kinds[number / kinds.len().pow(m as u32) % kinds.len()];
        if (0..size).filter(|m| at(*m) > 3).count() > 1 {
            continue;
        }
        let mut sent = SentWindow::NOTHING;
        let mut j = 0;
        for m in window.in_time().into_iter().map(usize::from) {
            sent.at[m] = of_kind(at(m), m, j % 4 + 1);
            j += sent.at[m].signalled;
        }
        each(sent);
    }
}

/// The resource of a first CCE at a position.
fn resource_of(model: &Model, settings: Settings, window: &Window, m: usize, cce: u16) -> u16 {
    let answer = model.resource(settings, window.n, m as u16, cce);
    assert_eq!(answer.refusal, 0, "{settings:?}, {window:?}, {m}, {cce}");
    answer.resource
}

/// Every two bits.
const BITS: [(u16, u16); 4] = [(0, 0), (0, 1), (1, 0), (1, 1)];

/// Holds both calls to the model on a reply, and counts what wrong rules credit otherwise.
fn compare(
    comparison: &mut Comparison,
    model: &Model,
    exchange: Exchange,
    otherwise: &mut [u64; WRONG.len()],
) -> u32 {
    let account = Account::new(PRICE);
    let confirmed = comparison.confirmed(exchange);
    let given = comparison.credit(exchange, account);
    assert_eq!(confirmed.refusal, given.refusal, "{exchange:?}");
    let any = confirmed.first | confirmed.second != 0;
    assert!(given.octets == 0 || any, "{exchange:?}: {given:?}, {confirmed:?}");
    for ((_, wrong), sum) in WRONG.iter().zip(otherwise) {
        *sum += u64::from(model.credit_by(*wrong, &exchange, account) != given);
    }
    given.octets
}

/// Every symbol of every multiplexed window, and in bundled windows of the same sizes every two
/// bits, whatever was sent: on the resource of the first CCE that was sent at a position, on
/// that of another one, and on the scheduled resource. No handset is asked, so that replies
/// come in which none would send.
#[test]
fn every_reply_to_every_kind() {
    let model = Model::new();
    let mut comparison = Comparison::with(&model);
    let mut otherwise = [0; WRONG.len()];
    let (mut replies, mut credited) = (0u64, 0u64);
    let all = every::window(&model, NRB, &N1, &[(0, 2), (1, 2)]);
    for (settings, window) in all.filter(|(settings, _)| settings.config != 5) {
        let settings = settings.with_scheduled(SCHEDULED);
        let mut of_window = 0;
        every_window(window, &[0, 1, 2, 3, 4, 5], |sent| {
            let named = (0..window.k.len()).flat_map(|m| [(m, 2 * m as u16), (m, 33)]);
            let on_pdcchs = named.map(|(m, cce)| resource_of(&model, settings, window, m, cce));
            for resource in on_pdcchs.chain([SCHEDULED]) {
                for (b0, b1) in BITS {
                    let exchange = Exchange { settings, n: window.n, sent, resource, b0, b1 };
                    let octets = compare(&mut comparison, &model, exchange, &mut otherwise);
                    of_window += u64::from(octets > 0);
                    replies += 1;
                }
            }
        });
        assert!(of_window > 0, "{settings:?}, {window:?}");
        credited += of_window;
    }
    // With one block at most: 4^M ways without one, and M × 2 × 4^(M − 1) with one; and
    // 2 × M + 1 resources with four times two bits.
    let ways = |size: u64| 4u64.pow(size as u32 - 1) * (4 + 2 * size) * (2 * size + 1) * 4;
    let sizes = model.windows().iter().filter(|window| window.config != 5);
    let due: u64 = 2 * sizes.map(|window| ways(window.size().into())).sum::<u64>();
    println!("{replies} replies, {credited} with a credit; otherwise by each rule: {otherwise:?}");
    assert_eq!(replies, due);
    comparison.finish_with(2 * due, &[0, 13, 14], &[]);
    // Five are never sent here.
    assert!(otherwise[1..]
        .iter()
        .zip(&WRONG[1..])
        .all(|(number, (name, _))| { *number > 0 || *name == "releases not counted" }));
}

/// Every way to send nothing, a grant or a release at nine positions, and a reply for each of
/// what was sent, all ACK: the count of four is exact at every place. Grants have one block or
/// two by their position, and every fifth window has a scheduled block in place of nothing.
#[test]
fn every_count_of_nine() {
    let model = Model::new();
    let mut comparison = Comparison::with(&model);
    let mut otherwise = [0; WRONG.len()];
    let (settings, window) = nine(&model, 2);
    let in_time = window.in_time();
    let mut by_count = [0u64; 10];
    let mut number = 0;
    every_window(window, &[0, 1, 3], |mut sent| {
        number += 1;
        for entry in sent.at.iter_mut().skip(1).step_by(2) {
            entry.blocks *= 2;
        }
        let empty = sent.at.iter().position(|entry| *entry == Sent::NOTHING);
        if let (Some(m), true) = (empty, number % 5 == 0) {
            sent.at[m] = of_kind(5, m, 0);
        }
        let mut count = 0;
        let mut octets = 0;
        for m in in_time.iter().map(|m| usize::from(*m)) {
            if sent.at[m].signalled == 0 {
                continue;
            }
            count += 1;
            let own = sent_octets(&model, &sent, m);
            octets += own;
            let resource = resource_of(&model, settings, window, m, 2 * m as u16);
            let exchange = Exchange { settings, n: window.n, sent, resource, b0: 1, b1: 1 };
            let given = compare(&mut comparison, &model, exchange, &mut otherwise);
            assert_eq!(given, if count <= 4 { octets } else { own }, "{exchange:?}, {count}");
            by_count[count] += 1;
        }
    });
    println!("{by_count:?} replies by count; otherwise by each rule: {otherwise:?}");
    // The j-th that is sent in time stands at a place from j on, with j − 1 before it, each of
    // them and itself a grant or a release, and anything behind it.
    let at_count = |j: u64| -> u64 {
        let at = |place: u64| (choose(place - 1, j - 1) << j) * 3u64.pow(9 - place as u32);
        (j..=9).map(at).sum()
    };
    let due: Vec<u64> = (1..=9).map(at_count).collect();
    assert_eq!(by_count[1..], due);
    comparison.finish(2 * 9 * 2 * 3u64.pow(8), 2 * 9 * 2 * 3u64.pow(8));
    let differ = otherwise.map(|number| number > 0);
    // Both bits are ACK, and what is named was sent.
    assert_eq!(differ, [true, true, true, true, true, false, false, false]);
}

/// The octets of what is sent at a position of the window of nine.
fn sent_octets(model: &Model, sent: &SentWindow, m: usize) -> u32 {
    let window = model.window(5, 2).expect("a window");
    let special = is_special(5, window.subframe(m));
    let Sent { blocks, itbs0, nprb0, itbs1, nprb1, .. } = sent.at[m];
    let of = |itbs, nprb| model.size(itbs, nprb, special) / 8;
    match blocks {
        0 => 0,
        1 => of(itbs0, nprb0),
        _ => of(itbs0, nprb0) + of(itbs1, nprb1),
    }
}

/// Where another first CCE was sent than is read, or none, nothing is credited and nothing is
/// refused, whatever the bits; and the account stays as it was.
#[test]
fn what_was_not_sent_is_not_credited() {
    let model = Model::new();
    let blind = Rule { named_compared: false, ..CREDITED };
    let account = Account::with(PRICE, 123_456_789);
    let (mut replies, mut unsound) = (0u64, 0u64);
    let all = every::window(&model, NRB, &N1, &every::MODE_AND_BLOCKS);
    for (settings, window) in all.filter(|(settings, window)| {
        settings.config != 5 && (settings.blocks == 1 || window.size() < 3)
    }) {
        let settings = settings.with_scheduled(SCHEDULED);
        let Billed { cell, .. } = Billed::new(&model, settings, window);
        let mut each = |pattern: &[Fate]| {
            let Outcome { sent, exchange, decoded, .. } = cell.run(pattern);
            for (heard, read) in cell.readings_of_others(&exchange) {
                let given = credit(heard, account);
                assert_eq!(given, CreditAnswer::of(0, account), "{heard:?}: the engine's first");
                let blocks = blind.confirms(window, &sent, read);
                unsound += u64::from(blocks & !decoded != 0);
                replies += 1;
            }
        };
        let blocks = if settings.blocks == 1 { &BLOCKS_OF_ONE[..] } else { &BLOCKS_OF_TWO };
        let fates = fates_with_releases(settings);
        every_pattern(&fates, window.size(), &mut each);
        every_pattern_with_a_block(&fates, blocks, window.size(), &mut each);
    }
    println!("{replies} replies, {unsound} of them credited by a rule that compares no CCE");
    assert!(replies > 100_000 && unsound > 10_000);
}

/// Without a scheduled resource, with two ports and in a short special the credit is that of
/// the cell that has long ones, one port and a schedule: what is credited goes by what is sent.
#[test]
fn other_settings_credit_the_same() {
    let model = Model::new();
    let mut comparison = Comparison::with(&model);
    let mut compared = 0;
    for window in model.windows() {
        let plain = Settings::plain(window.config, 110, 10, 0, 2);
        for with_release in [false, true] {
            let mut sent = SentWindow::NOTHING;
            for (j, m) in (0..).zip(window.in_time()) {
                let m = usize::from(m);
                let special = is_special(window.config, window.subframe(m));
                let kind = if with_release && special { 3 } else { 2 };
                sent.at[m] = of_kind(kind, m, j % 4 + 1);
            }
            let last = usize::from(*window.in_time().last().expect("a position"));
            let resource = resource_of(&model, plain, window, last, 2 * last as u16);
            let mut given = Vec::new();
            let has_special = (0..window.k.len())
                .any(|m| is_special(window.config, window.subframe(m)) && sent.at[m].blocks > 0);
            for (prefix, special) in every::SPECIALS {
                let is_short = every::SHORT.contains(&(prefix, special));
                for (ports, scheduled) in [(1, NONE), (1, SCHEDULED), (2, NONE)] {
                    let settings = plain.with_special(prefix, special).with_ports(ports);
                    let settings = settings.with_scheduled(scheduled);
                    let exchange = Exchange { settings, n: window.n, sent, resource, b0: 1, b1: 1 };
                    let answer = comparison.credit(exchange, Account::new(PRICE));
                    compared += 1;
                    match is_short && has_special {
                        true => assert_eq!(answer.refusal, 20, "{exchange:?}"),
                        false => given.push(answer),
                    }
                }
            }
            assert!(given.iter().all(|answer| *answer == given[0]), "{window:?}: {given:?}");
            assert!(given[0].octets > 0 || with_release, "{window:?}: {given:?}");
        }
    }
    comparison.finish_with(compared, &[0, 20], &[]);
    assert_eq!(compared, WINDOWS * 2 * 16 * 3);
}
