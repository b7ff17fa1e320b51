//! What a scheduler may take as confirmed. The station knows what it sent in a
//! window and how it reads the reply, and nothing of what was heard. Here every
//! window meets every way in which grants, releases and a scheduled block are sent,
//! lost, heard and decoded, and a handset answers through the C calls. Each block
//! that the station's rule confirms must have been heard and decoded; and the rule
//! must confirm no less than what was decoded in all the ways that look alike to
//! the station. The call for confirmed blocks is held to the rule on the way, with sizes that
//! no block has, since it does not look at them. Rules that differ in one point are shown to
//! confirm a block that never arrived, or fewer blocks than they could.

use feedback_tests::compare::WINDOWS;
use feedback_tests::every;
use feedback_tests::fates::{
    every_pattern, every_pattern_with_a_block, fates, fates_with_releases, heard_two, Cell, Fate,
    Outcome, BLOCKS_OF_ONE, BLOCKS_OF_TWO, DECODED, FATES_OF_TWO, LOST, LOST_TWO,
};
use feedback_tests::model::{
    blocks_at, bundles, is_short, positions_of, told, Blocks, Model, Rule, Sole, Transmission,
    Window, CONFIRMED,
};
use feedback_tests::random::Random;
use feedback_tests::{confirmed, ConfirmedAnswer, Exchange, Fed, ReadingAnswer, NONE, NOT_TOLD};
use std::collections::HashMap;

/// N_RB of the cells, their N1, and the scheduled resource where one is set.
const NRB: [u16; 3] = [6, 50, 110];
const N1: [u16; 1] = [10];
const SCHEDULED: u16 = 9;

/// The call confirms these blocks, and no other.
fn assert_confirmed(exchange: Exchange, blocks: Blocks) {
    let (first, second) = positions_of(blocks);
    let (given, due) = (confirmed(exchange), ConfirmedAnswer::of(first, second));
    assert_eq!(given, due, "feedback_confirmed({exchange:?}): the engine gives the first of these");
}

/// What was found in one window.
#[derive(Default)]
struct Found {
    patterns: u64,
    replies: u64,
    confirmed: u64,
    wrong: u64,
    example: Option<String>,
    /// What the station can't tell apart, with what is confirmed there and what
    /// is decoded in all of it.
    alike: HashMap<Known, (Blocks, Blocks)>,
}

/// What the station knows: what it sent, and what came in.
#[derive(Debug, PartialEq, Eq, Hash)]
struct Known {
    sent: Vec<Option<Transmission>>,
    resource: u16,
    bits: (u16, u16),
}

impl Found {
    fn try_pattern(&mut self, cell: &Cell, rule: Rule, pattern: &[Fate]) {
        let Outcome { sent, exchange, fed, read, decoded } = cell.run(pattern);
        self.patterns += 1;
        let Some(read) = read else { return };
        self.replies += 1;
        let confirmed = rule.confirms(cell.window, &sent, read);
        if rule == CONFIRMED {
            assert_confirmed(exchange, confirmed);
        }
        self.confirmed += u64::from(confirmed.count_ones());
        if confirmed & !decoded != 0 {
            self.wrong += 1;
            let Cell { settings, window, .. } = cell;
            self.example.get_or_insert_with(|| {
                format!("{settings:?}, {window:?}, {pattern:?}: {read:?} confirms {confirmed:b}")
            });
        }
        let known = Known { sent, resource: fed.resource, bits: (fed.b0, fed.b1) };
        let (same, decoded_in_all) = self.alike.entry(known).or_insert((confirmed, decoded));
        assert_eq!(*same, confirmed, "the rule goes by what the station knows");
        *decoded_in_all &= decoded;
    }

    /// Every pattern of one window.
    fn of(cell: &Cell, rule: Rule) -> Self {
        Self::of_fates(cell, rule, fates(cell.settings), &[])
    }

    /// Every pattern of these fates and at most one block of those.
    fn of_fates(cell: &Cell, rule: Rule, fates: &[Fate], blocks: &[Fate]) -> Self {
        let (mut found, size) = (Self::default(), cell.window.size());
        every_pattern(fates, size, |pattern| found.try_pattern(cell, rule, pattern));
        every_pattern_with_a_block(fates, blocks, size, |pattern| {
            found.try_pattern(cell, rule, pattern);
        });
        found
    }

    /// What is confirmed was decoded, and what was decoded in all the ways that look
    /// alike is confirmed. Only where the station goes by a PDCCH in a cell of two
    /// blocks it could know more of a scheduled block: one ACK and one NACK together
    /// may show that it was heard. The papers confirm it nowhere there.
    fn assert_exact(&self, cell: &Cell) {
        let Cell { settings, window, .. } = cell;
        assert_eq!(self.wrong, 0, "{}", self.example.as_deref().unwrap_or_default());
        for (known, (confirmed, decoded_in_all)) in &self.alike {
            let position = told(&known.sent);
            let may_know_more =
                is_bundled(cell) && settings.blocks == 2 && known.resource != settings.scheduled;
            let apart = match position {
                NOT_TOLD => 0,
                _ if may_know_more => blocks_at(position.into(), true, true),
                _ => 0,
            };
            assert_eq!(*confirmed, decoded_in_all & !apart, "{settings:?}, {window:?}: {known:?}");
        }
    }
}

/// The windows that are run through whole, in every cell with as many blocks:
/// those of at most `longest` positions.
fn windows(model: &Model, blocks: u16, longest: u16) -> Vec<Cell<'_>> {
    cells(model, &NRB, NONE, blocks, longest)
}

/// Likewise in cells of some bandwidths, with or without a scheduled resource.
fn cells<'a>(
    model: &'a Model,
    nrb: &[u16],
    scheduled: u16,
    blocks: u16,
    longest: u16,
) -> Vec<Cell<'a>> {
    let all = every::window(model, nrb.to_vec(), &N1, &every::MODE_AND_BLOCKS);
    all.filter(|(settings, window)| {
        let allowed = (settings.config, settings.mode) != (5, 1);
        allowed && settings.blocks == blocks && window.size() <= longest
    })
    .map(|(settings, window)| Cell::new(settings.with_scheduled(scheduled), window))
    .collect()
}

fn is_bundled(cell: &Cell) -> bool {
    bundles(cell.settings, cell.window.size())
}

/// K falls: in the window the order by position is that by time.
fn is_in_time_order(window: &Window) -> bool {
    window.k.windows(2).all(|pair| pair[0] > pair[1])
}

/// Runs every pattern of these windows by the rule, and holds the number of
/// blocks confirmed in each.
fn hold(cells: &[Cell], confirmed: impl Fn(&Cell) -> u64) {
    for cell in cells {
        let Cell { settings, window, .. } = cell;
        let found = Found::of(cell, CONFIRMED);
        found.assert_exact(cell);
        let patterns = (fates(*settings).len() as u64).pow(window.size().into());
        assert_eq!(found.patterns, patterns, "{settings:?}, {window:?}");
        assert_eq!(found.confirmed, confirmed(cell), "{settings:?}, {window:?}");
    }
}

/// The blocks confirmed over all patterns of a bundled window of at most four,
/// counted by the place i in time of the last heard grant. What is sent after it
/// is lost, in as many ways as a grant has blocks; what is sent before it is heard.
/// With one block all of it must be decoded. With two, an ACK of one block leaves
/// three ways to hear a grant, two of them with two blocks, and each such grant has
/// a block by either bit; a grant with one block is counted by either bit, but not
/// twice where both are ACK, which leaves two ways.
fn bundled_blocks(size: u16, blocks: u16) -> u64 {
    let at = |i: u32| match blocks {
        1 => counted(1, 1, i),
        _ => 2 * counted(3, 2, i) + 2 * counted(3, 1, i) - counted(2, 1, i),
    };
    let size = u32::from(size);
    (0..size).map(|i| u64::from(blocks + 1).pow(size - 1 - i) * at(i)).sum()
}

/// A grant is heard at place i in one of some ways, and at each place before it
/// likewise or not sent: how many grants are heard in `of` of these ways, over all
/// patterns.
fn counted(ways: u64, of: u64, i: u32) -> u64 {
    let before = |places: u32| (1 + ways).pow(places);
    of * before(i) + u64::from(i) * of * ways * before(i.saturating_sub(1))
}

/// A cell of one block: 4^M patterns of each window, 4^9 in configuration 5. Among
/// nine, four or eight grants may also be lost before the last one heard, which is
/// then confirmed alone: 6901 blocks. Multiplexed, every A is confirmed, save one
/// in the states with three A of four, which share a symbol with another.
#[test]
fn every_pattern_of_one_block() {
    let model = Model::new();
    let cells = windows(&model, 1, 9);
    assert_eq!(cells.len() as u64, 3 * (2 * WINDOWS - 1));
    hold(&cells, |cell| match (is_bundled(cell), cell.window.size()) {
        (true, 9) => 6901,
        (true, size) => bundled_blocks(size, 1),
        (false, 2) => 2 * 4,
        (false, 3) => 3 * 16,
        (false, _) => 4 * 64 - 4 * 3,
    });
}

/// A cell of two blocks: 9^M patterns of each window of at most four positions.
/// Multiplexed, a position is A in two ways, with three blocks between them, and
/// not A in seven.
#[test]
fn every_pattern_of_two_blocks() {
    let model = Model::new();
    let cells = windows(&model, 2, 4);
    assert_eq!(cells.len() as u64, 3 * (2 * WINDOWS - 2));
    hold(&cells, |cell| match (is_bundled(cell), cell.window.size()) {
        (true, size) => bundled_blocks(size, 2),
        (false, 2) => 2 * 9 * 3,
        (false, 3) => 3 * 81 * 3,
        (false, _) => 4 * 729 * 3 - 4 * 4 * 3 * 7,
    });
}

/// The window of nine in a cell of two blocks: patterns at random, every other
/// time with most grants heard and decoded, or else hardly any reply would say ACK.
#[test]
fn patterns_of_two_blocks_in_configuration_5() {
    let model = Model::new();
    let mut random = Random::new(55);
    let mostly_decoded =
        [Fate::Nothing, Fate::Nothing, LOST, LOST_TWO, DECODED, DECODED, heard_two(true, true)];
    for cell in windows(&model, 2, 9).iter().filter(|cell| cell.window.size() == 9) {
        let mut found = Found::default();
        for number in 0..100_000 {
            let from = if number % 2 == 0 { &FATES_OF_TWO[..] } else { &mostly_decoded };
            let pattern = [(); 9].map(|()| random.one_of(from));
            found.try_pattern(cell, CONFIRMED, &pattern);
        }
        println!("{} of 100000 reply, {} blocks confirmed", found.replies, found.confirmed);
        assert_eq!(found.wrong, 0, "{}", found.example.unwrap_or_default());
        assert!(found.confirmed > 1000, "{:?}", cell.settings);
    }
}

/// "Five" for "four" confirms lost grants, wherever five were sent up to the named
/// one and the first four are lost: at place i in time, C(i, 4) × 2^(8 − i) ways,
/// since what is sent later is lost too.
#[test]
fn five_are_too_many() {
    let model = Model::new();
    for cell in windows(&model, 1, 9).iter().filter(|cell| cell.window.size() == 9) {
        let found = Found::of(cell, Rule { most: 5, ..CONFIRMED });
        println!("{} wrong, such as {}", found.wrong, found.example.unwrap_or_default());
        assert_eq!(found.wrong, 16 + 5 * 8 + 15 * 4 + 35 * 2 + 70);
    }
}

/// By position, and not by time, the rule confirms lost grants in every bundled
/// window in which K does not fall, and in no other.
#[test]
fn positions_are_not_in_time_order() {
    let model = Model::new();
    let mut wrong_windows = 0;
    for cell in windows(&model, 1, 9).iter().filter(|cell| is_bundled(cell)) {
        let found = Found::of(cell, Rule { by_time: false, ..CONFIRMED });
        assert_eq!(found.wrong == 0, is_in_time_order(cell.window), "{:?}", cell.window);
        if cell.settings.nrb == 50 && found.wrong > 0 {
            println!("{} wrong, such as {}", found.wrong, found.example.unwrap_or_default());
            wrong_windows += 1;
        }
    }
    assert_eq!(wrong_windows, 2 + 1 + 2 + 1);
}

/// A sole block is confirmed by either bit: in a cell of two blocks its ACK stands for both,
/// and beside a grant whose first or second block failed one of them is NACK. By one bit alone
/// the rule confirms no block that was not decoded, but fewer than the station knows of.
#[test]
fn a_sole_block_is_confirmed_by_either_bit() {
    let model = Model::new();
    for sole in [Sole::FirstBit, Sole::SecondBit] {
        let rule = Rule { sole, ..CONFIRMED };
        for cell in windows(&model, 2, 2).iter().filter(|cell| is_bundled(cell)) {
            let found = Found::of(cell, rule);
            assert_eq!(found.wrong, 0, "{sole:?}: {}", found.example.unwrap_or_default());
            let all = found.alike.values();
            let fewer = all.filter(|(confirmed, decoded)| confirmed != decoded).count();
            assert_eq!(fewer > 0, cell.window.size() > 1, "{sole:?}, {:?}", cell.window);
        }
    }
}

/// What comes in on a resource that no grant of this handset has, another's reply
/// or noise, confirms nothing. Where the first CCE is not compared with what was
/// sent there, it confirms blocks that were lost or failed.
#[test]
fn a_resource_of_another_grant_confirms_nothing() {
    let model = Model::new();
    let blind = Rule { named_compared: false, ..CONFIRMED };
    for cell in windows(&model, 1, 4).iter().chain(&windows(&model, 2, 2)) {
        let Cell { settings, window, .. } = cell;
        let (mut read_wrongly, mut example) = (0, None);
        every_pattern(fates(*settings), window.size(), |pattern| {
            let Outcome { sent, exchange, decoded, .. } = cell.run(pattern);
            for (heard, read) in cell.readings_of_others(&exchange) {
                assert_eq!(CONFIRMED.confirms(window, &sent, read), 0, "{sent:?}, {read:?}");
                assert_confirmed(heard, 0);
                if blind.confirms(window, &sent, read) & !decoded != 0 {
                    read_wrongly += 1;
                    example.get_or_insert_with(|| format!("{pattern:?}: {read:?}"));
                }
            }
        });
        assert!(read_wrongly > 0, "{settings:?}, {window:?}");
        if (settings.nrb, settings.config, window.n) == (50, 1, 2) {
            println!("{settings:?}: {read_wrongly} wrong, such as {}", example.unwrap_or_default());
        }
    }
}

/// Where at most four grants are sent and all are heard and decoded, all are
/// confirmed; save that three of four, multiplexed, confirm two.
#[test]
fn what_arrives_is_confirmed() {
    let model = Model::new();
    let one = [Fate::Nothing, DECODED];
    let two = [Fate::Nothing, DECODED, heard_two(true, true)];
    let mut whole = 0;
    for cell in windows(&model, 1, 9).iter().chain(&windows(&model, 2, 9)) {
        let fates = if cell.settings.blocks == 1 { &one[..] } else { &two };
        every_pattern(fates, cell.window.size(), |pattern| {
            let Outcome { sent, read, decoded, .. } = cell.run(pattern);
            let count = sent.iter().flatten().count();
            if !(1..=4).contains(&count) {
                return;
            }
            let read = read.expect("a reply");
            let confirmed = CONFIRMED.confirms(cell.window, &sent, read);
            if !is_bundled(cell) && cell.window.size() == 4 && count == 3 {
                let grants = (0..4).filter(|m| confirmed >> (2 * m) & 1 == 1).count();
                assert!(grants == 2 && confirmed & !decoded == 0, "{sent:?}, {read:?}");
            } else {
                assert_eq!(confirmed, decoded, "{:?}, {sent:?}, {read:?}", cell.settings);
                whole += 1;
            }
        });
    }
    // Over the windows, the ways to choose one to four positions of M, with grants
    // of one block or, in a cell of two, of one or two at each.
    assert_eq!(whole, 3 * (419 + 3522));
}

/// A bundled window of one block, over all patterns of grants and releases, counted
/// by the place i in time of the last heard PDCCH, which is a grant or a release.
/// What is sent after it is lost: nothing, a grant or a release. What is sent before
/// it is heard and, to be confirmed, decoded: nothing, a grant or a release too.
fn bundled_with_releases(size: u32) -> u64 {
    let at = |i: u32| {
        let named = 3u64.pow(i);
        let before = u64::from(i) * 2 * 3u64.pow(i.saturating_sub(1));
        named + before
    };
    (0..size).map(|i| 3u64.pow(size - 1 - i) * at(i)).sum()
}

/// The same with at most one scheduled block, in any place: lost or decoded it leaves
/// what the others confirm, failed it confirms nothing, and decoded it is confirmed
/// where all others are unheard.
fn bundled_with_a_block(size: u32) -> u64 {
    let lone = 3u64.pow(size - 1);
    let places = u64::from(size);
    bundled_with_releases(size) + places * (2 * bundled_with_releases(size - 1) + lone)
}

/// Multiplexed, one block: a grant that is decoded, beside any other fates, or the
/// scheduled block.
fn multiplexed_with_a_block(size: u32) -> u64 {
    let places = u64::from(size);
    let grants = places * 6u64.pow(size - 1);
    let beside_a_block = places * 3 * (places - 1) * 6u64.pow(size - 2);
    let blocks = places * 6u64.pow(size - 1);
    grants + beside_a_block + blocks
}

/// A cell of one block with a schedule: grants and releases, and at most one
/// scheduled block, lost, decoded or failed. Multiplexed, every A with a block is
/// confirmed, save one in the states with three A of four: it is a grant in 4 × (16 +
/// 16 + 8) patterns, where another A or the fourth may be the block, and the block in
/// 4 × 16.
#[test]
fn every_pattern_of_one_block_with_a_schedule() {
    let model = Model::new();
    let all = cells(&model, &NRB, SCHEDULED, 1, 4);
    assert_eq!(all.len() as u64, 3 * (2 * WINDOWS - 2));
    for cell in &all {
        let Cell { settings, window, .. } = cell;
        let found =
            Found::of_fates(cell, CONFIRMED, &fates_with_releases(*settings), &BLOCKS_OF_ONE);
        found.assert_exact(cell);
        let size = u32::from(window.size());
        assert_eq!(found.patterns, 6u64.pow(size - 1) * u64::from(6 + 3 * size));
        let confirmed = match (is_bundled(cell), size) {
            (true, _) => bundled_with_a_block(size),
            (false, 4) => multiplexed_with_a_block(4) - 4 * (16 + 16 + 8) - 4 * 16,
            (false, _) => multiplexed_with_a_block(size),
        };
        assert_eq!(found.confirmed, confirmed, "{settings:?}, {window:?}");
    }
}

/// A cell of two blocks with a schedule.
#[test]
fn every_pattern_of_two_blocks_with_a_schedule() {
    let model = Model::new();
    let all = cells(&model, &[50], SCHEDULED, 2, 4);
    assert_eq!(all.len() as u64, 2 * WINDOWS - 2);
    for cell in &all {
        let Cell { settings, window, .. } = cell;
        let found =
            Found::of_fates(cell, CONFIRMED, &fates_with_releases(*settings), &BLOCKS_OF_TWO);
        found.assert_exact(cell);
        let size = u32::from(window.size());
        assert_eq!(found.patterns, 11u64.pow(size - 1) * u64::from(11 + 8 * size));
        assert!(found.confirmed > 0 && found.replies > found.patterns / 8);
    }
}

fn cells_of_nine(model: &Model) -> Vec<Cell<'_>> {
    let mut nine = cells(model, &[50], SCHEDULED, 1, 9);
    nine.retain(|cell| cell.window.size() == 9);
    assert_eq!(nine.len(), 1);
    nine
}

/// The ways to choose so many places of some.
fn choose(places: u64, chosen: u64) -> u64 {
    (0..chosen).map(|c| places.saturating_sub(c)).product::<u64>() / (1..=chosen).product::<u64>()
}

/// The blocks confirmed over all patterns of `size` places at which nothing, a lost
/// PDCCH or a heard one is, each PDCCH in so many kinds, one of which is a decoded
/// grant and the other, if there is one, a release. By the place i of the last heard
/// one: with u heard before it and none lost all u + 1 are confirmed, if they are no
/// more than four, and the named one if they are more or if four or eight were lost.
fn confirmed_of_nine(size: u64, kinds: u64) -> u64 {
    let pow = |exponent: u64| kinds.pow(exponent as u32);
    let unheard = |places: u64| (1 + kinds).pow(places as u32);
    let none_lost = |i: u64| {
        let of = |u: u64| choose(i, u) * if u < 4 { (u + 1) * pow(u) } else { pow(u) };
        (0..=i).map(of).sum::<u64>()
    };
    let some_lost = |i: u64, lost: u64| match i < lost {
        true => 0,
        false => choose(i, lost) * pow(lost) * (1 + kinds).pow((i - lost) as u32),
    };
    let at = |i: u64| none_lost(i) + some_lost(i, 4) + some_lost(i, 8);
    (0..size).map(|i| unheard(size - 1 - i) * at(i)).sum()
}

/// The window of nine with releases, 5^9 patterns in which what is heard is decoded:
/// releases are among the four, lost ones too.
#[test]
fn every_pattern_of_nine_with_releases() {
    let model = Model::new();
    let fates = [Fate::Nothing, LOST, DECODED, Fate::LostRelease, Fate::HeardRelease];
    for cell in cells_of_nine(&model) {
        let found = Found::of_fates(&cell, CONFIRMED, &fates, &[]);
        found.assert_exact(&cell);
        assert_eq!((found.patterns, found.confirmed), (5u64.pow(9), confirmed_of_nine(9, 2)));
    }
}

/// The window of nine with a scheduled block in each place, where what is heard is
/// decoded: the block is not counted among the four, and alone it is confirmed.
#[test]
fn every_pattern_of_nine_with_a_block() {
    let model = Model::new();
    let (grants, blocks) = ([Fate::Nothing, LOST, DECODED], &BLOCKS_OF_ONE[..2]);
    for cell in cells_of_nine(&model) {
        let mut found = Found::default();
        every_pattern_with_a_block(&grants, blocks, 9, |pattern| {
            found.try_pattern(&cell, CONFIRMED, pattern);
        });
        found.assert_exact(&cell);
        assert_eq!(found.patterns, 9 * 2 * 3u64.pow(8));
        assert_eq!(found.confirmed, 9 * (2 * confirmed_of_nine(8, 1) + 2u64.pow(8)));
    }
}

/// The window of nine in a cell of two blocks with a schedule: patterns at random,
/// every other time with most of what is sent heard and decoded.
#[test]
fn patterns_of_two_blocks_with_a_schedule_in_configuration_5() {
    let model = Model::new();
    let mut random = Random::new(56);
    let two = heard_two(true, true);
    let mostly_decoded =
        [Fate::Nothing, Fate::Nothing, LOST, Fate::LostRelease, DECODED, two, Fate::HeardRelease];
    let nine = cells(&model, &[6, 110], SCHEDULED, 2, 9);
    for cell in nine.iter().filter(|cell| cell.window.size() == 9) {
        let any = fates_with_releases(cell.settings);
        let mut found = Found::default();
        for number in 0..100_000 {
            let from = if number % 2 == 0 { &any[..] } else { &mostly_decoded };
            let mut pattern = [(); 9].map(|()| random.one_of(from));
            pattern[random.below(9)] = random.one_of(&BLOCKS_OF_TWO);
            found.try_pattern(cell, CONFIRMED, &pattern);
        }
        println!("{} of 100000 reply, {} blocks confirmed", found.replies, found.confirmed);
        assert_eq!(found.wrong, 0, "{}", found.example.unwrap_or_default());
        assert!(found.confirmed > 1000, "{:?}", cell.settings);
    }
}

/// Releases that are not counted among the four: four grants lost and a release
/// heard, and the rule confirms all four. At place i of the release the four are
/// anywhere before it, and at the other places before it a release or nothing.
#[test]
fn releases_are_counted() {
    let model = Model::new();
    let fates = [Fate::Nothing, LOST, DECODED, Fate::HeardRelease];
    for cell in cells_of_nine(&model) {
        let rule = Rule { releases_counted: false, ..CONFIRMED };
        let found = Found::of_fates(&cell, rule, &fates, &[]);
        println!("{} wrong, such as {}", found.wrong, found.example.unwrap_or_default());
        let at = |i: u64| choose(i, 4) * 2u64.pow(i as u32 - 4) * 2u64.pow(8 - i as u32);
        assert_eq!(found.wrong, (4..9).map(at).sum::<u64>());
    }
}

/// A scheduled block that is confirmed by an ACK for a PDCCH may have been lost: in
/// every bundled window that has room for both.
#[test]
fn a_block_is_confirmed_apart() {
    let model = Model::new();
    let rule = Rule { blocks_apart: false, ..CONFIRMED };
    for cell in cells(&model, &[50], SCHEDULED, 1, 4).iter().filter(|cell| is_bundled(cell)) {
        let found = Found::of_fates(cell, rule, fates(cell.settings), &BLOCKS_OF_ONE);
        assert_eq!(found.wrong > 0, cell.window.size() > 1, "{:?}", cell.window);
    }
}

/// What is read and was not sent confirms nothing: a PDCCH with another first CCE, or
/// where the scheduled block was sent; and a block where none was sent.
#[test]
fn what_was_not_sent_confirms_nothing() {
    let model = Model::new();
    let blind = Rule { named_compared: false, ..CONFIRMED };
    for cell in cells(&model, &[50], SCHEDULED, 1, 4) {
        let Cell { settings, window, .. } = &cell;
        let fates = fates_with_releases(*settings);
        let mut wrong = [0; 2];
        let mut each = |pattern: &[Fate]| {
            let Outcome { sent, exchange, decoded, .. } = cell.run(pattern);
            let others = cell.readings_of_others(&exchange);
            others.iter().for_each(|(heard, _)| assert_confirmed(*heard, 0));
            let others: Vec<ReadingAnswer> = others.into_iter().map(|(_, read)| read).collect();
            let readings = [others, cell.readings_of_no_block(&exchange)];
            for (readings, wrong) in readings.into_iter().zip(&mut wrong) {
                for read in readings {
                    assert_eq!(CONFIRMED.confirms(window, &sent, read), 0, "{sent:?}, {read:?}");
                    let confirmed = blind.confirms(window, &sent, read);
                    *wrong += u64::from(confirmed & !decoded != 0);
                }
            }
        };
        every_pattern(&fates, window.size(), &mut each);
        every_pattern_with_a_block(&fates, &BLOCKS_OF_ONE, window.size(), &mut each);
        assert!(wrong.iter().all(|wrong| *wrong > 0), "{settings:?}, {window:?}: {wrong:?}");
    }
}

/// A cell, and the same cell with special subframes that are too short for data: the
/// window has one, at this position.
struct Shortened<'a> {
    long: Cell<'a>,
    cell: Cell<'a>,
    position: usize,
}

impl<'a> Shortened<'a> {
    /// Nothing, where the window has no special subframe.
    fn new(long: Cell<'a>, (prefix, special): (u16, u16)) -> Option<Self> {
        let Cell { settings, window, .. } = long;
        let settings = settings.with_special(prefix, special);
        let at = |k: &u16| is_short(settings, (window.n + 20 - k) % 10);
        let position = window.k.iter().position(at)?;
        Some(Self { long, cell: Cell::new(settings, window), position })
    }

    /// Where the station sends no data there, the reply and its reading are what they
    /// are in the cell with longer ones, and so is what is confirmed.
    fn try_pattern(&self, found: &mut Found, pattern: &[Fate]) {
        let sent = pattern[self.position].sent(0);
        if sent.is_some_and(|sent| sent.blocks() > 0) {
            return;
        }
        let (short, long) = (self.cell.run(pattern), self.long.run(pattern));
        let answer = |fed: Fed| (fed.kind, fed.resource, fed.b0, fed.b1);
        let context = || format!("{:?}, {pattern:?}: {short:?}, {long:?}", self.cell.settings);
        assert_eq!(answer(short.fed), answer(long.fed), "{}", context());
        assert_eq!((&short.sent, short.read), (&long.sent, long.read), "{}", context());
        found.try_pattern(&self.cell, CONFIRMED, pattern);
    }
}

/// Special subframes too short for data, in which the station sends releases only:
/// each window of up to four that has one, with grants, releases and at most one
/// scheduled block at its other positions.
#[test]
fn every_pattern_with_a_short_special() {
    let model = Model::new();
    for pair in every::SHORT {
        let (mut patterns, mut confirmed, mut seen) = (0, 0, 0);
        for long in cells(&model, &[50], SCHEDULED, 1, 4) {
            let Some(shortened) = Shortened::new(long, pair) else { continue };
            let (fates, size) =
                (fates_with_releases(shortened.cell.settings), shortened.cell.window.size());
            let mut found = Found::default();
            every_pattern(&fates, size, |pattern| shortened.try_pattern(&mut found, pattern));
            every_pattern_with_a_block(&fates, &BLOCKS_OF_ONE, size, |pattern| {
                shortened.try_pattern(&mut found, pattern);
            });
            found.assert_exact(&shortened.cell);
            patterns += found.patterns;
            confirmed += found.confirmed;
            seen += 1;
        }
        // In both modes two windows of configurations 0, 1, 2 and 6, and one of 3 and 4.
        // Nothing or a release, lost or heard, at the special subframe; beside it no
        // other, one, two or three positions: four windows, two, one and three.
        let beside = |long: u64| match long {
            0 => 1,
            _ => 6u64.pow(long as u32 - 1) * (6 + 3 * long),
        };
        let all = 3 * (4 * beside(0) + 2 * beside(1) + beside(2) + 3 * beside(3));
        assert_eq!((seen, patterns), (2 * 10, 2 * all), "{pair:?}");
        assert!(confirmed > patterns / 4, "{confirmed} of {patterns}");
    }
}

/// Likewise the window of nine, and cells of two blocks: patterns at random.
#[test]
fn patterns_with_a_short_special() {
    let model = Model::new();
    let mut random = Random::new(57);
    let (mut replies, mut releases) = (0, 0);
    for pair in every::SHORT {
        for long in cells(&model, &[6], SCHEDULED, 2, 9) {
            let Some(shortened) = Shortened::new(long, pair) else { continue };
            let Cell { settings, window, .. } = shortened.cell;
            let mut found = Found::default();
            for number in 0..2000 {
                let mut pattern: Vec<Fate> = match number % 2 {
                    0 => window.k.iter().map(|_| random.one_of(&FATES_OF_TWO)).collect(),
                    _ => vec![heard_two(true, true); window.k.len()],
                };
                let place = random.below(pattern.len());
                pattern[place] = random.one_of(&BLOCKS_OF_TWO);
                let there = [Fate::Nothing, Fate::LostRelease, Fate::HeardRelease];
                pattern[shortened.position] = random.one_of(&there);
                shortened.try_pattern(&mut found, &pattern);
                let named = shortened.cell.run(&pattern).read;
                let at = shortened.position as u16;
                releases += u64::from(named.is_some_and(|read| read.position == at));
            }
            assert_eq!(found.patterns, 2000, "{settings:?}");
            assert_eq!(found.wrong, 0, "{}", found.example.unwrap_or_default());
            replies += found.replies;
        }
    }
    println!("{replies} replies, {releases} of them for a release in a short special");
    assert!(replies > 50_000 && releases > 10_000);
}
