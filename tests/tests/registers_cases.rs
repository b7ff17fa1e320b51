//! The register block of a handset, one command at a time, beside the model: every byte with every
//! value, flags and masks in all combinations, every command and every kind, blocks of other
//! lengths, and handsets and blocks of any numbers. A block lies flush with pages that are not
//! mapped, on either side of it. The order of the refusals is written out by hand.

use feedback_tests::c::feedback_command;
use feedback_tests::compare::Comparison;
use feedback_tests::every;
use feedback_tests::guarded::Guarded;
use feedback_tests::model::Model;
use feedback_tests::random::Random;
use feedback_tests::registers::{
    Found, Written, ALL, CLEAR, COMMAND, DROPPED, FEED, FLAGS, MASK, NO_COMMAND, NUMBER, REFUSED,
    SIZE, ZEROS,
};
use feedback_tests::{command, feed_nothing, CommandAnswer, Fed, Handset, Settings, Slot, NONE};
use std::ptr::null_mut;

/// Configuration 1, DSUUDDSUUD, where 2 answers for 5 and 6.
const CELL: Settings = Settings::plain(1, 50, 300, 0, 2).with_scheduled(9);

/// One more command than there are.
const ANOTHER: u8 = 3;

/// The answers of a feed of nothing to good handsets.
const KINDS: [u16; 5] = [Fed::BUNDLED, Fed::MULTIPLEXED, Fed::SILENT, Fed::TAKEN, Fed::NO_WINDOW];

/// A handset for each answer of a feed of nothing, some of them twice, and two that are bad.
fn handsets(model: &Model) -> Vec<Handset> {
    let multiplexing = Settings { mode: 1, ..CELL };
    let two_ports = Settings::plain(2, 110, 2047, 0, 1).with_ports(2);
    let short = CELL.with_special(0, 5);
    let one_block = Settings { blocks: 1, ..CELL };
    let mut block_heard = Handset { next: 1, ..Handset::fresh(one_block) };
    block_heard.past[0] = Slot::block(1);
    let fresh = Handset::fresh(CELL);
    vec![
        every::granted(model, CELL, 2),
        every::granted(model, two_ports, 7),
        every::granted(model, multiplexing, 2),
        Handset { next: 2, ..fresh },
        fresh,
        block_heard,
        Handset { next: 1, ..Handset::fresh(short) },
        Handset { next: 3, ..Handset::fresh(Settings { config: 0, ..CELL }) },
        Handset { next: 10, ..fresh },
        Handset::NONE,
    ]
}

/// All kinds of answers are among those of these handsets, and two refusals.
#[test]
fn the_handsets_answer_in_every_way() {
    let model = Model::new();
    let answers: Vec<Fed> = handsets(&model).into_iter().map(feed_nothing).collect();
    for kind in KINDS {
        assert!(answers.iter().any(|fed| fed.kind == kind), "kind {kind}");
    }
    assert!(answers.iter().any(|fed| fed.second > 255));
    assert_eq!(answers.iter().filter(|fed| fed.refusal == 8).count(), 2);
}

/// A block before a command. As a record it has first CCE 5, DAI 1 and one block that was decoded.
fn block_before(command: u8, kind: u8, flags: u8) -> [u8; SIZE] {
    [kind, 5, 1, 1, command, flags, 6, 7, 8, 9, 10, 11, 12, 13, 14, 15]
}

/// The commands, a feed of each kind.
const COMMANDS: [(u8, u8); 7] = [
    (NO_COMMAND, 6),
    (FEED, 0),
    (FEED, Slot::GRANT),
    (FEED, Slot::BLOCK),
    (FEED, Slot::RELEASE),
    (CLEAR, 5),
    (ANOTHER, 1),
];

/// Every byte of a block with every value, before each command, with few flags and many, and on
/// each handset.
#[test]
fn every_byte_with_every_value() {
    let model = Model::new();
    let mut comparison = Comparison::with(&model);
    let mut lent = Guarded::new(SIZE);
    let handsets = handsets(&model);
    for handset in &handsets {
        for (command, kind) in COMMANDS {
            for flags in [0, 0x0d, 0xf2, 0xff] {
                let good = block_before(command, kind, flags);
                for at in 0..SIZE {
                    let mut block = good;
                    for value in 0..=255 {
                        block[at] = value;
                        comparison.command(&mut lent, *handset, &block);
                    }
                }
            }
        }
    }
    let compared = handsets.len() as u64 * 7 * 4 * 16 * 256 * 2;
    comparison.finish_with(compared, &[0, 8, 9, 10, 11, 12, 18, 20, 22, 28], &[]);
}

/// Flags and mask with all values together: for none, for a feed that brings a reply, for one that
/// is taken, and for one that is refused.
#[test]
fn flags_and_mask_in_every_combination() {
    let model = Model::new();
    let mut comparison = Comparison::with(&model);
    let mut lent = Guarded::new(SIZE);
    let (replying, fresh) = (every::granted(&model, CELL, 2), Handset::fresh(CELL));
    let cases = [
        (NO_COMMAND, 0, fresh),
        (FEED, 0, replying),
        (FEED, Slot::GRANT, fresh),
        (FEED, Slot::GRANT, replying),
    ];
    let mut by_line = [[0; 2]; 4];
    for (by_line, (command, kind, handset)) in by_line.iter_mut().zip(cases) {
        for flags in 0..=255 {
            let mut block = block_before(command, kind, flags);
            for mask in 0..=255 {
                block[MASK] = mask;
                let (answer, left) = comparison.command(&mut lent, handset, &block);
                by_line[usize::from(answer.line)] += 1;
                assert_eq!(left[FLAGS] & !ALL, flags & !ALL, "{block:?}");
                assert_eq!(left[MASK], mask, "{block:?}");
            }
        }
    }
    comparison.finish(4 * 65_536 * 2, 3 * 65_536 * 2);
    assert_eq!(comparison.refused(9), 65_536 * 2);
    println!("low and high {by_line:?}");
    // Of the 64 ways to set three flags and three mask bits 27 have no bit in common. A reply sets
    // bit 0, and bit 2 where bit 0 was set; a refusal sets bit 1.
    let low = [27, 3 * (4 + 1), 27, 2 * 9].map(|ways| ways * 32 * 32);
    assert_eq!(by_line, low.map(|low| [low, 65_536 - low]));
}

/// What a clear drops and the flags with all values together.
#[test]
fn clears_in_every_combination() {
    let model = Model::new();
    let mut comparison = Comparison::with(&model);
    let mut lent = Guarded::new(SIZE);
    let handset = Handset::fresh(CELL);
    for flags in 0..=255 {
        let mut block = block_before(CLEAR, 0, flags);
        for dropped in 0..=255 {
            block[DROPPED] = dropped;
            let (answer, left) = comparison.command(&mut lent, handset, &block);
            let mut due = block;
            due[FLAGS] = flags & !(dropped & ALL);
            assert_eq!((answer.refusal, answer.handset, &left[..]), (0, handset, &due[..]));
        }
    }
    comparison.finish(65_536 * 2, 65_536 * 2);
}

/// Every command with every kind: from 3 on 28, on a bad handset too; and under a feed every kind
/// from 4 on is 22 before 8.
#[test]
fn every_command_with_every_kind() {
    let model = Model::new();
    let mut comparison = Comparison::with(&model);
    let mut lent = Guarded::new(SIZE);
    let good = Handset::fresh(CELL);
    for (handset, of_feed) in [(good, 0), (Handset { next: 10, ..good }, 8)] {
        for asked in 0..=255 {
            for kind in 0..=255 {
                let block = block_before(asked, kind, 0);
                let (answer, left) = comparison.command(&mut lent, handset, &block);
                let due = match (asked, kind) {
                    (NO_COMMAND | CLEAR, _) => 0,
                    (FEED, 0..=3) => of_feed,
                    (FEED, _) => 22,
                    _ => 28,
                };
                assert_eq!((answer.refusal, left[COMMAND]), (due, asked), "{block:?}");
            }
        }
    }
    comparison.finish_with(2 * 65_536 * 2, &[0, 8, 22, 28], &[]);
    assert_eq!(comparison.refused(28), 2 * 253 * 256 * 2);
    assert_eq!(comparison.refused(22), 2 * 252 * 2);
    assert_eq!(comparison.refused(8), 4 * 2);
}

/// In a subframe with data, where N_4 is 61 and a resource is set: the refusal of a record, and what
/// is remembered of it.
fn due_of(record: Slot, blocks: u16) -> (u16, Slot) {
    let Slot { kind, cce, dai, results } = record;
    let has_pdcch = kind == Slot::GRANT || kind == Slot::RELEASE;
    let has_blocks = kind == Slot::GRANT || kind == Slot::BLOCK;
    let is_two = results & Slot::TWO != 0;
    if has_blocks && is_two && blocks == 1 {
        return (10, Slot::NOTHING);
    }
    if has_pdcch && cce > 60 {
        return (11, Slot::NOTHING);
    }
    if has_pdcch && ![1, 2, 3, 4].contains(&dai) {
        return (12, Slot::NOTHING);
    }
    let (cce, dai) = if has_pdcch { (cce, dai) } else { (0, 0) };
    let results = match has_blocks {
        true if is_two => results & 7,
        true => results & Slot::FIRST,
        false => 0,
    };
    (0, Slot { kind, cce, dai, results })
}

/// Records of every kind with all results, and with first CCE and DAI at their limits. What the kind
/// does not use is not judged, and not remembered.
#[test]
fn used_fields_and_bits_of_a_record() {
    let model = Model::new();
    let mut comparison = Comparison::with(&model);
    let mut lent = Guarded::new(SIZE);
    for blocks in [1, 2] {
        let handset = Handset::fresh(Settings { blocks, ..CELL });
        for kind in 0..=3 {
            for (cce, dai) in [(0, 1), (60, 4), (61, 1), (60, 0), (61, 5), (60, 5), (255, 255)] {
                for results in 0..=255 {
                    let record = Slot { kind, cce, dai, results };
                    let mut block = ZEROS;
                    Written::feed(record, 0).write(&mut block);
                    let (answer, _) = comparison.command(&mut lent, handset, &block);
                    let given = (answer.refusal, answer.handset.past[0]);
                    assert_eq!(given, due_of(record, blocks), "{record:?}, {blocks}");
                }
            }
        }
    }
    comparison.finish_with(2 * 4 * 7 * 256 * 2, &[0, 10, 11, 12], &[]);
}

/// Holds a feed of a bad handset, of whatever record, to be refused 8 and to leave all but bytes 5
/// and 7.
fn hold_refused_8(bad: Handset, mut block: [u8; SIZE]) {
    (block[0], block[COMMAND]) = (block[0] % 4, FEED);
    let mut due = block;
    (due[FLAGS], due[NUMBER]) = (block[FLAGS] | REFUSED, 8);
    let answer = command(bad, &mut block);
    assert_eq!((answer.refusal, block), (8, due), "{bad:?}");
    assert_eq!(answer.handset.bytes(), bad.bytes(), "{bad:?}");
}

/// None and clear look at no handset: on every bad one they are not refused 8, it comes back bit
/// for bit, and the block and the line are as with a good one. A feed of it is refused 8.
#[test]
fn none_and_clear_look_at_no_handset() {
    let mut random = Random::new(1);
    let good = Handset::fresh(CELL);
    let mut bad = 0;
    for _ in 0..200_000 {
        let fresh = Handset::fresh(random.settings());
        let handset = if random.once_in(2) { random.noise() } else { random.damage(fresh) };
        let mut block = random.register_block();
        block[COMMAND] = random.one_of(&[NO_COMMAND, CLEAR]);
        let (mut left, mut beside) = (block, block);
        let answer = command(handset, &mut left);
        let due = CommandAnswer { handset, ..command(good, &mut beside) };
        assert!(
            answer == due && answer.refusal == 0 && left == beside,
            "{block:?} on {handset:?}: {answer:?} and {left:?}, {due:?} and {beside:?}"
        );
        assert_eq!(answer.handset.bytes(), handset.bytes(), "{block:?} on {handset:?}");
        if feed_nothing(handset).refusal == 8 {
            hold_refused_8(handset, block);
            bad += 1;
        }
    }
    println!("{bad} bad handsets");
    assert!(bad > 100_000);
}

/// What is lent in a block of another length: the bytes of a block with this command and kind, cut
/// or with more behind them, or any.
fn other_block(length: usize, command: u8, kind: u8, random: &mut Random) -> Vec<u8> {
    let mut block = random.bytes(length.min(100));
    if !random.once_in(4) {
        let of_block = block_before(command, kind, 0xff);
        block.iter_mut().zip(of_block).for_each(|(byte, of_block)| *byte = of_block);
    }
    block.resize(length, 0xff);
    block
}

/// Every length but 16, up to 40 and such whose low bits are those of 16: 29 before all else, no
/// byte is written, and the line is 0. So it is with a command and a kind that there are not, and
/// with a bad handset.
#[test]
fn blocks_of_other_lengths() {
    let model = Model::new();
    let mut comparison = Comparison::with(&model);
    let mut lent = Guarded::new((1 << 24) + SIZE);
    let mut random = Random::new(2);
    let fresh = Handset::fresh(CELL);
    let handsets = [fresh, every::granted(&model, CELL, 2), Handset { next: 10, ..fresh }];
    let larger = [255, 256, 256 + SIZE, 4096 + SIZE, 65_535, 65_536, 65_536 + SIZE];
    let lengths: Vec<usize> = (0..=40).chain(larger).filter(|length| *length != SIZE).collect();
    let mut hold = |length, command, kind, handset| {
        let block = other_block(length, command, kind, &mut random);
        let (answer, left) = comparison.command(&mut lent, handset, &block);
        assert_eq!(answer, CommandAnswer { refusal: 29, line: 0, handset }, "{length} bytes");
        assert!(left == block, "of {length} bytes some are written");
    };
    for length in &lengths {
        for handset in handsets {
            for (command, kind) in COMMANDS.into_iter().chain([(ANOTHER, 255), (FEED, 4)]) {
                hold(*length, command, kind, handset);
            }
        }
    }
    hold((1 << 24) + SIZE, FEED, 0, handsets[1]);
    let compared = (47 * 3 * 9 + 1) * 2;
    comparison.finish(compared, 0);
    assert_eq!(comparison.refused(29), compared);
}

/// No memory at all: a block of no bytes may be null.
#[test]
fn nothing_lent() {
    let good = Handset::fresh(CELL);
    for handset in [good, Handset { next: 10, ..good }, Handset::NONE] {
        // SAFETY: the length says that nothing is lent.
        let answer = unsafe { feedback_command(handset, null_mut(), 0) };
        assert_eq!(answer, CommandAnswer { refusal: 29, line: 0, handset });
    }
}

/// All causes of a refusal at once, and one after another put right: 29, 28, 22, 8, 9, 20, 10, 11,
/// 12, 18. Of configuration 1 subframe 7 is uplink, 6 is special, and 0 and 1 are in one window.
/// Where nothing is wrong any more the feed is taken.
#[test]
fn one_cause_after_another() {
    let short = Settings { blocks: 1, scheduled: NONE, ..CELL }.with_special(0, 5);
    let unset = Handset { next: 5, ..Handset::fresh(short) };
    let (special, uplink) = (Handset { next: 6, ..unset }, Handset { next: 7, ..unset });
    let bad = Handset { next: 10, ..unset };
    let one_block = Settings { blocks: 1, ..CELL };
    let mut second = Handset { next: 1, ..Handset::fresh(one_block) };
    second.past[0] = Slot::block(0);
    // Of 4, which is in another window.
    let good = Handset { next: 5, ..second };
    let (wrong, carried) = ([61, 5, 7], [61, 5, 3]);
    let steps: [(u16, Handset, u8, u8, [u8; 3]); 14] = [
        (28, bad, ANOTHER, 4, wrong),
        (22, bad, FEED, 4, wrong),
        (8, bad, FEED, Slot::GRANT, wrong),
        (9, uplink, FEED, Slot::GRANT, wrong),
        (9, uplink, FEED, Slot::BLOCK, wrong),
        (9, uplink, FEED, Slot::RELEASE, wrong),
        (20, special, FEED, Slot::GRANT, wrong),
        (20, special, FEED, Slot::BLOCK, wrong),
        (10, unset, FEED, Slot::BLOCK, wrong),
        (11, unset, FEED, Slot::GRANT, carried),
        (12, unset, FEED, Slot::GRANT, [60, 5, 3]),
        (18, unset, FEED, Slot::BLOCK, carried),
        (18, second, FEED, Slot::BLOCK, carried),
        (0, good, FEED, Slot::BLOCK, carried),
    ];
    for (due, handset, number, kind, [cce, dai, results]) in steps {
        let mut block = block_before(number, kind, 0xf8);
        block[1..COMMAND].copy_from_slice(&[cce, dai, results]);
        for length in [0, 5, 15] {
            let mut part = block[..length].to_vec();
            assert_eq!(command(handset, &mut part).refusal, 29, "{due}");
            assert_eq!(part, block[..length], "{due}");
        }
        let mut left = block;
        let answer = command(handset, &mut left);
        assert_eq!(answer.refusal, due, "{handset:?}, {block:?}");
        if due != 0 {
            (block[FLAGS], block[NUMBER]) = (0xfa, due as u8);
            assert_eq!(answer.handset, handset, "{due}");
        }
        assert_eq!(left, block, "{due}: bytes 5 and 7 alone change");
    }
}

/// A handset of any numbers, or a fresh one; nothing for the one that goes on.
fn another(handset: Handset, random: &mut Random) -> Option<Handset> {
    match random.below(16) {
        0 => Some(random.noise()),
        1..4 => Some(random.damage(handset)),
        4 => Some(Handset::fresh(random.settings())),
        5 => Some(Handset::fresh(random.scheduled_settings())),
        _ => None,
    }
}

/// A block of any bytes, one in 32 not of 16. Mostly it has a command that there is, and for a
/// handset that goes on what its next subframe may bring.
fn any_block(model: &Model, goes_on: Option<Handset>, random: &mut Random) -> Vec<u8> {
    let length = if random.once_in(32) { random.below(40) } else { SIZE };
    let mut block = random.bytes(length);
    if length != SIZE || random.once_in(16) {
        return block;
    }
    match goes_on {
        Some(handset) => random.written(model, handset).write(&mut block),
        None => {
            block[DROPPED] = random.below(6) as u8;
            block[COMMAND] = random.one_of(&[NO_COMMAND, FEED, FEED, CLEAR]);
        }
    }
    block
}

/// Handsets of any numbers and blocks of any bytes. All refusals are met, and every wrong rule is
/// given away.
#[test]
fn any_handset_and_any_block() {
    const CALLS: u64 = 40_000;
    let model = Model::new();
    let mut comparison = Comparison::with(&model);
    let mut lent = Guarded::new(40);
    let mut found = Found::default();
    let mut random = Random::new(3);
    let mut handset = Handset::fresh(CELL);
    for _ in 0..CALLS {
        let another = another(handset, &mut random);
        let goes_on = another.is_none().then_some(handset);
        let lent_handset = another.unwrap_or(handset);
        let block = any_block(&model, goes_on, &mut random);
        let (answer, left) = comparison.command(&mut lent, lent_handset, &block);
        found.hold(&model, lent_handset, &block, (answer, &left));
        // A damaged one may go on, if a feed does not find it bad.
        if feed_nothing(answer.handset).refusal == 0 {
            handset = answer.handset;
        }
    }
    comparison.finish_with(CALLS * 2, &[0, 8, 9, 10, 11, 12, 18, 20, 22, 28, 29], &[]);
    found.assert_caught_all_but(&[]);
}
