//! Scheduled blocks and releases in windows worked by hand, through the C calls.
//! The model has no part here.

use feedback_tests::{
    feed, inverse, make, reading, Block, Fed, Grant, Handset, Heard, InverseAnswer, ReadingAnswer,
    Release, Settings, NONE, NOT_TOLD,
};

/// Configuration 1, N_RB 50, N1 10, and 9 as the scheduled resource. The window of
/// s = 12 is 5 and 6, that of s = 13 is 9. The resources of n = 2 are printed: (0,10)
/// has 20, (1,0) has 21, (1,10) has 31.
const CELL: Settings = Settings::plain(1, 50, 10, 0, 1).with_scheduled(9);

/// The same with configuration 2: the window of s = 17 is 9, 10, 13 and 11, of which
/// 13 is the latest and (2,5) has resource 37.
const LONGER: Settings = Settings { config: 2, ..CELL };

fn grant(cce: u16, dai: u16, decoded: bool) -> Heard {
    Heard::Grant(Grant { blocks: 1, first: decoded.into(), second: 0, cce, dai })
}

fn block(decoded: bool) -> Heard {
    Heard::Block(Block { blocks: 1, first: decoded.into(), second: 0 })
}

fn release(cce: u16, dai: u16) -> Heard {
    Heard::Release(Release { cce, dai })
}

/// A handset after what is heard on the way, which expects a subframe.
fn before(settings: Settings, heard: &[(u16, Heard)], s: u16) -> Handset {
    let mut handset = make(settings).handset;
    for at in 0..s {
        let here = heard.iter().find(|(each, _)| *each == at);
        let fed = feed(handset, here.map_or(Heard::Nothing, |(_, heard)| *heard));
        assert_eq!(fed.refusal, 0, "{settings:?}, s {at}");
        handset = fed.handset;
    }
    handset
}

/// The answer in subframe `s` of a run: kind, resource and bits.
fn answer(settings: Settings, heard: &[(u16, Heard)], s: u16) -> (u16, u16, (u16, u16)) {
    let fed = feed(before(settings, heard, s), Heard::Nothing);
    assert_eq!(fed.refusal, 0, "{settings:?}, s {s}");
    (fed.kind, fed.resource, (fed.b0, fed.b1))
}

const SILENT: (u16, u16, (u16, u16)) = (Fed::SILENT, 0, (0, 0));

const fn bundled(resource: u16, ack: u16) -> (u16, u16, (u16, u16)) {
    (Fed::BUNDLED, resource, (ack, 0))
}

/// Heard alone, a block is answered on its own resource, whatever else was sent and
/// lost, and read as that block.
#[test]
fn a_lone_block() {
    for (at, position) in [(5, 0), (6, 1)] {
        assert_eq!(answer(CELL, &[(at, block(true))], 12), bundled(9, 1));
        assert_eq!(answer(CELL, &[(at, block(false))], 12), bundled(9, 0));
        let read = ReadingAnswer::bundled(position, 0, 1, 0).as_block();
        assert_eq!(reading(CELL, 2, position, 9, 1, 0), read);
    }
    assert_eq!(answer(CELL, &[(9, block(true))], 13), bundled(9, 1));
    // Configuration 5, where eight PDCCHs before it may have been lost.
    let nine = Settings { config: 5, ..CELL };
    assert_eq!(answer(nine, &[(18, block(true))], 22), bundled(9, 1));
    assert_eq!(reading(nine, 2, 6, 9, 1, 0), ReadingAnswer::bundled(6, 0, 1, 0).as_block());
}

/// With a PDCCH heard the reply goes on its resource, be the block before or after
/// it. The block counts among the bits, and not for the DAI.
#[test]
fn a_block_beside_a_pdcch() {
    for (decoded, ack) in [(true, 1), (false, 0)] {
        let later = [(5, grant(10, 1, true)), (6, block(decoded))];
        assert_eq!(answer(CELL, &later, 12), bundled(20, ack));
        let earlier = [(5, block(decoded)), (6, grant(0, 1, true))];
        assert_eq!(answer(CELL, &earlier, 12), bundled(21, ack));
        let beside_release = [(5, block(decoded)), (6, release(0, 1))];
        assert_eq!(answer(CELL, &beside_release, 12), bundled(21, ack));
    }
    // The station is told of the block, and the resource says that it is not meant.
    assert_eq!(reading(CELL, 2, 1, 20, 1, 0), ReadingAnswer::bundled(0, 10, 1, 0));
    let counted = [(5, block(true)), (6, grant(0, 2, true))];
    assert_eq!(answer(CELL, &counted, 12), SILENT);
}

/// A block that was sent and lost leaves no trace but what the station is told.
#[test]
fn a_lost_block() {
    assert_eq!(answer(CELL, &[(6, grant(0, 1, true))], 12), bundled(21, 1));
    assert_eq!(reading(CELL, 2, 0, 21, 1, 0), ReadingAnswer::bundled(1, 0, 1, 0));
    assert_eq!(answer(CELL, &[], 12), SILENT);
}

/// A miss shown by a PDCCH is silent though a block was heard.
#[test]
fn a_miss_beside_a_block() {
    let missed = [(10, grant(0, 2, true)), (11, block(true))];
    assert_eq!(answer(LONGER, &missed, 17), SILENT);
    let released = [(10, release(0, 2)), (13, block(true))];
    assert_eq!(answer(LONGER, &released, 17), SILENT);
    // Configuration 0 does not read the DAI, and its windows have one subframe.
    let zero = Settings { config: 0, ..CELL };
    assert_eq!(answer(zero, &[(6, release(5, 3))], 12), bundled(15, 1));
    assert_eq!(answer(zero, &[(6, block(false))], 12), bundled(9, 0));
}

/// A release counts as a grant that decoded everything, DAI and CCE included.
#[test]
fn a_release_heard_last() {
    for (decoded, ack) in [(true, 1), (false, 0)] {
        let heard = [(9, grant(0, 1, decoded)), (13, release(5, 2))];
        assert_eq!(answer(LONGER, &heard, 17), bundled(37, ack));
        let heard = [(9, release(0, 1)), (13, grant(5, 2, decoded))];
        assert_eq!(answer(LONGER, &heard, 17), bundled(37, ack));
    }
    assert_eq!(answer(LONGER, &[(13, release(5, 1))], 17), bundled(37, 1));
    assert_eq!(answer(LONGER, &[(13, release(5, 2))], 17), SILENT);
    let two = Settings { blocks: 2, ..LONGER };
    assert_eq!(answer(two, &[(13, release(5, 1))], 17), (Fed::BUNDLED, 37, (1, 1)));
}

/// Configuration 5: four grants lost in 9, 10, 11 and 13, a release with DAI 1 heard
/// in 14, m = 3. The reply says ACK and knows nothing of the four.
#[test]
fn a_release_after_four_lost_grants() {
    let nine = Settings { config: 5, ..CELL };
    // N_1 is 11: position 3 of nine in region 0 starts 3 × 11 above N1.
    assert_eq!(answer(nine, &[(14, release(0, 1))], 22), bundled(10 + 33, 1));
    assert_eq!(answer(nine, &[(14, release(0, 1)), (15, block(false))], 22), bundled(43, 0));
    assert_eq!(answer(nine, &[(14, release(0, 2)), (15, block(true))], 22), SILENT);
}

/// In a cell of two blocks a sole block stands for both bits, of a grant and of a
/// scheduled block.
#[test]
fn sole_blocks() {
    let two = Settings { blocks: 2, ..CELL };
    let carried = |blocks, first, second| Heard::Block(Block { blocks, first, second });
    let bits = |heard| {
        let (kind, resource, bits) = answer(two, &[(5, heard)], 12);
        assert_eq!((kind, resource), (Fed::BUNDLED, 9));
        bits
    };
    assert_eq!(bits(carried(1, 1, 0)), (1, 1));
    assert_eq!(bits(carried(1, 0, 1)), (0, 0));
    assert_eq!(bits(carried(2, 1, 0)), (1, 0));
    assert_eq!(bits(carried(2, 0, 65535)), (0, 1));
    assert_eq!(bits(carried(2, 256, 2)), (1, 1));
    let mixed = [(5, carried(2, 0, 1)), (6, grant(0, 1, true))];
    assert_eq!(answer(two, &mixed, 12), (Fed::BUNDLED, 21, (0, 1)));
}

/// Multiplexed, a block is A or N at its position, and a symbol with its index goes
/// on its resource.
#[test]
fn a_block_at_the_index_of_a_symbol() {
    let settings = Settings { mode: 1, ..CELL };
    let sent = |resource, b0, b1| (Fed::MULTIPLEXED, resource, (b0, b1));
    let read = |position, delivered| ReadingAnswer::multiplexed(position, 0, delivered).as_block();
    // A,A is 1, 11; A,N is 0, 01; D,A is 1, 00; D,N is 1, 10; N,D is 0, 10.
    let (first, second) = ((5, grant(10, 1, true)), (6, block(true)));
    assert_eq!(answer(settings, &[first, second], 12), sent(9, 1, 1));
    assert_eq!(reading(settings, 2, 1, 9, 1, 1), read(1, 0b11));
    assert_eq!(answer(settings, &[first, (6, block(false))], 12), sent(20, 0, 1));
    assert_eq!(reading(settings, 2, 1, 20, 0, 1), ReadingAnswer::multiplexed(0, 10, 0b01));
    assert_eq!(answer(settings, &[second], 12), sent(9, 0, 0));
    assert_eq!(answer(settings, &[(6, block(false))], 12), sent(9, 1, 0));
    assert_eq!(answer(settings, &[(5, block(false))], 12), sent(9, 1, 0));
    assert_eq!(reading(settings, 2, 0, 9, 1, 0), read(0, 0));
    let later = [(5, block(true)), (6, grant(10, 1, false))];
    assert_eq!(answer(settings, &later, 12), sent(9, 0, 1));
    assert_eq!(reading(settings, 2, 0, 9, 0, 1), read(0, 0b01));
    // A release is A, and its resource its own. No DAI shows a miss here.
    let released = [(5, block(false)), (6, release(10, 2))];
    assert_eq!(answer(settings, &released, 12), sent(31, 0, 0));
    assert_eq!(reading(settings, 2, 0, 31, 0, 0), ReadingAnswer::multiplexed(1, 10, 0b10));
    assert_eq!(answer(settings, &[(6, release(10, 4))], 12), sent(31, 0, 0));
    assert_eq!(answer(settings, &[], 12), SILENT);
    // A window of one in mode 1 is bundled.
    assert_eq!(answer(settings, &[(9, block(true))], 13), bundled(9, 1));
    assert_eq!(reading(settings, 3, 0, 9, 1, 0), ReadingAnswer::bundled(0, 0, 1, 0).as_block());
}

/// A second block in one window is refused; in another window it is not, and a
/// block that was lost is none.
#[test]
fn a_second_block() {
    let handset = before(CELL, &[(5, block(true))], 6);
    assert_eq!(feed(handset, block(true)), Fed::refused(18, handset));
    assert_eq!(feed(handset, block(false)), Fed::refused(18, handset));
    let none_carried = Heard::Block(Block { blocks: 0, first: 1, second: 1 });
    assert_eq!(feed(handset, none_carried), Fed::refused(10, handset));
    assert_eq!(feed(handset, release(0, 1)).kind, Fed::TAKEN);
    assert_eq!(feed(handset, grant(0, 1, true)).kind, Fed::TAKEN);
    // The refused feed brought nothing: the block in 5 is answered, and alone.
    let mut fed = feed(handset, block(false));
    for _ in 6..=12 {
        fed = feed(fed.handset, Heard::Nothing);
    }
    assert_eq!((fed.kind, fed.resource, (fed.b0, fed.b1)), bundled(9, 1));
    let lost_first = before(CELL, &[], 6);
    assert_eq!(feed(lost_first, block(true)).kind, Fed::TAKEN);
    // 0 and 1 are in one window of configuration 1, 4 in the next and 5 in a third.
    let handset = before(CELL, &[(0, block(true)), (4, block(true))], 5);
    assert_eq!(feed(handset, block(true)).kind, Fed::TAKEN);
    let handset = before(CELL, &[(0, block(true))], 1);
    assert_eq!(feed(handset, block(true)), Fed::refused(18, handset));
    // A release does not end the schedule for the handset.
    let handset = before(CELL, &[(5, release(0, 1))], 6);
    assert_eq!(feed(handset, block(true)).kind, Fed::TAKEN);
}

/// Where no resource is set no block is taken, and releases are.
#[test]
fn no_scheduled_resource() {
    let settings = Settings { scheduled: NONE, ..CELL };
    let handset = make(settings).handset;
    assert_eq!(feed(handset, block(true)), Fed::refused(18, handset));
    assert_eq!(answer(settings, &[(6, release(0, 1))], 12), bundled(21, 1));
    for told in [0, 1] {
        for resource in [0, 9, 10, 20, 131, 132, NONE] {
            let read = reading(settings, 2, told, resource, 2, 2);
            assert_eq!(read, ReadingAnswer::refused(18), "told {told}, resource {resource}");
        }
    }
}

/// The scheduled resource lies below N1, or is none.
#[test]
fn where_the_scheduled_resource_may_lie() {
    for (n1, scheduled, refusal) in [
        (10, 0, 0),
        (10, 9, 0),
        (10, 10, 17),
        (10, 11, 17),
        (10, 65534, 17),
        (10, NONE, 0),
        (0, 0, 17),
        (0, 65534, 17),
        (0, NONE, 0),
        (2047, 2046, 0),
        (2047, 2047, 17),
    ] {
        let settings = Settings { n1, scheduled, ..CELL };
        assert_eq!(make(settings).refusal, refusal, "{settings:?}");
        assert_eq!(reading(settings, 2, NOT_TOLD, n1, 1, 0).refusal, refusal, "{settings:?}");
    }
}

/// What is told is looked at first, whatever came in; a resource that belongs to the
/// told position is read as a grant there; not told, the scheduled resource is none
/// of the window's, and the inverse knows nothing of it.
#[test]
fn what_the_station_is_told() {
    let refused = ReadingAnswer::refused;
    for resource in [0, 9, 10, 20, 131, 132, 65535] {
        assert_eq!(reading(CELL, 2, 2, resource, 1, 0), refused(11), "{resource}");
        assert_eq!(reading(CELL, 2, 65534, resource, 2, 2), refused(11), "{resource}");
        let none = Settings { scheduled: NONE, ..CELL };
        assert_eq!(reading(none, 2, 2, resource, 2, 2), refused(11), "{resource}");
    }
    assert_eq!(reading(CELL, 2, 0, 20, 1, 0), ReadingAnswer::bundled(0, 10, 1, 0));
    assert_eq!(reading(CELL, 2, NOT_TOLD, 9, 1, 0), refused(13));
    assert_eq!(inverse(CELL, 2, 9), InverseAnswer::refused(13));
    assert_eq!(reading(CELL, 2, 0, 8, 2, 2), refused(13));
    assert_eq!(reading(CELL, 2, 0, 132, 2, 2), refused(13));
    assert_eq!(reading(CELL, 2, 0, 65535, 2, 2), refused(13));
    // 14 goes by the told position: in a window of two there is 0, 01 and no 1, 01.
    assert_eq!(reading(CELL, 2, 0, 9, 2, 0), refused(14));
    assert_eq!(reading(CELL, 2, 0, 9, 0, 1), refused(14));
    let multiplexing = Settings { mode: 1, ..CELL };
    assert_eq!(reading(multiplexing, 2, 1, 9, 0, 1), refused(14));
    assert_eq!(reading(multiplexing, 2, 0, 9, 0, 0), refused(14));
    assert_eq!(
        reading(multiplexing, 2, 0, 9, 0, 1),
        ReadingAnswer::multiplexed(0, 0, 1).as_block()
    );
}
