//! The cases that the papers print, as numbers, through the C calls. The model
//! has no part here.

use feedback_tests::every;
use feedback_tests::{
    claims, claims_bits, feed, inverse, make, reading, resource, ClaimsAnswer, Fed, Grant,
    InverseAnswer, ReadingAnswer, ResourceAnswer, Settings, NOT_TOLD,
};

/// Configuration 1, N_RB 50, N1 10; its window of n = 2 has M = 2.
const CELL: Settings = Settings::plain(1, 50, 10, 0, 1);

#[test]
fn resources_of_configuration_1() {
    let cases =
        [((0, 0), 10), ((0, 10), 20), ((1, 0), 21), ((1, 10), 31), ((0, 11), 32), ((1, 60), 131)];
    for ((position, cce), number) in cases {
        assert_eq!(resource(CELL, 2, position, cce), ResourceAnswer::of(number));
        assert_eq!(inverse(CELL, 2, number), InverseAnswer::of(position, cce));
    }
}

#[test]
fn refusals_of_configuration_1() {
    assert_eq!(resource(CELL, 2, 0, 61), ResourceAnswer::refused(11));
    assert_eq!(resource(CELL, 2, 1, 61), ResourceAnswer::refused(11));
    assert_eq!(resource(CELL, 2, 2, 0), ResourceAnswer::refused(11));
    assert_eq!(inverse(CELL, 2, 9), InverseAnswer::refused(13));
    assert_eq!(inverse(CELL, 2, 132), InverseAnswer::refused(13));
}

/// Configuration 2, n = 7: subframe 3 is four before, third in K, so m = 2.
#[test]
fn subframe_3_of_configuration_2() {
    let settings = Settings { config: 2, ..CELL };
    assert_eq!(resource(settings, 7, 2, 5), ResourceAnswer::of(37));
    assert_eq!(inverse(settings, 7, 37), InverseAnswer::of(2, 5));
}

/// In configuration 0 the uplink subframes 3 and 8 have no window; in no
/// configuration has a downlink subframe one, nor the number 10.
#[test]
fn subframes_without_a_window() {
    for n in [0, 1, 3, 5, 6, 8, 10, 12, 255, 258, 65535] {
        let settings = Settings { config: 0, ..CELL };
        assert_eq!(resource(settings, n, 0, 0), ResourceAnswer::refused(7), "n {n}");
        assert_eq!(inverse(settings, n, 10), InverseAnswer::refused(7), "n {n}");
    }
}

/// The edges N_0 to N_4 as they show in the resources. In a window of two and
/// with N1 0, the resource of (0, c) is N_p + c and that of (1, c) is N_(p+1) + c.
#[test]
fn edges_of_the_regions() {
    assert_eq!(edges_seen(50), [0, 11, 27, 44, 61]);
    assert_eq!(edges_seen(6), [0, 1, 3, 5, 7]);
    assert_eq!(edges_seen(110), [0, 24, 61, 97, 134]);
}

fn edges_seen(nrb: u16) -> Vec<u16> {
    let settings = Settings { nrb, n1: 0, ..CELL };
    let mut edges = Vec::new();
    let mut cce = 0;
    loop {
        let (lower, upper) = (resource(settings, 2, 0, cce), resource(settings, 2, 1, cce));
        if (lower.refusal, upper.refusal) == (11, 11) {
            break;
        }
        let region = lower.resource - cce..upper.resource - cce;
        assert!(region.contains(&cce), "N_RB {nrb}: CCE {cce} is not in region {region:?}");
        edges.extend([region.start, region.end]);
        cce += 1;
    }
    assert!(edges.contains(&cce), "N_RB {nrb}: CCE {cce} is refused and is no edge");
    edges.sort();
    edges.dedup();
    edges
}

/// Only configuration 5 has no multiplexing.
#[test]
fn multiplexing() {
    for config in 0..=6 {
        let settings = Settings { config, mode: 1, ..CELL };
        let refusal = if config == 5 { 5 } else { 0 };
        assert_eq!(resource(settings, 2, 0, 0).refusal, refusal, "configuration {config}");
        assert_eq!(inverse(settings, 2, 10).refusal, refusal, "configuration {config}");
    }
}

/// Neither mode nor blocks changes a resource.
#[test]
fn mode_and_blocks_do_not_move_a_resource() {
    for (mode, blocks) in [(0, 1), (0, 2), (1, 1), (1, 2)] {
        let settings = Settings { mode, blocks, ..CELL };
        assert_eq!(resource(settings, 2, 0, 11), ResourceAnswer::of(32));
        assert_eq!(inverse(settings, 2, 32), InverseAnswer::of(0, 11));
    }
}

/// A one-block grant.
fn grant(cce: u16, dai: u16, decoded: bool) -> Grant {
    Grant { blocks: 1, first: decoded.into(), second: 0, cce, dai }
}

/// The answer in subframe `last` of a run from a fresh handset, with what is
/// heard on the way: kind, resource and bits.
fn answer(settings: Settings, heard: &[(u16, Grant)], last: u16) -> (u16, u16, (u16, u16)) {
    let mut handset = make(settings).handset;
    for s in 0.. {
        let here = heard.iter().find(|(at, _)| *at == s);
        let fed = feed(handset, here.map(|(_, grant)| *grant));
        assert_eq!(fed.refusal, 0, "{settings:?}, s {s}");
        if s == last {
            return (fed.kind, fed.resource, (fed.b0, fed.b1));
        }
        handset = fed.handset;
    }
    unreachable!("the last subframe is answered")
}

const SILENT: (u16, u16, (u16, u16)) = (Fed::SILENT, 0, (0, 0));

/// Configuration 2, n = 7, mode 0: DAI 1 heard in 9 and DAI 3 in 3 is silent.
/// With DAI 2 there it is answered, on the resource of subframe 3 (m = 2, c 5).
#[test]
fn a_miss_is_silent() {
    let settings = Settings { config: 2, ..CELL };
    let heard = |dai| [(9, grant(0, 1, true)), (13, grant(5, dai, true))];
    assert_eq!(answer(settings, &heard(3), 17), SILENT);
    assert_eq!(answer(settings, &heard(2), 17), (Fed::BUNDLED, 37, (1, 0)));
    assert_eq!(reading(settings, 7, NOT_TOLD, 37, 1, 0), ReadingAnswer::bundled(2, 5, 1, 0));
}

/// In 8,7,4,6 the latest subframe is m = 2, not the last position.
#[test]
fn the_last_position_is_not_the_latest() {
    let settings = Settings { config: 2, blocks: 2, ..CELL };
    let heard = [(11, grant(20, 1, true)), (13, grant(5, 2, false))];
    assert_eq!(answer(settings, &heard, 17), (Fed::BUNDLED, 37, (0, 0)));
    let heard = [(11, grant(20, 2, true)), (13, grant(5, 1, true))];
    assert_eq!(answer(settings, &heard, 17), SILENT);
}

/// Configuration 0 does not read the DAI; configuration 6 does, in both modes.
#[test]
fn windows_of_one() {
    for mode in [0, 1] {
        for (config, sent, uplink) in [(0, 6, 12), (6, 5, 12)] {
            let settings = Settings { config, mode, ..CELL };
            let heard = |dai| [(sent, grant(5, dai, true))];
            let reply = (Fed::BUNDLED, 15, (1, 0));
            assert_eq!(answer(settings, &heard(1), uplink), reply);
            let other = if config == 0 { reply } else { SILENT };
            assert_eq!(answer(settings, &heard(2), uplink), other, "configuration {config}");
        }
    }
}

/// D is not N: D,D is silent and D,N is not; N,D has another symbol than N,N.
#[test]
fn unheard_is_not_undecoded() {
    let settings = Settings { mode: 1, ..CELL };
    // The window of s = 12 is 5 and 6.
    let first = (5, grant(0, 1, false));
    let second = (6, grant(10, 2, false));
    assert_eq!(answer(settings, &[], 12), SILENT);
    assert_eq!(answer(settings, &[second], 12), (Fed::MULTIPLEXED, 31, (1, 0)));
    assert_eq!(answer(settings, &[first], 12), (Fed::MULTIPLEXED, 10, (1, 0)));
    assert_eq!(answer(settings, &[first, second], 12), (Fed::MULTIPLEXED, 31, (1, 0)));
    assert_eq!(reading(settings, 2, NOT_TOLD, 31, 1, 0), ReadingAnswer::multiplexed(1, 10, 0));
}

/// AAA-, AA-A and AA-- share a symbol, so only the first two are delivered.
#[test]
fn rows_that_share_a_symbol() {
    let settings = Settings { config: 2, mode: 1, ..CELL };
    // The window of s = 17 is 9, 10, 13 and 11.
    let (first, second) = ((9, grant(0, 1, true)), (10, grant(5, 2, true)));
    let (third, fourth) = ((13, grant(3, 4, true)), (11, grant(60, 3, true)));
    let shared = (Fed::MULTIPLEXED, 10 + 11 + 5, (1, 0));
    assert_eq!(answer(settings, &[first, second], 17), shared);
    assert_eq!(answer(settings, &[first, second, third], 17), shared);
    assert_eq!(answer(settings, &[first, second, fourth], 17), shared);
    assert_eq!(
        reading(settings, 7, NOT_TOLD, shared.1, 1, 0),
        ReadingAnswer::multiplexed(1, 5, 0b0011)
    );
    let all = (Fed::MULTIPLEXED, shared.1, (1, 1));
    assert_eq!(answer(settings, &[first, second, third, fourth], 17), all);
    assert_eq!(
        reading(settings, 7, NOT_TOLD, shared.1, 1, 1),
        ReadingAnswer::multiplexed(1, 5, 0b1111)
    );
}

/// Claims of configuration 1, whose resources are printed: 10, 20, 21, 31, 32, 131.
#[test]
fn claims_of_configuration_1() {
    let list = [0, 10, 256, 266, 11, 316];
    let marked = |scratch: &[u8]| -> Vec<usize> {
        assert!(scratch[..122].iter().all(|byte| *byte < 2) && scratch[122..] == [9; 3]);
        (0..122).filter(|at| scratch[*at] == 1).collect()
    };
    let mut scratch = [9; 125];
    assert_eq!(claims(CELL, 2, &list, &mut scratch), ClaimsAnswer::CLEAN);
    assert_eq!(marked(&scratch), [0, 10, 11, 21, 22, 121]);

    let clash = [316, 10, 256, 10, 0, 316];
    assert_eq!(claims(CELL, 2, &clash, &mut scratch), ClaimsAnswer::clash(3));
    assert_eq!(marked(&scratch), [10, 11, 121]);

    assert_eq!(claims(CELL, 2, &[], &mut scratch), ClaimsAnswer::CLEAN);
    assert_eq!(marked(&scratch), []);

    let bad = [316, 10, 256, 10, 0, 317];
    let mut dirty = [9; 125];
    assert_eq!(claims(CELL, 2, &bad, &mut dirty), ClaimsAnswer::refused(16, 5));
    assert_eq!(claims(CELL, 2, &list, &mut dirty[..121]), ClaimsAnswer::refused(15, 0));
    assert_eq!(dirty, [9; 125]);
}

/// The same by bits: less N1 the resources are 0, 10, 11, 21, 22 and 121, which are bit 0
/// of byte 0, bits 2 and 3 of byte 1, bits 5 and 6 of byte 2 and bit 1 of byte 15. The
/// 122 resources end there: the six bits above it are 0.
#[test]
fn claims_of_configuration_1_by_bits() {
    let list = [0, 10, 256, 266, 11, 316];
    let mut scratch = [0b1001_1001; 18];
    assert_eq!(claims_bits(CELL, 2, &list, &mut scratch), ClaimsAnswer::CLEAN);
    let [b0, b1, b2, between @ .., b15, kept, last] = scratch;
    assert_eq!([b0, b1, b2, b15], [0b0000_0001, 0b0000_1100, 0b0110_0000, 0b0000_0010]);
    assert_eq!((between, kept, last), ([0; 12], 0b1001_1001, 0b1001_1001));

    let clash = [316, 10, 256, 10, 0, 316];
    assert_eq!(claims_bits(CELL, 2, &clash, &mut scratch), ClaimsAnswer::clash(3));
    let [b0, b1, between @ .., b15, kept, last] = scratch;
    assert_eq!([b0, b1, b15], [0, 0b0000_1100, 0b0000_0010]);
    assert_eq!((between, kept, last), ([0; 13], 0b1001_1001, 0b1001_1001));

    assert_eq!(claims_bits(CELL, 2, &[], &mut scratch[..16]), ClaimsAnswer::CLEAN);
    assert_eq!(scratch, [&[0; 16][..], &[0b1001_1001; 2]].concat()[..]);

    let bad = [316, 10, 256, 10, 0, 317];
    let mut dirty = [9; 18];
    assert_eq!(claims_bits(CELL, 2, &bad, &mut dirty), ClaimsAnswer::refused(16, 5));
    assert_eq!(claims_bits(CELL, 2, &list, &mut dirty[..15]), ClaimsAnswer::refused(15, 0));
    assert_eq!(dirty, [9; 18]);
}

/// The widest window takes 1,206 bytes, and by bits 151: with every claim of it each bit is
/// set, but for two in the last byte.
#[test]
fn claims_of_the_widest_window() {
    let settings = Settings::plain(5, 110, 2047, 0, 2);
    let every = every::claim(9, 134);
    assert_eq!(every.len(), 1206);
    let mut bytes = [9; 1206];
    assert_eq!(claims(settings, 2, &every, &mut bytes[..1205]), ClaimsAnswer::refused(15, 0));
    assert_eq!(bytes, [9; 1206]);
    assert_eq!(claims(settings, 2, &every, &mut bytes), ClaimsAnswer::CLEAN);
    assert_eq!(bytes, [1; 1206]);

    let mut bits = [9; 151];
    assert_eq!(claims_bits(settings, 2, &every, &mut bits[..150]), ClaimsAnswer::refused(15, 0));
    assert_eq!(claims(settings, 2, &every, &mut bits), ClaimsAnswer::refused(15, 0));
    assert_eq!(bits, [9; 151]);
    assert_eq!(claims_bits(settings, 2, &every, &mut bits), ClaimsAnswer::CLEAN);
    let [whole @ .., last] = bits;
    assert_eq!((whole, last), ([0xff; 150], 0x3f));
    let [first, ..] = every[..] else { unreachable!("1,206 claims") };
    let again = [&every[..], &[first]].concat();
    assert_eq!(claims_bits(settings, 2, &again, &mut bits), ClaimsAnswer::clash(1206));
    assert_eq!((bits[149], bits[150]), (0xff, 0x3f));
}
