//! Every bit of the scratch of feedback_claims_bits: which claim sets it, where the last
//! byte ends, and what is left alone.

use feedback_tests::compare::{Comparison, Lent, BANDWIDTHS, WINDOWS};
use feedback_tests::every;
use feedback_tests::form::Form;
use feedback_tests::model::{edge, Model, Window, NRB};
use feedback_tests::random::Random;
use feedback_tests::{claims_bits, resource, ClaimsAnswer, Settings};

/// How many windows and bandwidths there are by M × N_4 modulo 8.
const LEFT_OVER: [u64; 8] = [468, 180, 277, 158, 498, 170, 273, 181];

/// Every claim of a window.
fn every_claim(window: &Window, nrb: u16) -> Vec<u16> {
    every::claim(window.size(), edge(nrb, 4))
}

/// How far above N1 the resource of a claim lies.
fn place(settings: Settings, n: u16, claim: u16) -> usize {
    usize::from(resource(settings, n, claim / 256, claim % 256).resource - settings.n1)
}

/// Scratch that is all 0, that is all 1, and of any bytes.
fn dirt(length: usize, random: &mut Random) -> [Vec<u8>; 3] {
    [vec![0; length], vec![255; length], random.bytes(length)]
}

/// The marks when every resource is taken: whole bytes of ones, and the lowest bits of the
/// last one, as many as are left over.
fn all_marks(resources: usize) -> Vec<u8> {
    let rest: &[u8] = match resources % 8 {
        0 => &[],
        1 => &[0b0000_0001],
        2 => &[0b0000_0011],
        3 => &[0b0000_0111],
        4 => &[0b0000_1111],
        5 => &[0b0001_1111],
        6 => &[0b0011_1111],
        _ => &[0b0111_1111],
    };
    [&vec![0b1111_1111; resources / 8][..], rest].concat()
}

/// Every window with every bandwidth, in scratch that is one short, exact or longer. The
/// lists: none of the claims, one, some, of which two may be equal, all, and all but for a
/// bad one.
#[test]
fn the_last_byte() {
    let model = Model::new();
    let mut comparison = Comparison::with(&model);
    let mut random = Random::new(1);
    let mut lent = Lent::new(1206);
    let mut left_over = [0; 8];
    for (settings, window) in every::window(&model, NRB, &[10], &[(0, 2)]) {
        let every = every_claim(window, settings.nrb);
        let full = all_marks(every.len());
        let need = full.len();
        left_over[every.len() % 8] += 1;
        let one = vec![random.one_of(&every)];
        let some = (0..need).map(|_| random.one_of(&every)).collect();
        let mut bad = every.clone();
        bad[random.below(every.len())] = window.size() * 256;
        for list in [&vec![], &one, &some, &every, &bad] {
            for room in [need - 1, need, need + 1, need + 9] {
                for before in dirt(room, &mut random) {
                    comparison.claims(Form::Bits, &mut lent, settings, window.n, list, &before);
                    let mut left = before.clone();
                    let given = claims_bits(settings, window.n, list, &mut left);
                    let what = || format!("{settings:?}, n {}, {list:?} in {before:?}", window.n);
                    if room < need || *list == bad {
                        let due = if room < need { 15 } else { 16 };
                        assert_eq!((given.refusal, &left), (due, &before), "{}", what());
                        continue;
                    }
                    let (marks, beyond) = left.split_at(need);
                    let is_within = marks.iter().zip(&full).all(|(mark, full)| mark & !full == 0);
                    assert!(is_within && beyond == &before[need..], "{left:?}: {}", what());
                    assert!(!list.is_empty() || marks == vec![0; need], "{left:?}: {}", what());
                    assert!(*list != every || marks == full, "{left:?}: {}", what());
                }
            }
        }
    }
    assert_eq!(left_over, LEFT_OVER);
    assert_eq!(left_over.iter().sum::<u64>(), WINDOWS * BANDWIDTHS);
    let calls = WINDOWS * BANDWIDTHS * 3 * 2;
    comparison.finish_with(calls * 5 * 4, &[0, 15, 16], &[0, 1, 2]);
    assert_eq!(comparison.refused(15), calls * 5);
    assert_eq!(comparison.refused(16), calls * 3);
}

/// For every window, a bandwidth for each number of bits that its last byte can have: the
/// widest with it.
fn of_each_rest(window: &Window) -> Vec<u16> {
    let with = |rest: u16| NRB.rev().find(|nrb| window.size() * edge(*nrb, 4) % 8 == rest);
    (0..8).filter_map(with).collect()
}

/// Each claim by itself sets the one bit that its resource has, whatever was there before;
/// said twice, it clashes with the same bit set; and all claims together have each bit once.
#[test]
fn each_claim_alone() {
    let model = Model::new();
    let mut random = Random::new(2);
    let (mut cells, mut single) = (0, 0);
    for window in model.windows() {
        for nrb in of_each_rest(window) {
            let n1 = random.one_of(&[0, 10, 2047]);
            let settings = Settings::plain(window.config, nrb, n1, 0, 1);
            let every = every_claim(window, nrb);
            let need = Form::Bits.need(every.len());
            let mut times = vec![0; 8 * need];
            for claim in every.iter().copied() {
                let t = place(settings, window.n, claim);
                times[t] += 1;
                let mut due = vec![0; need];
                due[t / 8] = 2u8.pow((t % 8) as u32);
                let twice = ClaimsAnswer::clash(1);
                for (list, answer) in [(vec![claim], ClaimsAnswer::CLEAN), (vec![claim; 2], twice)]
                {
                    for mut scratch in dirt(need, &mut random) {
                        let given = claims_bits(settings, window.n, &list, &mut scratch);
                        assert!(
                            given == answer && scratch == due,
                            "feedback_claims_bits({settings:?}, n {}, {list:?}): the engine gives \
                             {given:?}, leaves {scratch:?}, and t is {t}",
                            window.n
                        );
                        single += 1;
                    }
                }
            }
            assert!(times[..every.len()].iter().all(|times| *times == 1), "{settings:?}");
            assert_eq!(times[every.len()..].iter().sum::<u64>(), 0, "{settings:?}");
            cells += 1;
        }
    }
    println!("{cells} cells, {single} calls");
    // Eight for each of the windows of one, three and nine, two for those of four and four
    // for those of two. Together they have 32,308 resources.
    assert_eq!(cells, 8 * (11 + 1 + 1) + 2 * 4 + 4 * 4);
    assert_eq!(single, 32_308 * 2 * 3);
}

/// The marks are those of the claims before a clash: of no others, wherever the clash is. A
/// bad claim behind it or before it is refused, and nothing is marked.
#[test]
fn every_index_of_a_clash() {
    let model = Model::new();
    let mut random = Random::new(3);
    let (mut clashes, mut bad) = (0, 0);
    for (settings, window) in every::window(&model, [10, 50], &[100], &[(0, 1)]) {
        let mut every = every_claim(window, settings.nrb);
        random.shuffle(&mut every);
        let need = Form::Bits.need(every.len());
        let mut due = vec![0; need];
        for index in 1..every.len() {
            let t = place(settings, window.n, every[index - 1]);
            due[t / 8] |= 2u8.pow((t % 8) as u32);
            let mut list = every.clone();
            list[index] = every[random.below(index)];
            let [_, _, before] = dirt(need + 2, &mut random);
            let mut scratch = before.clone();
            let given = claims_bits(settings, window.n, &list, &mut scratch);
            let what = || format!("{settings:?}, n {}, {list:?}", window.n);
            assert_eq!(given, ClaimsAnswer::clash(index), "{}", what());
            assert_eq!(scratch[..need], due, "{}", what());
            assert_eq!(scratch[need..], before[need..], "{}", what());
            clashes += 1;

            let at = random.below(list.len());
            list[at] = random.one_of(&[window.size() * 256, 65535, edge(settings.nrb, 4)]);
            let mut scratch = before.clone();
            let given = claims_bits(settings, window.n, &list, &mut scratch);
            assert_eq!(given, ClaimsAnswer::refused(16, at), "{settings:?}, {list:?}");
            assert_eq!(scratch, before, "{settings:?}, {list:?}");
            bad += 1;
        }
    }
    println!("{clashes} clashes, {bad} with a bad claim");
    // N_4 is 12 and 61, and of each window all places but the first are tried.
    let places = 47 * (12 + 61) - 2 * WINDOWS;
    assert_eq!((clashes, bad), (places, places));
}
