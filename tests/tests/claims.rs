//! feedback_claims and feedback_claims_bits beside the model, on memory that lies flush
//! with pages that are not mapped; and the two beside each other. Most lists here are made
//! for one port; tests/ports_claims.rs has those for two.

use feedback_tests::compare::{Comparison, Lent, Shown, BANDWIDTHS, POSITIONS, WINDOWS};
use feedback_tests::every;
use feedback_tests::form::{Form, FORMS};
use feedback_tests::guarded::{Flush, Guarded, BOTH};
use feedback_tests::model::{edge, Model, Window, NRB};
use feedback_tests::random::Random;
use feedback_tests::{claims, claims_bits, ClaimsAnswer, Settings};
use std::ptr::{null, null_mut};

const LONG: usize = 100_000;

/// What a list of claims has in it.
#[derive(Clone, Copy, Debug, PartialEq, Eq)]
enum Content {
    /// Every allowed claim once, in random order, and then from the front again.
    InTurn,
    /// Allowed claims as they come.
    AtRandom,
    /// As in turn, but one claim before the second turn repeats an earlier one.
    Clash,
    /// A clash, and a bad claim before it.
    BadThenClash,
    /// A clash, and a bad claim after it.
    ClashThenBad,
    /// As in turn, but the last claim is bad.
    LastBad,
    /// As in turn, but several claims are bad.
    SeveralBad,
}

const CONTENTS: [Content; 7] = [
    Content::InTurn,
    Content::AtRandom,
    Content::Clash,
    Content::BadThenClash,
    Content::ClashThenBad,
    Content::LastBad,
    Content::SeveralBad,
];

/// A list, and the answer that its making shows to be due, if it does.
struct List {
    claims: Vec<u16>,
    due: Option<ClaimsAnswer>,
}

/// A claim whose position or CCE is not allowed.
fn bad_claim(size: u16, cces: u16, random: &mut Random) -> u16 {
    let (m, cce) = (random.below16(size), random.below16(cces));
    match random.below(6) {
        0 => size * 256 + cce,
        1 => m * 256 + cces,
        2 => m * 256 + 255,
        3 => 255 * 256 + cce,
        4 => size * 256 + cces,
        _ => 65535,
    }
}

fn list(content: Content, length: usize, size: u16, cces: u16, random: &mut Random) -> List {
    let mut allowed = every::claim(size, cces);
    random.shuffle(&mut allowed);
    let in_turn = |index: usize| allowed[index % allowed.len()];
    let mut claims: Vec<u16> = (0..length).map(in_turn).collect();
    let bad_at = |claims: &mut Vec<u16>, index: usize, random: &mut Random| {
        claims[index] = bad_claim(size, cces, random);
        ClaimsAnswer::refused(16, index)
    };
    // Below this index no claim is like an earlier one.
    let turn = length.min(allowed.len());
    let due = match content {
        Content::InTurn if length > turn => Some(ClaimsAnswer::clash(turn)),
        Content::InTurn => Some(ClaimsAnswer::CLEAN),
        Content::AtRandom => {
            claims.iter_mut().for_each(|claim| *claim = random.one_of(&allowed));
            None
        }
        Content::Clash if turn > 1 => Some(clash(&mut claims, 1, turn, random)),
        Content::BadThenClash if turn > 2 => {
            let first = 2 + random.below(turn - 2);
            clash(&mut claims, first, first + 1, random);
            let index = random.below(first);
            Some(bad_at(&mut claims, index, random))
        }
        Content::ClashThenBad if turn > 1 && length > 2 => {
            let end = turn.min(length - 1);
            let index = clash(&mut claims, 1, end, random).index as usize;
            let bad = index + 1 + random.below(length - index - 1);
            Some(bad_at(&mut claims, bad, random))
        }
        Content::LastBad if length > 0 => Some(bad_at(&mut claims, length - 1, random)),
        Content::SeveralBad if length > 0 => {
            let places: Vec<usize> = (0..5).map(|_| random.below(length)).collect();
            places.iter().for_each(|place| _ = bad_at(&mut claims, *place, random));
            places.into_iter().min().map(|first| ClaimsAnswer::refused(16, first))
        }
        _ => None,
    };
    List { claims, due }
}

/// Makes a claim at an index from `from` to below `end` equal to an earlier one.
fn clash(claims: &mut [u16], from: usize, end: usize, random: &mut Random) -> ClaimsAnswer {
    let index = from + random.below(end - from);
    claims[index] = claims[random.below(index)];
    ClaimsAnswer::clash(index)
}

/// Scratch that is not clean: all of one value, or of any.
fn dirty(length: usize, random: &mut Random) -> Vec<u8> {
    match random.below(5) {
        0 => vec![0; length],
        1 => vec![1; length],
        2 => vec![255; length],
        _ => (0..length).map(|_| random.any_byte()).collect(),
    }
}

/// Settings of a window; claims have nothing to do with mode or blocks.
fn settings_for(window: &Window, nrb: u16, random: &mut Random) -> Settings {
    let mode = if window.config == 5 { 0 } else { random.below16(2) };
    let (n1, blocks) = (random.one_of(&[0, 10, 2047]), 1 + random.below16(2));
    Settings::plain(window.config, nrb, n1, mode, blocks)
}

/// M × N_4, the number of resources, and one more with two ports.
fn resources_of(window: &Window, settings: Settings) -> usize {
    usize::from(window.size() * edge(settings.nrb, 4) + settings.ports - 1)
}

/// Every window with lists of every content and length, and scratch of every length.
#[test]
fn lists_of_every_content_and_length() {
    let model = Model::new();
    let mut comparison = Comparison::with(&model);
    let mut random = Random::new(1);
    let mut lent = Lent::new(LONG);
    let mut known = [0; 2];
    for window in model.windows() {
        for nrb in [6, 50, 110] {
            let settings = settings_for(window, nrb, &mut random);
            let (size, cces) = (window.size(), edge(nrb, 4));
            let all = resources_of(window, settings);
            for length in [0, 1, 2, 3, all - 1, all, all + 1, 1206, 1207, LONG] {
                for content in CONTENTS {
                    let list = list(content, length, size, cces, &mut random);
                    for (form, room) in rooms(all, length == LONG) {
                        let scratch = dirty(room, &mut random);
                        let answer = comparison.claims(
                            form,
                            &mut lent,
                            settings,
                            window.n,
                            &list.claims,
                            &scratch,
                        );
                        if let (Some(due), true) = (list.due, room >= form.need(all)) {
                            assert_eq!(answer, due, "{form}, {content:?}, {}", Shown(&list.claims));
                            known[form as usize] += 1;
                        }
                    }
                }
            }
        }
    }
    let compared = 2 * WINDOWS * 3 * 7 * (9 * 5 + 2) * 2;
    comparison.finish_with(compared, &[0, 15, 16], &[0, 1, 2]);
    println!("{known:?} answers known from the making of the list, by form");
    assert_eq!(comparison.refused(15), 2 * WINDOWS * 3 * 7 * (9 * 2 + 1) * 2);
    assert!(known[0] > 8000 && known[1] == known[0]);
}

/// For as many resources, the lengths of scratch that are tried in each form.
fn rooms(resources: usize, few: bool) -> Vec<(Form, usize)> {
    let of_form = |form: Form| {
        let need = form.need(resources);
        let rooms = match few {
            true => vec![need - 1, need],
            false => vec![0, need - 1, need, need + 1, need + 50],
        };
        rooms.into_iter().map(move |room| (form, room))
    };
    FORMS.into_iter().flat_map(of_form).collect()
}

/// Random lists for random cells.
#[test]
fn random_lists() {
    let model = Model::new();
    let mut comparison = Comparison::with(&model);
    let mut random = Random::new(2);
    let mut lent = Lent::new(4000);
    for _ in 0..20_000 {
        let settings = random.settings();
        let window = random.window(&model, settings.config);
        let (size, cces) = (window.size(), edge(settings.nrb, 4));
        let all = resources_of(window, settings);
        let longest = random.one_of(&[40, 40, 40, 3 * all]);
        let length = random.below(longest);
        let list = list(random.one_of(&CONTENTS), length, size, cces, &mut random);
        for form in FORMS {
            let room = (form.need(all) + random.below(8)).saturating_sub(random.below(3));
            let scratch = dirty(room, &mut random);
            comparison.claims(form, &mut lent, settings, window.n, &list.claims, &scratch);
        }
    }
    comparison.finish_with(2 * 20_000 * 2, &[0, 15, 16], &[0, 1, 2]);
}

/// Every 16-bit number as a claim, alone and after a clash, for every window. The widest
/// has 549 resources.
#[test]
fn every_number_as_a_claim() {
    let model = Model::new();
    let mut comparison = Comparison::with(&model);
    let mut lent = Lent::new(3);
    let mut refused = 0;
    for (window, form) in model.windows().iter().flat_map(|window| FORMS.map(|form| (window, form)))
    {
        let settings = Settings::plain(window.config, 50, 10, 0, 1);
        let before = vec![7; form.need(549) + 1];
        let mut scratch = before.clone();
        for any in 0..=65535 {
            for list in [&[any][..], &[0, 0, any]] {
                if any / 256 < window.size() && any % 256 < 61 {
                    comparison.claims(form, &mut lent, settings, window.n, list, &before);
                    continue;
                }
                let given = form.claims(settings, window.n, list, &mut scratch);
                assert!(
                    given == ClaimsAnswer::refused(16, list.len() - 1) && scratch == before,
                    "{form}({settings:?}, n {}, {list:?}): the engine gives {given:?}, leaves \
                     {scratch:?}, and the last claim is bad",
                    window.n
                );
                refused += 1;
            }
        }
    }
    println!("{refused} refused");
    assert_eq!(refused, 2 * (WINDOWS * 65536 - POSITIONS * 61) * 2);
    let answered = 2 * POSITIONS * 61 * 2 * 2;
    comparison.finish(answered, answered);
}

/// No memory at all: an empty list and empty scratch may be null.
#[test]
fn nothing_lent() {
    let settings = Settings::plain(1, 50, 10, 0, 1);
    for (form, need) in [(Form::Bytes, 122), (Form::Bits, 16)] {
        let call = form.call();
        let mut scratch = vec![7; need + 1];
        let (marks, room) = (scratch.as_mut_ptr(), scratch.len());
        let claim = 0;
        // SAFETY: the lengths say that nothing is lent where the pointers are null.
        let (empty, short, neither) = unsafe {
            (
                call(settings, 2, null(), 0, marks, room),
                call(settings, 2, &claim, 1, null_mut(), 0),
                call(settings, 2, null(), 0, null_mut(), 0),
            )
        };
        assert_eq!(empty, ClaimsAnswer::CLEAN, "{form}");
        assert_eq!(scratch, [&vec![0; need][..], &[7]].concat(), "{form}");
        assert_eq!([short, neither], [ClaimsAnswer::refused(15, 0); 2], "{form}");
    }
}

/// More scratch than any window needs is as good, and what lies beyond is kept; also where
/// the room would be none or too small if only its low eight or sixteen bits were read.
#[test]
fn more_lent_than_needed() {
    let settings = Settings::plain(1, 50, 10, 0, 1);
    // Their resources are the first and the last of 122.
    let list = [0, 316];
    for (form, need, first, last) in [(Form::Bytes, 122, 1, 1), (Form::Bits, 16, 1, 2)] {
        for room in [255, 256, 257, 512, 1206, 65_535, 65_536, 65_537, 131_072] {
            let mut scratch = vec![7; room];
            let given = form.claims(settings, 2, &list, &mut scratch);
            assert_eq!(given, ClaimsAnswer::CLEAN, "{form}, room {room}");
            let mut due = vec![0; need];
            (due[0], due[need - 1]) = (first, last);
            due.resize(room, 7);
            assert!(scratch == due, "{form}, room {room}: {}", Shown(&scratch));
        }
    }
}

/// Lists that overlap the scratch are the caller's breach, and the answer is not
/// fixed. But nothing is touched beyond what was lent, and nothing is written
/// beyond the first M × N_4 bytes of the scratch, or beyond as many bits; with two ports
/// there is one more.
#[test]
fn overlapping_list_and_scratch() {
    let model = Model::new();
    let mut random = Random::new(3);
    let mut memory = Guarded::new(65536);
    let length = memory.all().len();
    let (mut calls, mut written) = ([0; 2], [0; 2]);
    for form in (0..20_000).flat_map(|_| FORMS) {
        let settings = random.settings();
        let window = random.window(&model, settings.config);
        let (size, cces) = (window.size(), edge(settings.nrb, 4));
        let all = resources_of(window, settings);
        let need = form.need(all);
        let content = random.one_of(&CONTENTS);
        let longest = random.one_of(&[40, 40, 2 * all]);
        let count = random.below(longest);
        let claims = list(content, count, size, cces, &mut random).claims;
        let room = need + random.below(50);

        // A stretch flush with a guard, in which each lies at its start or end.
        let stretch = room.max(2 * count).next_multiple_of(2) + 2 * random.below(30);
        let start = match random.one_of(&BOTH) {
            Flush::Start => 0,
            Flush::End => length - stretch,
        };
        let list_at = start + random.one_of(&[0, stretch - 2 * count]);
        let scratch_at = start + random.one_of(&[0, stretch - room]);
        let all = memory.all();
        for (at, claim) in claims.iter().enumerate() {
            all[list_at + 2 * at..][..2].copy_from_slice(&claim.to_ne_bytes());
        }
        let before = all.to_vec();
        let start = all.as_mut_ptr();
        // SAFETY: both lie within the memory, which nothing else uses meanwhile.
        unsafe {
            let (list, scratch) = (start.add(list_at).cast(), start.add(scratch_at));
            form.call()(settings, window.n, list, count, scratch, room);
        }

        let all = memory.all();
        let may_change = scratch_at..scratch_at + need;
        assert!(
            all[..may_change.start] == before[..may_change.start]
                && all[may_change.end..] == before[may_change.end..],
            "{form}({settings:?}, n {}, {count} claims at {list_at}, scratch of {room} at \
             {scratch_at}) wrote beyond {may_change:?}",
            window.n
        );
        calls[form as usize] += 1;
        written[form as usize] += u64::from(all[may_change.clone()] != before[may_change]);
    }
    println!("{calls:?} calls by form, {written:?} of them wrote");
    assert_eq!(calls, [20_000; 2]);
    assert!(written.iter().all(|written| *written > 5_000));
}

/// The bits of some bytes, one after another, the lowest of each byte first.
fn bits_of(bytes: &[u8]) -> Vec<u8> {
    bytes.iter().flat_map(|byte| (0..8).map(move |bit| byte >> bit & 1)).collect()
}

/// The two C calls beside each other, for every window and bandwidth, with one port and with
/// two, and some settings that are refused. A byte form that is lent eight times the scratch has enough exactly
/// where the bit form has: then the answers are the same, whatever they are, and where
/// claims are judged byte t is bit t. In the scratch of the bit form alone the byte form
/// has not enough.
#[test]
fn both_forms_answer_alike() {
    let model = Model::new();
    let mut random = Random::new(4);
    let (mut by_refusal, mut by_kind, mut short) = ([0; 25], [0; 3], 0);
    let mut of_two_ports = [0; 3];
    for (settings, window) in every::window(&model, NRB, &[0, 10, 2047], &[(0, 1), (0, 2)]) {
        let (size, cces) = (window.size(), edge(settings.nrb, 4));
        for content in CONTENTS {
            let settings = settings.with_ports(1 + random.below16(2));
            let all = resources_of(window, settings);
            let settings = if random.once_in(8) { random.wild_settings(8) } else { settings };
            let n = if random.once_in(16) { random.below16(11) } else { window.n };
            let longest = random.one_of(&[3, 20, 20, 2 * all]);
            let list = list(content, random.below(longest + 1), size, cces, &mut random).claims;
            let room = (Form::Bits.need(all) + random.below(4)).saturating_sub(random.below(3));
            let (mut bits, mut bytes) = (dirty(room, &mut random), dirty(8 * room, &mut random));
            let (bits_before, bytes_before) = (bits.clone(), bytes.clone());
            let given = claims_bits(settings, n, &list, &mut bits);
            let due = claims(settings, n, &list, &mut bytes);
            let what = || format!("{settings:?}, n {n}, {}, room {room}", Shown(&list));
            assert_eq!(given, due, "feedback_claims_bits, then feedback_claims: {}", what());
            if due.refusal == 0 {
                let window = model.window(settings.config, n).expect("a window");
                let all = resources_of(window, settings);
                let end = Form::Bits.need(all);
                let marks = bits_of(&bits[..end]);
                assert_eq!(marks[..all], bytes[..all], "bits, then bytes: {}", what());
                assert!(
                    marks[all..].iter().all(|bit| *bit == 0),
                    "{:?}: {}",
                    bits[..end].last(),
                    what()
                );
                assert_eq!(bits[end..], bits_before[end..], "what is beyond: {}", what());
                if bits.len() < all {
                    let given = claims(settings, n, &list, &mut bits);
                    assert_eq!(given, ClaimsAnswer::refused(15, 0), "{}", what());
                    short += 1;
                }
            } else {
                assert!(bits == bits_before && bytes == bytes_before, "written: {}", what());
            }
            by_refusal[usize::from(due.refusal)] += 1;
            by_kind[usize::from(due.kind)] += 1;
            of_two_ports[usize::from(due.kind)] += u64::from(settings.ports == 2);
        }
    }
    println!("{by_refusal:?} by refusal, {by_kind:?} by kind, {short} too short for bytes");
    println!("{of_two_ports:?} of two ports, by kind");
    assert_eq!(by_kind.iter().sum::<u64>(), WINDOWS * BANDWIDTHS * 3 * 2 * 7);
    let refusals = [1, 2, 3, 4, 5, 6, 7, 15, 16, 17, 19, 24];
    assert!(refusals.iter().all(|number| by_refusal[*number] > 50));
    assert!(by_kind[1] > 10_000 && by_kind[2] > 10_000 && short > 20_000);
    assert!(of_two_ports[1..].iter().all(|number| *number > 3_000));
}
