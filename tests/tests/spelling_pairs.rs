//! Two accepted traces are written as the same bytes exactly if they say the same:
//! settings, number of records, and the used fields and bits of each record. Every bit of
//! good traces is flipped, every pair of single records is compared, and random pairs
//! differ in one thing that is said, in what is not, or in anything. All goes through the
//! C call; the model only makes the traces.

use feedback_tests::model::{edge, Model};
use feedback_tests::random::Random;
use feedback_tests::trace::{said, spelled_length, Trace, MOST_RECORDS, SPELLED_FIRST};
use feedback_tests::{trace_write, Settings, Slot, WriteAnswer, NONE};

/// The spelling of a trace, if it is accepted. There is room for it: no trace is longer
/// in its one spelling than it was.
fn spelling(trace: &[u8]) -> Option<Vec<u8>> {
    let mut output = vec![0; trace.len()];
    let answer = trace_write(trace, &mut output);
    assert_ne!(answer.refusal, 23, "an accepted trace of {} bytes", trace.len());
    output.truncate(answer.bytes.into());
    (answer.kind == WriteAnswer::DONE).then_some(output)
}

/// Counts pairs of accepted traces, those that are spelled differently and alike.
#[derive(Default)]
struct Pairs {
    different: u64,
    alike: u64,
}

impl Pairs {
    /// Compares the spellings of two traces, if the other is accepted as the one is.
    fn compare(&mut self, one: &[u8], other: &[u8]) {
        let spelled = spelling(one).expect("an accepted trace");
        if let Some(other_spelled) = spelling(other) {
            let alike = said(one) == said(other);
            assert_eq!(spelled == other_spelled, alike, "{one:?} and {other:?}");
            self.alike += u64::from(alike);
            self.different += u64::from(!alike);
        }
    }
}

/// Every bit of good traces, the header too, is flipped.
#[test]
fn every_bit_flipped() {
    let model = Model::new();
    let mut pairs = Pairs::default();
    for trace in Random::new(1).good_traces(&model, 30) {
        for at in 0..8 * trace.len() {
            let mut flipped = trace.clone();
            flipped[at / 8] ^= 1 << (at % 8);
            pairs.compare(&trace, &flipped);
        }
    }
    let Pairs { different, alike } = pairs;
    println!("{different} spelled differently, {alike} alike");
    assert!(different > 1000 && alike > 5000);
}

/// All pairs of records of every kind, with every value of the results and some of CCE
/// and DAI: each alone in a trace. Which are alike goes by what the records say.
#[test]
fn every_pair_of_records() {
    let settings = Settings::plain(1, 50, 300, 0, 2).with_scheduled(7);
    let mut spelled = Vec::new();
    for kind in 0..=3 {
        for (cce, dai) in [(0, 1), (0, 2), (60, 1)] {
            for results in 0..=255 {
                let trace = Trace::new(settings, &[Slot { kind, cce, dai, results }]).bytes();
                let bytes = spelling(&trace).expect("an accepted record")[SPELLED_FIRST..].to_vec();
                spelled.push((said(&trace).1.swap_remove(0), bytes));
            }
        }
    }
    let mut pairs = Pairs::default();
    for (one, spelled_one) in &spelled {
        for (other, spelled_other) in &spelled {
            assert_eq!(spelled_one == spelled_other, one == other, "{one:?} and {other:?}");
            pairs.alike += u64::from(one == other);
            pairs.different += u64::from(one != other);
        }
    }
    // Nothing is one thing to say. Of a grant and of a block one block has two results,
    // each with 64 bytes, and two have four with 32. The grant has three PDCCHs, and so
    // has the release.
    let nothing = 768 * 768;
    let carried = |bytes: u64| 2 * (2 * bytes) * (2 * bytes) + 4 * bytes * bytes;
    let alike = nothing + 3 * carried(32) + carried(3 * 32) + 3 * 256 * 256;
    assert_eq!((pairs.alike, pairs.different), (alike, 3072 * 3072 - alike));
}

/// A trace that says this, spelled with other unused values, gaps and order each time.
fn anyhow(settings: Settings, records: &[Slot], random: &mut Random) -> Vec<u8> {
    let records: Vec<Slot> = records.iter().map(|record| random.with_unused(*record)).collect();
    random.arranged(Trace::new(settings, &records)).bytes()
}

/// As many random traces, each beside one that is changed. Unused values, gaps and order
/// differ in all of them.
fn pairs_of(
    number: usize,
    seed: u64,
    change: impl Fn(&mut Settings, &mut Vec<Slot>, &mut Random),
) -> Pairs {
    let model = Model::new();
    let mut random = Random::new(seed);
    let mut pairs = Pairs::default();
    for _ in 0..number {
        let mut settings = random.mixed_settings();
        let length = 1 + random.below(40);
        let mut records = random.records(&model, settings, length);
        let one = anyhow(settings, &records, &mut random);
        change(&mut settings, &mut records, &mut random);
        pairs.compare(&one, &anyhow(settings, &records, &mut random));
    }
    println!("{} spelled differently, {} alike", pairs.different, pairs.alike);
    pairs
}

#[test]
fn nothing_said_changed() {
    let pairs = pairs_of(4000, 2, |_, _, _| ());
    assert_eq!((pairs.different, pairs.alike), (0, 4000));
}

/// One number of the settings is drawn anew. Some of the others refuse a record then.
#[test]
fn one_setting_changed() {
    let pairs = pairs_of(6000, 3, |settings, _, random| match random.below(8) {
        0 => settings.config = random.below16(7),
        1 => settings.nrb = 6 + random.below16(105),
        2 => settings.mode = random.below16(2),
        3 => settings.blocks = 1 + random.below16(2),
        4 => settings.special = random.below16(9),
        5 => settings.prefix = random.below16(2),
        6 => settings.n1 = random.below16(2048),
        _ if random.once_in(2) => settings.scheduled = NONE,
        _ => settings.scheduled = random.below16(settings.n1.max(1)),
    });
    assert!(pairs.different > 2000 && pairs.alike > 500);
}

#[test]
fn one_record_more_or_fewer() {
    let pairs = pairs_of(4000, 4, |_, records, random| match random.once_in(2) {
        true => records.push(Slot::NOTHING),
        false => records.truncate(records.len() - 1),
    });
    assert_eq!((pairs.different, pairs.alike), (4000, 0));
}

/// One field of one record is drawn anew, or one bit of its results is the other, used by
/// its kind or not.
#[test]
fn one_field_changed() {
    let pairs = pairs_of(12_000, 5, |settings, records, random| {
        let at = random.below(records.len());
        let record = &mut records[at];
        match random.below(6) {
            0 => record.kind = random.below(4) as u8,
            1 => record.cce = random.below16(edge(settings.nrb, 4)) as u8,
            2 => record.dai = 1 + random.below(4) as u8,
            _ => record.results ^= 1 << random.below(4),
        }
    });
    assert!(pairs.different > 2000 && pairs.alike > 4000);
}

/// Traces of up to three records, all of few values: any two of them often say the same.
#[test]
fn any_two() {
    let mut random = Random::new(6);
    let mut pairs = Pairs::default();
    let cell = Settings::plain(2, 50, 300, 0, 2).with_scheduled(6);
    let cells = [cell, Settings { mode: 1, ..cell }, Settings { n1: 301, ..cell }];
    let record = |random: &mut Random| match random.below(4) {
        0 => Slot::NOTHING,
        1 => Slot::grant(random.below(2) as u8, 1, random.below(8) as u8),
        2 => Slot::block(random.below(8) as u8),
        _ => Slot::release(random.below(2) as u8, 1),
    };
    let trace = |random: &mut Random| loop {
        let records: Vec<Slot> = (0..random.below(3)).map(|_| record(random)).collect();
        let trace = anyhow(random.one_of(&cells), &records, random);
        if spelling(&trace).is_some() {
            return trace;
        }
    };
    for _ in 0..20_000 {
        let (one, other) = (trace(&mut random), trace(&mut random));
        pairs.compare(&one, &other);
    }
    println!("{} spelled differently, {} alike", pairs.different, pairs.alike);
    assert!(pairs.different > 10_000 && pairs.alike > 500);
}

/// The most records: a bit of the last one that is used, and one that is not.
#[test]
fn the_last_of_the_most_records() {
    let model = Model::new();
    let mut random = Random::new(7);
    let settings = Settings::plain(5, 50, 300, 0, 2).with_scheduled(6);
    let mut records = random.records(&model, settings, MOST_RECORDS - 1);
    records.push(Slot::grant(60, 1, 3));
    let one = Trace::new(settings, &records).bytes();
    let spelled = spelling(&one).expect("an accepted trace");
    assert_eq!(spelled.len(), spelled_length(MOST_RECORDS));
    let last = one.len() - 1;
    for (bit, alike) in [(0, false), (1, true), (2, false), (3, true), (7, true)] {
        let mut other = one.clone();
        other[last] ^= 1 << bit;
        assert_eq!(spelling(&other).expect("an accepted trace") == spelled, alike, "bit {bit}");
    }
}
