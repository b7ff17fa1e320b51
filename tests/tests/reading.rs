//! feedback_reading beside the model.

use feedback_tests::compare::{Comparison, POSITIONS, WINDOWS};
use feedback_tests::every::{self, MODE_AND_BLOCKS};
use feedback_tests::model::{edge, Model};
use feedback_tests::{Settings, NOT_TOLD};

/// A few bandwidths, with N_4 7, 18, 61 and 134.
const NRB: [u16; 4] = [6, 15, 50, 110];
const CCES: u64 = 7 + 18 + 61 + 134;

const N1: [u16; 3] = [0, 10, 2047];

/// Both bits, each a bit, or one past it, or the largest number.
const BITS: [u16; 4] = [0, 1, 2, 65535];

/// Every window, resource and pair of bits, and those around them.
#[test]
fn every_resource_and_bits_of_every_window() {
    let model = Model::new();
    let mut comparison = Comparison::with(&model);
    for (settings, window) in every::window(&model, NRB, &N1, &MODE_AND_BLOCKS) {
        let Settings { nrb, n1, .. } = settings;
        let past_last = n1 + window.size() * edge(nrb, 4);
        let around = n1.saturating_sub(3)..=past_last + 3;
        for resource in around.chain([32767, 65535]) {
            for (b0, b1) in pairs(&BITS) {
                comparison.reading(settings, window.n, NOT_TOLD, resource, b0, b1);
            }
        }
    }
    // Six resources are tried above those of a window, and three below them
    // unless N1 is 0.
    let resources = POSITIONS * CCES * 3 + WINDOWS * 4 * (3 * 6 + 2 * 3);
    // A bundled reply has two meanings with one bit and four with two. In mode 1
    // eleven windows bundle, four of M = 2 have 5 symbols, one of M = 3 has 10,
    // four of M = 4 have 15, and that of configuration 5 is refused.
    let bundled = (POSITIONS + 11) * (2 + 4);
    let multiplexed = (4 * 5 + 10 + 4 * 15) * 2;
    comparison.finish(resources * 4 * 16, (bundled + multiplexed) * CCES * 3);
    assert_eq!(comparison.of_kind(1), bundled * CCES * 3);
    assert_eq!(comparison.of_kind(2), multiplexed * CCES * 3);
}

/// Every configuration and subframe, allowed or not.
#[test]
fn every_subframe() {
    let model = Model::new();
    let mut comparison = Comparison::with(&model);
    for (settings, n) in every::subframe([6], &[10], &MODE_AND_BLOCKS) {
        for resource in [0, 9, 10, 65535] {
            for (b0, b1) in pairs(&[0, 1]) {
                comparison.reading(settings, n, NOT_TOLD, resource, b0, b1);
            }
        }
    }
    // Resource 10 is that of position 0 and CCE 0 in every window. At position 0
    // there are 2 symbols in a window of M = 2, and 3 in the longer ones.
    let bundled = (WINDOWS + 11) * (2 + 4);
    let multiplexed = (4 * 2 + 3 + 4 * 3) * 2;
    comparison.finish(10 * 259 * 4 * 4 * 4, bundled + multiplexed);
}

/// Every 16-bit number as n, as resource and as each bit.
#[test]
fn every_number_as_each_argument() {
    let model = Model::new();
    let mut comparison = Comparison::with(&model);
    for window in model.windows() {
        let config = window.config;
        let mode = u16::from(config != 5);
        let settings = Settings::plain(config, 50, 10, mode, 2);
        for any in 0..=65535 {
            comparison.reading(settings, any, NOT_TOLD, 10, 0, 1);
            comparison.reading(settings, window.n, NOT_TOLD, any, 1, 0);
            comparison.reading(settings, window.n, NOT_TOLD, 10, any, 1);
            comparison.reading(settings, window.n, NOT_TOLD, 10, 0, any);
        }
    }
    comparison.finish_with(WINDOWS * 65536 * 4, &[0, 7, 13, 14], &[0, 1, 2]);
}

fn pairs(values: &[u16]) -> impl Iterator<Item = (u16, u16)> + '_ {
    values.iter().flat_map(move |one| values.iter().map(move |other| (*one, *other)))
}
