//! feedback_resource beside the model.

use feedback_tests::compare::{Comparison, BANDWIDTHS, CCES, NEIGHBOURS, POSITIONS, WINDOWS};
use feedback_tests::every::{self, MODE_AND_BLOCKS};
use feedback_tests::model::{edge, Model, NRB};

const N1: [u16; 5] = [0, 1, 10, 2046, 2047];

/// Numbers far beyond a limit, some of which look small in eight bits.
const FAR: [u16; 3] = [255, 256, 65535];

/// Every window, bandwidth, position and CCE, and the first few beyond them.
#[test]
fn every_pair_of_every_window() {
    let model = Model::new();
    let mut comparison = Comparison::with(&model);
    for (settings, window) in every::window(&model, NRB, &N1, &MODE_AND_BLOCKS) {
        for position in (0..=window.size() + 1).chain(FAR) {
            for cce in (0..=edge(settings.nrb, 4) + 2).chain(FAR) {
                comparison.resource(settings, window.n, position, cce);
            }
        }
    }
    // Five positions and six CCEs are tried beyond those of a window. The nine
    // positions of configuration 5 are answered in one of the two modes only.
    let compared = (POSITIONS + 5 * WINDOWS) * (CCES + 6 * BANDWIDTHS) * 5 * 4;
    let answered = (2 * POSITIONS - 9) * CCES * 5 * 2;
    comparison.finish(compared, answered);
}

/// Every configuration, subframe and bandwidth, allowed or not, with a few pairs.
#[test]
fn every_subframe_and_bandwidth() {
    let model = Model::new();
    let mut comparison = Comparison::with(&model);
    let bandwidths = (0..=255).chain([1000, 65535]);
    for (settings, n) in every::subframe(bandwidths, &[0, 2047], &[(0, 1)]) {
        for position in [0, 1, 8, 9, 65535] {
            for cce in [0, 5, 6, 133, 134, 65535] {
                comparison.resource(settings, n, position, cce);
            }
        }
    }
    // CCEs 0, 5 and 6 are below N_4 at every bandwidth, 133 at 110 (N_4 = 134)
    // alone. Position 0 is in all 21 windows, 1 in the ten that are longer than
    // one subframe, and 8 in that of configuration 5.
    let pairs = (21 + 10 + 1) * (3 * BANDWIDTHS + 1);
    comparison.finish(10 * 259 * 258 * 2 * 5 * 6, pairs * 2);
}

/// Every 16-bit number as n, as position and as CCE.
#[test]
fn every_number_as_each_argument() {
    let model = Model::new();
    let mut comparison = Comparison::with(&model);
    for (settings, window) in every::window(&model, [6, 50, 110], &[10], &[(0, 2)]) {
        for any in 0..=65535 {
            comparison.resource(settings, any, 0, 0);
            comparison.resource(settings, window.n, any, 0);
            comparison.resource(settings, window.n, 0, any);
        }
    }
    // As n, a number is answered when its configuration has a window there.
    let answered = 3 * (NEIGHBOURS + POSITIONS) + WINDOWS * (7 + 61 + 134);
    comparison.finish(WINDOWS * 3 * 65536 * 3, answered);
}
