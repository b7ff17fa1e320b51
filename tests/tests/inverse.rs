//! feedback_inverse beside the model.

use feedback_tests::compare::{Comparison, BANDWIDTHS, CCES, NEIGHBOURS, POSITIONS, WINDOWS};
use feedback_tests::every::{self, MODE_AND_BLOCKS};
use feedback_tests::model::{edge, Model, NRB};

const N1: [u16; 5] = [0, 1, 10, 2046, 2047];

/// Every window, bandwidth and resource, and those around them.
#[test]
fn every_resource_of_every_window() {
    let model = Model::new();
    let mut comparison = Comparison::with(&model);
    for (settings, window) in every::window(&model, NRB, &N1, &MODE_AND_BLOCKS) {
        let past_last = settings.n1 + window.size() * edge(settings.nrb, 4);
        for resource in (0..=past_last + 3).chain([32767, 65535]) {
            comparison.inverse(settings, window.n, resource);
        }
    }
    // Beside the M × N_4 resources of a window, all below N1 and six above are
    // tried. Those of configuration 5 are answered in one of the two modes only.
    let below = 1 + 10 + 2046 + 2047;
    let around = WINDOWS * BANDWIDTHS * (below + 5 * 6);
    let compared = (POSITIONS * CCES * 5 + around) * 4;
    let answered = (2 * POSITIONS - 9) * CCES * 5 * 2;
    comparison.finish(compared, answered);
}

/// Every configuration, subframe and bandwidth, allowed or not, with a few resources.
#[test]
fn every_subframe_and_bandwidth() {
    let model = Model::new();
    let mut comparison = Comparison::with(&model);
    let bandwidths = (0..=255).chain([1000, 65535]);
    for (settings, n) in every::subframe(bandwidths, &[0, 2047], &[(0, 1)]) {
        for resource in [0, 6, 1205, 1206, 2046, 2047, 2053, 3252, 3253, 65535] {
            comparison.inverse(settings, n, resource);
        }
    }
    // With N1 0, the numbers 0 and 6 are resources of every window at every
    // bandwidth, and 1205 is one of configuration 5 at 110 resource blocks, the
    // last there is. With N1 2047 the same three are 2047, 2053 and 3252.
    let answered = 2 * (2 * WINDOWS * BANDWIDTHS + 1);
    comparison.finish(10 * 259 * 258 * 2 * 10, answered);
}

/// Every 16-bit number as n and as resource.
#[test]
fn every_number_as_each_argument() {
    let model = Model::new();
    let mut comparison = Comparison::with(&model);
    for (settings, window) in every::window(&model, [6, 50, 110], &[10], &[(0, 2)]) {
        for any in 0..=65535 {
            comparison.inverse(settings, any, settings.n1);
            comparison.inverse(settings, window.n, any);
        }
    }
    // As n, a number is answered when its configuration has a window there.
    let answered = 3 * NEIGHBOURS + POSITIONS * (7 + 61 + 134);
    comparison.finish(WINDOWS * 3 * 65536 * 2, answered);
}
