//! Inputs in every combination of some values.

use crate::model::{edge, Model, Window};
use crate::{Handset, Settings, Slot, NONE};

/// The four ways to set mode and blocks; one of the modes is not for configuration 5.
pub const MODE_AND_BLOCKS: [(u16, u16); 4] = [(0, 1), (0, 2), (1, 1), (1, 2)];

/// The 16 pairs of prefix and special configuration that are allowed, 0 to 8 with the
/// normal prefix and 0 to 6 with the extended one.
pub const SPECIALS: [(u16, u16); 16] = [
    (0, 0),
    (0, 1),
    (0, 2),
    (0, 3),
    (0, 4),
    (0, 5),
    (0, 6),
    (0, 7),
    (0, 8),
    (1, 0),
    (1, 1),
    (1, 2),
    (1, 3),
    (1, 4),
    (1, 5),
    (1, 6),
];

/// The four of them in which a special subframe is too short for data.
pub const SHORT: [(u16, u16); 4] = [(0, 0), (0, 5), (1, 0), (1, 4)];

/// The 26 ways to set configuration, mode and blocks.
pub fn cell(nrb: u16, n1: u16, scheduled: u16) -> impl Iterator<Item = Settings> {
    let modes = |config| (0..=u16::from(config != 5)).map(move |mode| (config, mode));
    (0..7).flat_map(modes).flat_map(move |(config, mode)| {
        [1, 2]
            .map(|blocks| Settings::plain(config, nrb, n1, mode, blocks).with_scheduled(scheduled))
    })
}

/// The 14 ways to set configuration and blocks with two ports, which leave no other mode and
/// no scheduled resource.
pub fn two_port_cell(nrb: u16, n1: u16) -> impl Iterator<Item = Settings> {
    let of_config = move |config| {
        [1, 2].map(|blocks| Settings::plain(config, nrb, n1, 0, blocks).with_ports(2))
    };
    (0..7).flat_map(of_config)
}

/// The 13 ways to set configuration and mode. Bandwidth, blocks, prefix and special
/// configuration differ, and in most a scheduled resource is set.
pub fn mixed_cells() -> Vec<Settings> {
    let blocks = |cell: &Settings| cell.blocks == 1 + (cell.config + cell.mode) % 2;
    let mut cells: Vec<Settings> = cell(50, 300, 299).filter(blocks).collect();
    for (at, cell) in cells.iter_mut().enumerate() {
        let (prefix, special) = SPECIALS[5 * at % 16];
        *cell = Settings { nrb: [6, 50, 110][at % 3], ..cell.with_special(prefix, special) };
        if at % 5 == 4 {
            cell.scheduled = NONE;
        }
    }
    assert_eq!(cells.len(), 13);
    cells
}

/// A handset that heard a grant in each subframe of the window of a subframe, decoded, by the
/// DAI rule, and so is not silent in either mode.
pub fn granted(model: &Model, settings: Settings, subframe: u16) -> Handset {
    let window = model.window(settings.config, subframe).expect("a window");
    let mut handset = Handset { next: subframe, ..Handset::fresh(settings) };
    let mut ks = window.k.clone();
    ks.sort();
    for (j, k) in (0..).zip(ks.into_iter().rev()) {
        handset.past[usize::from(k) - 1] = Slot::grant(k as u8, j % 4 + 1, 1);
    }
    handset
}

/// The handset with one field changed, for each field and each of its values: 0,
/// the limits, one past them, the largest of its type, and the like.
pub fn damaged(handset: Handset) -> Vec<Handset> {
    let mut all = Vec::new();
    let mut each = |values: &[u16], set: &dyn Fn(&mut Handset, u16)| {
        for value in values {
            let mut changed = handset;
            set(&mut changed, *value);
            all.push(changed);
        }
    };
    let Settings { nrb, n1, .. } = handset.settings;
    each(&[0, 1, 5, 6, 7, 65535], &|handset, value| handset.settings.config = value);
    each(&[0, 5, 6, 110, 111, 65535], &|handset, value| handset.settings.nrb = value);
    each(&[0, 1, 2047, 2048, 65535], &|handset, value| handset.settings.n1 = value);
    each(&[0, 1, 2, 65535], &|handset, value| handset.settings.mode = value);
    each(&[0, 1, 2, 3, 65535], &|handset, value| handset.settings.blocks = value);
    each(&[0, n1 - 1, n1, n1 + 1, 65534, NONE], &|handset, value| {
        handset.settings.scheduled = value;
    });
    each(&[0, 1, 2, 65535], &|handset, value| handset.settings.prefix = value);
    each(&[0, 4, 5, 8, 9, 65535], &|handset, value| handset.settings.special = value);
    each(&[0, 1, 2, 3, 257, 258, 65535], &|handset, value| handset.settings.ports = value);
    each(&[0, 1, 2, 5, 9, 10, 65535], &|handset, value| handset.next = value);
    each(&[0, 1, 4096, 8191, 8192, 57344, 65535], &|handset, value| handset.modes = value);
    let cces = edge(nrb, 4);
    for at in 0..13 {
        each(&[0, 1, 2, 3, 4, 255], &|handset, value| handset.past[at].kind = value as u8);
        each(&[0, cces - 1, cces, 255], &|handset, value| handset.past[at].cce = value as u8);
        each(&[0, 1, 4, 5, 255], &|handset, value| handset.past[at].dai = value as u8);
        each(&[0, 1, 3, 4, 7, 8, 255], &|handset, value| handset.past[at].results = value as u8);
    }
    all
}

/// How many those are.
pub const DAMAGED: u64 = 6 + 6 + 5 + 4 + 5 + 6 + 4 + 6 + 7 + 7 + 7 + 13 * (6 + 4 + 5 + 7);

/// Every window, with all settings of these values.
pub fn window<'a>(
    model: &'a Model,
    nrb: impl IntoIterator<Item = u16> + Clone + 'a,
    n1: &'a [u16],
    mode_and_blocks: &'a [(u16, u16)],
) -> impl Iterator<Item = (Settings, &'a Window)> {
    model.windows().iter().flat_map(move |window| {
        let all = settings([window.config], nrb.clone(), n1, mode_and_blocks);
        all.into_iter().map(move |settings| (settings, window))
    })
}

/// Every claim of a window of `size` subframes with `cces` CCEs, by position, then CCE.
pub fn claim(size: u16, cces: u16) -> Vec<u16> {
    (0..size).flat_map(|m| (0..cces).map(move |cce| m * 256 + cce)).collect()
}

/// Every configuration and subframe, allowed or not, with all settings of these
/// values.
pub fn subframe(
    nrb: impl IntoIterator<Item = u16> + Clone,
    n1: &[u16],
    mode_and_blocks: &[(u16, u16)],
) -> impl Iterator<Item = (Settings, u16)> {
    let configs = (0..=7).chain([255, 65535]);
    let all = settings(configs, nrb, n1, mode_and_blocks);
    all.into_iter().flat_map(|settings| {
        let subframes = (0..=255).chain([1000, 32768, 65535]);
        subframes.map(move |n| (settings, n))
    })
}

fn settings(
    configs: impl IntoIterator<Item = u16>,
    nrb: impl IntoIterator<Item = u16> + Clone,
    n1: &[u16],
    mode_and_blocks: &[(u16, u16)],
) -> Vec<Settings> {
    let mut all = Vec::new();
    for config in configs {
        for nrb in nrb.clone() {
            for n1 in n1.iter().copied() {
                for (mode, blocks) in mode_and_blocks.iter().copied() {
                    all.push(Settings::plain(config, nrb, n1, mode, blocks));
                }
            }
        }
    }
    all
}
