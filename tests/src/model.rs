//! A second implementation of the rules, made to be plainly right.
//!
//! Nothing here computes a resource by the formula. The resources of a window
//! are laid out one after the other as a list of (position, CCE), and both calls
//! are a search in that list: the resource of a pair is the place where it lies,
//! and a pair or a place that is not in the list is refused. A second port has the
//! place behind that. The multiplexed replies are laid out likewise: every state of a
//! window, with its symbol. Of the game every play is gone through. A register block is taken
//! apart into what its bytes are for.

mod charging;
mod confirmation;
mod game;
mod handset;
mod programs;
mod registers;
mod replay;
mod replies;
mod silence;
mod sizing;
mod spelling;
mod station;

pub use confirmation::{
    blocks_at, positions_of, told, Blocks, Rule, Sole, Transmission, CONFIRMED, CREDITED,
};
pub use game::{grants_of, hides_a_loss, lost_before_the_last_heard, replies, Game, Granted, Turn};
pub use replies::{Row, Symbol};

use crate::{AnsweredAnswer, InverseAnswer, ResourceAnswer, Settings, WindowAnswer, NONE};
use charging::SizeTable;
use replies::States;
use std::cmp::Reverse;
use std::ops::Range;

/// The frame, subframes 0 to 9, and the windows of each configuration, as
/// printed: the uplink subframe n, then K in order.
const TABLE: [(&str, &str); 7] = [
    ("DSUUUDSUUU", "2: 6; 4: 4; 7: 6; 9: 4"),
    ("DSUUDDSUUD", "2: 7,6; 3: 4; 7: 7,6; 8: 4"),
    ("DSUDDDSUDD", "2: 8,7,4,6; 7: 8,7,4,6"),
    ("DSUUUDDDDD", "2: 7,6,11; 3: 6,5; 4: 5,4"),
    ("DSUUDDDDDD", "2: 12,8,7,11; 3: 6,5,4,7"),
    ("DSUDDDDDDD", "2: 13,12,9,8,7,5,4,11,6"),
    ("DSUUUDSUUD", "2: 7; 3: 7; 4: 5; 7: 7; 8: 7"),
];

/// The bandwidths allowed, in resource blocks.
pub const NRB: std::ops::RangeInclusive<u16> = 6..=110;

/// The longest window.
const LONGEST: u16 = 9;

/// The special configurations by prefix, normal and extended: the last one that there
/// is, and those in which 7.1.7 allows no PDSCH.
const SPECIALS: [(u16, [u16; 2]); 2] = [(8, [0, 5]), (6, [0, 4])];

/// The order in which the causes of a refusal are tried. 01's numbers rise, and a
/// number that came later stands directly behind the one that it is said to be
/// after: 17 after 6, 18 after 12, 19 after 17, 20 after 9, 24 after 19, 25 after 18, 26 after
/// 25. What 26 needs is known only where neither 13 nor 14 is met. Those of a trace
/// are tried where it is opened: 21 and 22 before all of these, 23 behind those of the
/// settings; where it is written 23 is tried last. 27 is alone in its call. Those of a register
/// block, 29 and 28, come before all others there.
const ORDER: [u16; 23] =
    [1, 2, 3, 4, 5, 6, 17, 19, 24, 7, 8, 9, 20, 10, 11, 12, 18, 25, 26, 13, 14, 15, 16];

/// The window of one uplink subframe of one configuration.
#[derive(Clone, Debug, PartialEq, Eq)]
pub struct Window {
    pub config: u16,
    pub n: u16,
    pub k: Vec<u16>,
}

impl Window {
    /// M, the number of downlink subframes in the window.
    pub fn size(&self) -> u16 {
        self.k.len() as u16
    }

    /// Its positions in time order, earliest first.
    pub fn in_time(&self) -> Vec<u16> {
        let mut order: Vec<u16> = (0..self.size()).collect();
        order.sort_by_key(|position| Reverse(self.k[usize::from(*position)]));
        order
    }

    /// The subframe, 0 to 9, at a position.
    pub fn subframe(&self, position: usize) -> u16 {
        (self.n + 20 - self.k[position]) % 10
    }
}

/// The pairs (position, CCE) of one window in the order of their resources:
/// the first has resource N1, the next N1 + 1, and so on.
struct Layout(Vec<(u16, u16)>);

/// The windows, the layouts, the states and the sizes, made once and then searched.
pub struct Model {
    windows: Vec<Window>,
    layouts: Vec<Vec<Layout>>,
    states: Vec<States>,
    sizes: SizeTable,
}

impl Default for Model {
    fn default() -> Self {
        Self::new()
    }
}

impl Model {
    pub fn new() -> Self {
        let layouts_of_size = |size| NRB.map(|nrb| Layout::new(size, nrb)).collect();
        Self {
            windows: (0..7).flat_map(windows_of).collect(),
            layouts: (1..=LONGEST).map(layouts_of_size).collect(),
            states: replies::all(),
            sizes: SizeTable::new(),
        }
    }

    /// All windows, by configuration, then n rising.
    pub fn windows(&self) -> &[Window] {
        &self.windows
    }

    pub fn window_answer(&self, settings: Settings, n: u16) -> WindowAnswer {
        if let Some(refusal) = settings_refusal(settings) {
            return WindowAnswer::refused(refusal);
        }
        match self.window(settings.config, n) {
            None => WindowAnswer::refused(7),
            Some(window) => WindowAnswer::of(&window.k, &window.in_time()),
        }
    }

    /// All windows of the configuration are searched for a k that leads from the
    /// subframe to their n.
    pub fn answered(&self, settings: Settings, subframe: u16) -> AnsweredAnswer {
        if let Some(refusal) = settings_refusal(settings) {
            return AnsweredAnswer::refused(refusal);
        }
        for window in self.windows.iter().filter(|window| window.config == settings.config) {
            let leads = |k: &u16| subframe < 10 && (subframe + k) % 10 == window.n;
            if let Some(position) = window.k.iter().position(leads) {
                return AnsweredAnswer::of(window.n, window.k[position], position as u16);
            }
        }
        AnsweredAnswer::refused(7)
    }

    pub fn resource(&self, settings: Settings, n: u16, position: u16, cce: u16) -> ResourceAnswer {
        match self.layout(settings, n) {
            Err(refusal) => ResourceAnswer::refused(refusal),
            Ok(layout) => match layout.place_of(position, cce) {
                None => ResourceAnswer::refused(11),
                Some(place) => {
                    let mut resources = resources_at(settings, place);
                    let first = resources.next().expect("a handset has a port");
                    ResourceAnswer::of_two(first, resources.next().unwrap_or(0))
                }
            },
        }
    }

    pub fn inverse(&self, settings: Settings, n: u16, resource: u16) -> InverseAnswer {
        match self.layout(settings, n) {
            Err(refusal) => InverseAnswer::refused(refusal),
            Ok(layout) => match layout.pair_at(resource, settings.n1) {
                None => InverseAnswer::refused(13),
                Some((position, cce)) => InverseAnswer::of(position, cce),
            },
        }
    }

    /// The layout that settings and n name, or their refusal.
    fn layout(&self, settings: Settings, n: u16) -> Result<&Layout, u16> {
        if let Some(refusal) = settings_refusal(settings) {
            return Err(refusal);
        }
        let window = self.window(settings.config, n).ok_or(7u16)?;
        let of_size = &self.layouts[usize::from(window.size() - 1)];
        Ok(&of_size[usize::from(settings.nrb - NRB.start())])
    }

    /// The window of subframe n in a configuration, if it has one.
    pub fn window(&self, config: u16, n: u16) -> Option<&Window> {
        self.windows.iter().find(|window| window.config == config && window.n == n)
    }
}

impl Layout {
    /// By the formula, a CCE of region p at position m lies at
    /// M × N_p + m × (N_(p+1) − N_p) + (c − N_p) above N1. So the regions follow
    /// one another, in a region the positions, and at a position the CCEs.
    fn new(size: u16, nrb: u16) -> Self {
        let mut pairs = Vec::new();
        for p in 0..4 {
            for position in 0..size {
                for cce in edge(nrb, p)..edge(nrb, p + 1) {
                    pairs.push((position, cce));
                }
            }
        }
        Self(pairs)
    }

    fn place_of(&self, position: u16, cce: u16) -> Option<u16> {
        let place = self.0.iter().position(|pair| *pair == (position, cce))?;
        Some(place as u16)
    }

    fn pair_at(&self, resource: u16, n1: u16) -> Option<(u16, u16)> {
        let place = resource.checked_sub(n1)?;
        self.0.get(usize::from(place)).copied()
    }
}

/// N_p, found by counting: the greatest whole number x with
/// 36 × x ≤ N_RB × (12 × p − 4), or 0 where there is none.
pub fn edge(nrb: u16, p: u16) -> u16 {
    let product = i32::from(nrb) * (12 * i32::from(p) - 4);
    let fits = |x: &u16| 36 * i32::from(*x) <= product;
    (0..=u16::MAX).take_while(fits).last().unwrap_or(0)
}

/// The ten letters of a configuration's frame: D, S or U.
pub fn frame(config: u16) -> &'static str {
    TABLE[usize::from(config)].0
}

/// Whether a subframe, 0 to 9, is an uplink one.
pub fn is_uplink(config: u16, subframe: u16) -> bool {
    frame(config).chars().nth(usize::from(subframe)) == Some('U')
}

/// Whether a subframe, 0 to 9, is a special one.
pub fn is_special(config: u16, subframe: u16) -> bool {
    frame(config).chars().nth(usize::from(subframe)) == Some('S')
}

/// Whether a subframe, 0 to 9, is a special one that is too short for data.
pub fn is_short(settings: Settings, subframe: u16) -> bool {
    let of_prefix = SPECIALS.get(usize::from(settings.prefix));
    is_special(settings.config, subframe)
        && of_prefix.is_some_and(|(_, without)| without.contains(&settings.special))
}

/// Whether the reply for a window of `size` subframes is bundled.
pub fn bundles(settings: Settings, size: u16) -> bool {
    settings.mode == 0 || size == 1
}

/// The resources of what lies at a place above N1: one for each port, and each one above
/// that of the port before.
fn resources_at(settings: Settings, place: u16) -> Range<u16> {
    let first = settings.n1 + place;
    first..first + settings.ports
}

/// The first among the causes that the settings meet.
fn settings_refusal(settings: Settings) -> Option<u16> {
    let Settings { config, nrb, n1, mode, blocks, scheduled, prefix, special, ports } = settings;
    let last_special = SPECIALS.get(usize::from(prefix)).map(|(last, _)| *last);
    let [no_mode, no_multiplexing, one_port_only] = mode_causes(config, ports, mode);
    first_met([
        (1, config > 6),
        (2, !NRB.contains(&nrb)),
        (3, n1 > 2047),
        no_mode,
        no_multiplexing,
        (6, ![1, 2].contains(&blocks)),
        (17, scheduled != NONE && scheduled >= n1),
        (19, last_special.is_none_or(|last| special > last)),
        (24, ![1, 2].contains(&ports)),
        (24, ports == 2 && scheduled != NONE),
        one_port_only,
    ])
}

/// The causes that speak of the mode, be it that of the settings, one that they are to
/// get, or one that is remembered.
fn mode_causes(config: u16, ports: u16, mode: u16) -> [(u16, bool); 3] {
    [(4, ![0, 1].contains(&mode)), (5, (mode, config) == (1, 5)), (24, (mode, ports) == (1, 2))]
}

/// The first in order among the causes that are met.
fn first_met(causes: impl IntoIterator<Item = (u16, bool)>) -> Option<u16> {
    let met = causes.into_iter().filter(|(_, met)| *met).map(|(number, _)| number);
    met.min_by_key(|number| ORDER.iter().position(|each| each == number))
}

/// The windows of one configuration, read from the printed row.
fn windows_of(config: u16) -> Vec<Window> {
    let (_, row) = TABLE[usize::from(config)];
    row.split(';').map(|text| window(config, text)).collect()
}

fn window(config: u16, text: &str) -> Window {
    let (n, k) = text.split_once(':').expect("n, then a colon, then K");
    Window { config, n: number(n), k: k.split(',').map(number).collect() }
}

fn number(text: &str) -> u16 {
    text.trim().parse().expect("a number of the table")
}
