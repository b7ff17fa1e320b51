//! No reader could credit more: for every size of a multiplexed window, every set of
//! positions at which something was sent and every symbol, the sets of positions that a
//! rule may name, beside what the station's reading delivers. Counted are the states that
//! are D where nothing was sent. A set may be named if each of its positions is A in every
//! counted state that sends the symbol.

use feedback_tests::model::{bundles, Model, Symbol, Window};
use feedback_tests::{
    feed, make, reading, resource, Block, Fed, Grant, Heard, Release, Settings, NOT_TOLD,
};
use std::collections::BTreeMap;

const RULES: &str = include_str!("../data/u07-rules.csv");

/// The sizes of windows that multiplex.
const SIZES: [u16; 3] = [2, 3, 4];

/// How many pairs of a set of positions and a symbol that a counted state sends there are
/// for each size.
const PAIRS: [(u16, usize); 3] = [(2, 9), (3, 31), (4, 89)];

/// A set of positions: bit p for position p.
type Positions = u16;

fn is_in(set: Positions, position: u16) -> bool {
    set >> position & 1 == 1
}

/// The positions of a set in a line of the vectors.
fn text(size: u16, set: Positions) -> String {
    let positions = (0..size).filter(|position| is_in(set, *position));
    let numbers: Vec<String> = positions.map(|position| position.to_string()).collect();
    if numbers.is_empty() {
        "-".to_string()
    } else {
        numbers.join(" ")
    }
}

fn acks(state: &str) -> Positions {
    let acked = state.chars().enumerate().filter(|(_, letter)| *letter == 'A');
    acked.map(|(position, _)| 1 << position).sum()
}

/// The counted states by the symbol that they send.
fn counted(model: &Model, size: u16, sent: Positions) -> BTreeMap<Symbol, Vec<&str>> {
    let mut by_symbol: BTreeMap<Symbol, Vec<&str>> = BTreeMap::new();
    for (state, symbol) in model.symbols(size) {
        let is_counted = (0u16..).zip(state.chars()).all(|(p, it)| is_in(sent, p) || it == 'D');
        if let (true, Some(symbol)) = (is_counted, symbol) {
            by_symbol.entry(*symbol).or_default().push(state);
        }
    }
    by_symbol
}

/// The positions that are A in all of these states.
fn in_all(states: &[&str]) -> Positions {
    states.iter().map(|state| acks(state)).reduce(|one, other| one & other).expect("a state")
}

/// The windows that multiplex, with the settings of a cell in that mode.
fn windows(model: &Model) -> impl Iterator<Item = (Settings, &Window)> {
    let of_window = |window| (cell(window), window);
    let multiplexes = |(settings, window): &(Settings, &Window)| {
        window.config != 5 && !bundles(*settings, window.size())
    };
    model.windows().iter().map(of_window).filter(multiplexes)
}

/// A cell with a resource for scheduled blocks.
fn cell(window: &Window) -> Settings {
    Settings::plain(window.config, 50, 10, 1, 1 + window.n % 2).with_scheduled(7)
}

/// What the station's reading delivers for a symbol on the resource of a first CCE.
fn delivered(settings: Settings, window: &Window, symbol: Symbol, cce: u16) -> Positions {
    let on = resource(settings, window.n, symbol.index, cce);
    let read = reading(settings, window.n, NOT_TOLD, on.resource, symbol.b0, symbol.b1);
    assert_eq!((on.refusal, read.refusal, read.kind), (0, 0, 2), "{settings:?}, {symbol:?}");
    assert_eq!(read.position, symbol.index, "{settings:?}, {symbol:?}");
    read.delivered
}

/// The lines of the vectors are those that the model makes, the sets counted through and the
/// symbols of each in order.
#[test]
fn every_set_and_symbol_as_in_the_vectors() {
    let model = Model::new();
    let mut lines = Vec::new();
    for size in SIZES {
        for sent in 0..1 << size {
            for (symbol, mut states) in counted(&model, size, sent) {
                states.sort_unstable();
                let Symbol { index, b0, b1 } = symbol;
                let delivered = model.delivered(size, symbol).expect("a state that sends it");
                let sets = [sent, in_all(&states), delivered].map(|set| text(size, set));
                let [sent, most, delivered] = sets;
                let (count, states) = (states.len(), states.join(" "));
                lines.push(format!(
                    "{size},{sent},{index},{b0},{b1},{count},{states},{most},{delivered}"
                ));
            }
        }
    }
    let due: Vec<&str> = RULES.lines().filter(|line| !line.starts_with('#')).collect();
    assert_eq!(due.len(), PAIRS.iter().map(|(_, pairs)| pairs).sum::<usize>());
    assert_eq!(lines, due);
}

/// Every set of positions, one past the window's too: it may be named for a symbol exactly if
/// the reading delivers all of it.
#[test]
fn every_set_that_a_rule_may_name_is_delivered() {
    let model = Model::new();
    let (mut pairs, mut named, mut not_named) = (0, 0, 0);
    for (settings, window) in windows(&model) {
        let size = window.size();
        for sent in 0..1 << size {
            for (symbol, states) in counted(&model, size, sent) {
                let ours = delivered(settings, window, symbol, 60);
                for set in 0..2 << size {
                    let may_be_named = states.iter().all(|state| set & !acks(state) == 0);
                    assert_eq!(
                        may_be_named,
                        set & !ours == 0,
                        "M {size}, sent {sent:b}, {symbol:?}: {set:b} beside {ours:b}"
                    );
                    *(if may_be_named { &mut named } else { &mut not_named }) += 1;
                }
                pairs += 1;
            }
        }
    }
    // Four windows of M = 2, one of M = 3 and four of M = 4.
    assert_eq!(pairs, 4 * 9 + 31 + 4 * 89);
    assert_eq!((named, not_named), (964, 11_212));
}

/// A symbol that no counted state sends is left out for a reason: there a rule may name
/// anything, the whole window too, and the reading delivers less for all symbols but one.
#[test]
fn a_symbol_that_no_counted_state_sends() {
    let model = Model::new();
    for (settings, window) in windows(&model) {
        let size = window.size();
        let all = (1 << size) - 1;
        let (mut unsent, mut whole) = (0, 0);
        for sent in 0..=all {
            let by_symbol = counted(&model, size, sent);
            for symbol in counted(&model, size, all).into_keys() {
                if !by_symbol.contains_key(&symbol) {
                    unsent += 1;
                    whole += usize::from(delivered(settings, window, symbol, 0) == all);
                }
            }
        }
        // Of 5, 10 and 15 symbols for each set. All A sends one of its own, which is sent only
        // where something was sent everywhere.
        let (_, pairs) = PAIRS[usize::from(size) - 2];
        let symbols = [5, 10, 15][usize::from(size) - 2];
        assert_eq!((unsent, whole), (symbols * (1 << size) - pairs, (1 << size) - 1), "M {size}");
    }
}

/// One state is not enough: of M = 4 and (1, 10), A,A,A,N alone would let position 2 through.
#[test]
fn one_state_of_a_shared_symbol() {
    let model = Model::new();
    let symbol = Symbol { index: 1, b0: 1, b1: 0 };
    let window = model.window(2, 7).expect("a window of four");
    assert_eq!(model.symbol("AAAN"), Some(symbol));
    assert_eq!(acks("AAAN"), 0b0111);
    assert_eq!(delivered(cell(window), window, symbol, 0), 0b0011);
}

/// What the station sends at a position; a grant and a scheduled block with the blocks carried.
#[derive(Clone, Copy, Debug, PartialEq, Eq)]
enum Sent {
    Nothing,
    Grant(u16),
    Release,
    Block(u16),
}

/// What becomes of it: it is lost, or heard with a result for each block.
#[derive(Clone, Copy, Debug, PartialEq, Eq)]
enum Fate {
    Lost,
    Heard([u16; 2]),
}

impl Sent {
    /// All that can be sent in a cell.
    fn all(blocks: u16) -> Vec<Self> {
        let carrying = (1..=blocks).flat_map(|blocks| [Self::Grant(blocks), Self::Block(blocks)]);
        [Self::Nothing, Self::Release].into_iter().chain(carrying).collect()
    }

    /// All that can become of it; a release has no results.
    fn fates(self) -> Vec<Fate> {
        let results: &[[u16; 2]] = match self {
            Self::Nothing => &[],
            Self::Release => &[[0, 0]],
            Self::Grant(1) | Self::Block(1) => &[[0, 0], [1, 0]],
            Self::Grant(_) | Self::Block(_) => &[[0, 0], [0, 1], [1, 0], [1, 1]],
        };
        results.iter().map(|results| Fate::Heard(*results)).chain([Fate::Lost]).collect()
    }

    fn is_block(self) -> bool {
        matches!(self, Self::Block(_))
    }

    /// Whether it is A: heard, with every block that it carries decoded.
    fn is_acked(self, fate: Fate) -> bool {
        match (self, fate) {
            (_, Fate::Lost) | (Self::Nothing, _) => false,
            (Self::Release, _) => true,
            (Self::Grant(blocks) | Self::Block(blocks), Fate::Heard(results)) => {
                results[..usize::from(blocks)].iter().all(|result| *result == 1)
            }
        }
    }

    /// What the handset hears of it, its first CCE and DAI where it has them.
    fn heard(self, fate: Fate, cce: u16, dai: u16) -> Heard {
        let Fate::Heard([first, second]) = fate else { return Heard::Nothing };
        match self {
            Self::Nothing => Heard::Nothing,
            Self::Grant(blocks) => Heard::Grant(Grant { blocks, first, second, cce, dai }),
            Self::Release => Heard::Release(Release { cce, dai }),
            Self::Block(blocks) => Heard::Block(Block { blocks, first, second }),
        }
    }
}

/// Every choice of one of the values at each position.
fn choices<T: Copy>(of: &[Vec<T>]) -> Vec<Vec<T>> {
    of.iter().fold(vec![Vec::new()], |all, values| {
        let longer = |one: &Vec<T>| {
            let one = one.clone();
            values.iter().map(move |value| [&one[..], &[*value]].concat()).collect::<Vec<_>>()
        };
        all.iter().flat_map(longer).collect()
    })
}

/// First CCEs, one for each position.
const CCES: [u16; 4] = [60, 0, 11, 26];

/// Feeds the 13 subframes before the reply in time order, with what is sent at each position of
/// the window and what becomes of it; gives the answer in the uplink subframe.
fn fed(settings: Settings, window: &Window, sent: &[Sent], fates: &[Fate]) -> Fed {
    let mut handset = make(settings).handset;
    handset.next = (window.n + 20 - 13) % 10;
    let mut pdcchs = 0;
    for k in (1..=13).rev() {
        let mut brought = Heard::Nothing;
        if let Some(p) = window.k.iter().position(|each| *each == k) {
            pdcchs += u16::from(matches!(sent[p], Sent::Grant(_) | Sent::Release));
            brought = sent[p].heard(fates[p], CCES[p], (pdcchs + 3) % 4 + 1);
        }
        let taken = feed(handset, brought);
        assert_eq!(taken.refusal, 0, "{settings:?}, {sent:?}, {fates:?}");
        handset = taken.handset;
    }
    feed(handset, Heard::Nothing)
}

/// Both ends, through their calls. At each position nothing is sent, a grant, a release or a
/// scheduled block, the last at one position at most; it is lost, or heard with any results.
/// The reading delivers exactly the positions that are A in every case with the same reply. So
/// it delivers all that a station could know from the reply that also keeps in mind what it
/// sent, and where.
#[test]
fn every_case_of_what_was_sent() {
    let model = Model::new();
    let (mut cases, mut replies) = (0, BTreeMap::new());
    for (settings, window) in windows(&model) {
        for settings in [1, 2].map(|blocks| Settings { blocks, ..settings }) {
            let size = window.size();
            for sent in choices(&vec![Sent::all(settings.blocks); size.into()]) {
                if sent.iter().filter(|what| what.is_block()).count() > 1 {
                    continue;
                }
                let block = sent.iter().position(|what| what.is_block());
                let told = block.map_or(NOT_TOLD, |position| position as u16);
                let mut in_all: BTreeMap<(u16, u16, u16), Positions> = BTreeMap::new();
                let fates: Vec<Vec<Fate>> = sent.iter().map(|what| what.fates()).collect();
                for fates in choices(&fates) {
                    cases += 1;
                    let answer = fed(settings, window, &sent, &fates);
                    if fates.iter().all(|fate| *fate == Fate::Lost) {
                        assert_eq!(answer.kind, Fed::SILENT, "{settings:?}, {sent:?}");
                        continue;
                    }
                    assert_eq!(answer.kind, Fed::MULTIPLEXED, "{settings:?}, {sent:?}, {fates:?}");
                    let is_acked = |p: &u16| sent[usize::from(*p)].is_acked(fates[usize::from(*p)]);
                    let acked: Positions = (0..size).filter(is_acked).map(|p| 1 << p).sum();
                    let reply = (answer.resource, answer.b0, answer.b1);
                    *in_all.entry(reply).or_insert(Positions::MAX) &= acked;
                }
                for ((resource, b0, b1), due) in in_all {
                    let read = reading(settings, window.n, told, resource, b0, b1);
                    assert_eq!(
                        (read.refusal, read.kind, read.delivered),
                        (0, Fed::MULTIPLEXED, due),
                        "{settings:?}, n {}, sent {sent:?}, reply {resource}, {b0} {b1}",
                        window.n
                    );
                    let is_plain = |what: &Sent| matches!(what, Sent::Nothing | Sent::Grant(1));
                    *replies.entry((size, sent.iter().all(is_plain))).or_insert(0) += 1;
                }
            }
        }
    }
    // At a position nothing has 1 fate, a release 2, a grant or block of one block 3 and one of
    // two blocks 5. In a cell of one block all but a scheduled block have 6, in one of two 11.
    let of_cell = |fates: usize, block: usize, size: u32| {
        fates.pow(size) + size as usize * block * fates.pow(size - 1)
    };
    let of_size = |size| of_cell(6, 3, size) + of_cell(11, 8, size);
    assert_eq!(cases, 4 * of_size(2) + of_size(3) + 4 * of_size(4));
    for (size, pairs) in PAIRS {
        let windows = if size == 3 { 1 } else { 4 };
        assert_eq!(replies[&(size, true)], windows * 2 * pairs, "M {size}, one-block grants alone");
        let others = [556, 1290, 34_844][usize::from(size) - 2];
        assert_eq!(replies[&(size, false)], others, "M {size}, with releases and others");
    }
}
