//! The multiplexed replies: every state of a window, and the symbol it sends.
//!
//! A state has one letter for each position: A if a grant was heard with every
//! carried block decoded, N if one was heard otherwise, D if none was heard.

use super::Model;

/// The rows of Tables 10.1-2 to 10.1-4 as the papers write them, by M: the
/// states, then index and bits. "-" and "(N or D)" stand for both letters.
const ROWS: [(u16, &str); 3] = [
    (
        2,
        "A,A: 1, 11. A,(N or D): 0, 01. (N or D),A: 1, 00. (N or D),N: 1, 10. N,D: 0, 10. \
         D,D: silent.",
    ),
    (
        3,
        "AAA: 2, 11. AA-: 1, 11. A-A: 0, 11. A--: 0, 01. -AA: 2, 10. -A-: 1, 00. --A: 2, 00. \
         DDN: 2, 01. DN-: 1, 10. N--: 0, 10.",
    ),
    (
        4,
        "AAAA: 1, 11. AAA-, AA-A and AA--: 1, 10. A-AA, -AAA and --AA: 3, 01. A-A-: 2, 01. \
         A--A: 0, 01. A---: 0, 11. -AA-: 2, 10. -A-A: 3, 10. -A--: 1, 01. --A-: 2, 00. \
         ---A: 3, 00. ---N: 3, 11. --ND: 2, 11. -NDD: 1, 00. NDDD: 0, 10. All D: silent.",
    ),
];

/// A multiplexed reply: the position on whose resource it is sent, and its bits.
#[derive(Clone, Copy, Debug, PartialEq, Eq, PartialOrd, Ord)]
pub struct Symbol {
    pub index: u16,
    pub b0: u16,
    pub b1: u16,
}

/// One row of a table: the states it is for, and their symbol unless they are silent.
#[derive(Clone, Debug, PartialEq, Eq, PartialOrd, Ord)]
pub struct Row {
    pub pattern: String,
    pub symbol: Option<Symbol>,
}

/// All 3^M states of the windows of one size, each with its symbol.
pub(super) struct States {
    size: u16,
    rows: Vec<Row>,
    symbols: Vec<(String, Option<Symbol>)>,
}

/// The states of the sizes that multiplex.
pub(super) fn all() -> Vec<States> {
    ROWS.iter().map(|(size, text)| States::new(*size, text)).collect()
}

impl Model {
    /// The rows for windows of one size.
    pub fn rows(&self, size: u16) -> &[Row] {
        &self.states(size).rows
    }

    /// All states of windows of one size, each with its symbol.
    pub fn symbols(&self, size: u16) -> &[(String, Option<Symbol>)] {
        &self.states(size).symbols
    }

    /// The symbol that a state sends, if it is not silent.
    pub fn symbol(&self, state: &str) -> Option<Symbol> {
        let symbols = self.symbols(state.len() as u16);
        let (_, symbol) = symbols.iter().find(|(each, _)| each == state).expect("a state");
        *symbol
    }

    /// The positions that are A in every state that sends a symbol, bit p for
    /// position p; or nothing, when no state sends it.
    pub fn delivered(&self, size: u16, symbol: Symbol) -> Option<u16> {
        let sends = |(_, each): &&(String, Option<Symbol>)| *each == Some(symbol);
        let sending = self.symbols(size).iter().filter(sends);
        sending.map(|(state, _)| positions_that_are_a(state)).reduce(|one, other| one & other)
    }

    fn states(&self, size: u16) -> &States {
        self.states.iter().find(|states| states.size == size).expect("a size that multiplexes")
    }
}

impl States {
    fn new(size: u16, text: &str) -> Self {
        let mut rows: Vec<Row> =
            text.split_terminator('.').flat_map(|s| sentence(size, s)).collect();
        // "All D" closes the list and is silent for every size, also where it
        // has no sentence of its own.
        let all_d = Row { pattern: "D".repeat(usize::from(size)), symbol: None };
        if !rows.contains(&all_d) {
            rows.push(all_d);
        }
        let symbols = states(size).into_iter().map(|state| {
            let symbol = the_row(&rows, &state).symbol;
            (state, symbol)
        });
        Self { size, symbols: symbols.collect(), rows }
    }
}

/// The rows of one sentence: "states: index, bits" or "states: silent".
fn sentence(size: u16, text: &str) -> Vec<Row> {
    let (states, answer) = text.split_once(": ").expect("states, then a colon");
    let symbol = answer.split_once(", ").map(|(index, bits)| symbol(index, bits));
    assert!(symbol.is_some() || answer == "silent", "{text}");
    let patterns = states.split(" and ").flat_map(|part| part.split(", "));
    patterns.map(|text| Row { pattern: pattern(size, text), symbol }).collect()
}

fn symbol(index: &str, bits: &str) -> Symbol {
    let bit = |at: usize| bits[at..=at].parse().expect("a bit");
    Symbol { index: index.parse().expect("an index"), b0: bit(0), b1: bit(1) }
}

/// The letters A, N, D and "-" for N or D, one for each position.
fn pattern(size: u16, text: &str) -> String {
    let text = match text.trim() {
        "All D" => "D".repeat(usize::from(size)),
        text => text.replace("(N or D)", "-").replace(',', ""),
    };
    assert!(text.len() == usize::from(size) && text.chars().all(|c| "AND-".contains(c)), "{text}");
    text
}

/// All 3^size states.
fn states(size: u16) -> Vec<String> {
    let mut states = vec![String::new()];
    for _ in 0..size {
        let longer = |state: &String| ["A", "N", "D"].map(|letter| state.clone() + letter);
        states = states.iter().flat_map(longer).collect();
    }
    states
}

/// The one row that a state is in.
fn the_row<'a>(rows: &'a [Row], state: &str) -> &'a Row {
    let found: Vec<&Row> = rows.iter().filter(|row| is_in(state, &row.pattern)).collect();
    assert!(found.len() == 1, "{state} is in {found:?}");
    found[0]
}

fn is_in(state: &str, pattern: &str) -> bool {
    let fits = |(letter, due)| letter == due || (due == '-' && letter != 'A');
    state.chars().zip(pattern.chars()).all(fits)
}

fn positions_that_are_a(state: &str) -> u16 {
    let positions = state.chars().enumerate().filter(|(_, letter)| *letter == 'A');
    positions.map(|(position, _)| 1 << position).sum()
}
