//! The model by itself: its tables and its edges. What the engine is held to is
//! held to the papers here.

use feedback_tests::compare::{BANDWIDTHS, CCES, POSITIONS, WINDOWS};
use feedback_tests::model::{edge, frame, Model, Row, Symbol, Window, NRB};
use feedback_tests::plain;
use std::collections::BTreeMap;

const TABLE: &str = include_str!("../data/table-10.1-1.csv");

/// Tables 10.1-2 to 10.1-4, by M.
const SYMBOLS: [(u16, &str); 3] = [
    (2, include_str!("../data/table-10.1-2.csv")),
    (3, include_str!("../data/table-10.1-3.csv")),
    (4, include_str!("../data/table-10.1-4.csv")),
];

fn printed(line: &str) -> Window {
    let mut fields = line.split(',');
    let mut field = || fields.next().expect("three fields");
    Window {
        config: field().parse().expect("a configuration"),
        n: field().parse().expect("a subframe"),
        k: field().split(' ').map(|k| k.parse().expect("a k")).collect(),
    }
}

/// The model has these windows, in this order, and no others.
fn assert_same_windows(windows: &[Window]) {
    let model = Model::new();
    for (models, window) in model.windows().iter().zip(windows) {
        assert_eq!(models, window);
    }
    assert_eq!(model.windows().len() as u64, WINDOWS);
    assert_eq!(windows.len() as u64, WINDOWS);
}

#[test]
fn windows_are_those_of_the_printed_table() {
    let (heading, rows) = TABLE.split_once('\n').expect("a heading");
    assert_eq!(heading, "configuration,n,K");
    let windows: Vec<Window> = rows.lines().map(printed).collect();
    assert_same_windows(&windows);
}

#[test]
fn windows_cover_each_downlink_subframe_once() {
    let mut members = 0;
    for config in 0..7 {
        let mut covered = [0; 10];
        let letters: Vec<char> = frame(config).chars().collect();
        let model = Model::new();
        for window in model.windows().iter().filter(|w| w.config == config) {
            assert_eq!(letters[usize::from(window.n)], 'U', "{window:?}");
            for k in &window.k {
                covered[usize::from((window.n + 20 - k) % 10)] += 1;
                members += 1;
            }
        }
        let downlink: Vec<u64> = letters.iter().map(|l| u64::from(*l != 'U')).collect();
        assert_eq!(covered[..], downlink, "configuration {config}");
    }
    assert_eq!(members, POSITIONS);
}

#[test]
fn edges_rise_and_add_up() {
    for nrb in NRB {
        let edges: Vec<u16> = (0..=4).map(|p| edge(nrb, p)).collect();
        assert_eq!(edges[0], 0);
        assert!(edges.windows(2).all(|pair| pair[0] < pair[1]), "{edges:?}");
    }
    assert_eq!(NRB.count() as u64, BANDWIDTHS);
    assert_eq!(NRB.map(|nrb| u64::from(edge(nrb, 4))).sum::<u64>(), CCES);
}

#[test]
fn plain_table_is_the_models() {
    let mut windows = Vec::new();
    for (config, row) in plain::K.iter().enumerate() {
        for (n, k) in row.iter().enumerate().filter(|(_, k)| !k.is_empty()) {
            windows.push(Window {
                config: config as u16,
                n: n as u16,
                k: k.iter().map(|k| u16::from(*k)).collect(),
            });
        }
    }
    assert_same_windows(&windows);
}

fn printed_row(line: &str) -> Row {
    let fields: Vec<&str> = line.split(',').collect();
    let [states, index, bits] = fields[..] else { panic!("three fields: {line}") };
    let letter = |word| match word {
        "ACK" => 'A',
        "NACK" => 'N',
        "DTX" => 'D',
        "NACK/DTX" => '-',
        _ => panic!("a state: {word}"),
    };
    let bit = |at: usize| bits[at..=at].parse().expect("a bit");
    let symbol = match (index, bits) {
        ("N/A", "N/A") => None,
        _ => Some(Symbol { index: index.parse().expect("an index"), b0: bit(0), b1: bit(1) }),
    };
    Row { pattern: states.split(' ').map(letter).collect(), symbol }
}

#[test]
fn symbols_are_those_of_the_printed_tables() {
    let model = Model::new();
    let mut compared = 0;
    for (size, table) in SYMBOLS {
        let (heading, rows) = table.split_once('\n').expect("a heading");
        assert_eq!(heading, "states,index,b0b1");
        let mut printed: Vec<Row> = rows.lines().map(printed_row).collect();
        let mut models = model.rows(size).to_vec();
        printed.sort();
        models.sort();
        assert_eq!(models, printed, "M {size}");
        compared += printed.len();
    }
    assert_eq!(compared, 6 + 11 + 20);
}

/// The silent state is all D and no other, an index is always a heard position,
/// and no more than two symbols, both of M = 4, belong to several rows.
#[test]
fn states_and_their_symbols() {
    let model = Model::new();
    let mut states = 0;
    let mut shared = Vec::new();
    for (size, symbols) in [(2, 5), (3, 10), (4, 15)] {
        for (state, symbol) in model.symbols(size) {
            let all_d = state.chars().all(|letter| letter == 'D');
            assert_eq!(symbol.is_none(), all_d, "{state}");
            if let Some(Symbol { index, .. }) = symbol {
                assert_ne!(state.chars().nth(usize::from(*index)), Some('D'), "{state}");
            }
            states += 1;
        }
        let mut rows: BTreeMap<Symbol, Vec<&str>> = BTreeMap::new();
        for row in model.rows(size) {
            if let Some(symbol) = row.symbol {
                rows.entry(symbol).or_default().push(&row.pattern);
            }
        }
        assert_eq!(rows.len(), symbols, "M {size}");
        shared.extend(rows.into_iter().filter(|(_, rows)| rows.len() > 1));
    }
    assert_eq!(states, 9 + 27 + 81);
    let first = Symbol { index: 1, b0: 1, b1: 0 };
    let second = Symbol { index: 3, b0: 0, b1: 1 };
    assert_eq!(
        shared,
        [(first, vec!["AAA-", "AA-A", "AA--"]), (second, vec!["A-AA", "-AAA", "--AA"])]
    );
    assert_eq!(model.delivered(4, first), Some(0b0011));
    assert_eq!(model.delivered(4, second), Some(0b1100));
}
