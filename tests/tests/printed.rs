//! What the program `tables` prints is the tables of TS 36.213 as extracted from
//! its text: the printed cells are read back and compared with the CSV files.
//! (The gate runs the program and compares its output with this file.)

const PRINTED: &str = include_str!("../../crates/tables/stdout");

const WINDOWS: &str = include_str!("../data/table-10.1-1.csv");

/// Tables 10.1-2 to 10.1-4, by M.
const SYMBOLS: [(usize, &str); 3] = [
    (2, include_str!("../data/table-10.1-2.csv")),
    (3, include_str!("../data/table-10.1-3.csv")),
    (4, include_str!("../data/table-10.1-4.csv")),
];

const SIZES: &str = include_str!("../data/table-7.1.7.2.1-1.csv");

/// Tables 10.1-1 to 10.1-4, then the eleven blocks of Table 7.1.7.2.1-1; an
/// empty line stands between two.
fn tables() -> Vec<Vec<&'static str>> {
    PRINTED.split("\n\n").map(|table| table.lines().collect()).collect()
}

/// The cells of a line: two spaces or more part them.
fn cells(line: &str) -> Vec<&str> {
    line.split("  ").map(str::trim).filter(|cell| !cell.is_empty()).collect()
}

#[test]
fn five_tables_under_their_titles() {
    let tables = tables();
    let numbers = ["10.1-1", "10.1-2", "10.1-3", "10.1-4", "7.1.7.2.1-1"];
    assert_eq!(tables.len(), 4 + 11);
    for (table, number) in tables.iter().zip(numbers) {
        assert!(table[0].starts_with(&format!("Table {number}: ")), "{}", table[0]);
    }
    assert_eq!(PRINTED.matches("Table ").count(), numbers.len());
}

#[test]
fn windows_as_in_table_10_1_1() {
    let table = &tables()[0];
    assert_eq!(cells(table[2])[1..], ["0", "1", "2", "3", "4", "5", "6", "7", "8", "9"]);
    let mut rows = vec!["configuration,n,K".to_string()];
    for line in &table[3..] {
        let row = cells(line);
        assert_eq!(row.len(), 11, "{line}");
        for (n, k) in row[1..].iter().enumerate().filter(|(_, k)| **k != "-") {
            rows.push(format!("{},{n},{}", row[0], k.replace(", ", " ")));
        }
    }
    assert_eq!(rows, WINDOWS.lines().collect::<Vec<_>>());
}

/// A row of Tables 10.1-2 to 10.1-4 as the CSV files write it.
fn symbol_row(line: &str, m: usize) -> String {
    let row = cells(line);
    assert_eq!(row.len(), m + 2, "{line}");
    let index = row[m].strip_prefix("n_PUCCH,").unwrap_or(row[m]);
    format!("{},{index},{}", row[..m].join(" "), row[m + 1].replace(", ", ""))
}

#[test]
fn symbols_as_in_tables_10_1_2_to_10_1_4() {
    for ((m, csv), table) in SYMBOLS.iter().zip(&tables()[1..]) {
        assert!(table[0].ends_with(&format!("for M = {m}")), "{}", table[0]);
        let printed = table[2..].iter().map(|line| symbol_row(line, *m));
        let rows: Vec<String> =
            std::iter::once("states,index,b0b1".to_string()).chain(printed).collect();
        assert_eq!(rows, csv.lines().collect::<Vec<_>>());
    }
}

/// A block of Table 7.1.7.2.1-1 below its title: the line of its ten N_PRB,
/// then a row for each I_TBS.
fn block_rows<'a>(lines: &[&'a str]) -> Vec<Vec<&'a str>> {
    let lines = if lines[0].starts_with("Table ") { &lines[1..] } else { lines };
    assert_eq!(cells(lines[0]), ["I_TBS", "N_PRB"]);
    lines[1..].iter().map(|line| cells(line)).collect()
}

#[test]
fn sizes_as_in_table_7_1_7_2_1_1() {
    let mut rows = vec!["I_TBS".to_string()];
    rows.extend((0..27).map(|i| i.to_string()));
    for lines in &tables()[4..] {
        let block = block_rows(lines);
        assert_eq!(block.len(), 1 + 27);
        assert_eq!(block[0].len(), 10);
        rows[0] += &format!(",{}", block[0].join(","));
        for (i, row) in block[1..].iter().enumerate() {
            assert_eq!(row.len(), 1 + 10, "{row:?}");
            assert_eq!(row[0], i.to_string());
            rows[i + 1] += &format!(",{}", row[1..].join(","));
        }
    }
    assert_eq!(rows, SIZES.lines().collect::<Vec<_>>());
}
