//! The rows of data/codes.txt, for every test that speaks of all codes.

const TABLE: &str = include_str!("../../../data/codes.txt");

/// What a row has for a name or for words that its code has not.
pub const NONE: &str = "-";

/// Of each code in turn that is given its number, its names in C and in Rust, what it means and what the program
/// says; a dash where it has none.
pub fn rows() -> Vec<[&'static str; 5]> {
    let mut rows = numbered();
    rows.retain(|row| !is_withdrawn(row));
    rows
}

/// The rows of all codes, withdrawn ones too.
pub fn numbered() -> Vec<[&'static str; 5]> {
    let is_row = |line: &&str| !line.is_empty() && !line.starts_with('#');
    let rows: Vec<_> = TABLE.lines().filter(is_row).map(cells).collect();
    for (place, [number, ..]) in rows.iter().enumerate() {
        let counted = place.to_string();
        assert_eq!(*number, counted, "data/codes.txt goes on from 0 by ones");
    }
    rows
}

/// A code that is withdrawn has a number alone.
pub fn is_withdrawn([_, words @ ..]: &[&str; 5]) -> bool {
    *words == [NONE; 4]
}

fn cells(row: &str) -> [&str; 5] {
    let cells: Vec<&str> = row.split(" | ").collect();
    let five = cells.try_into();
    five.unwrap_or_else(|_| panic!("data/codes.txt: a row has not five cells: {row}"))
}
