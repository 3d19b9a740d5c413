//! docs/REFUSALS.md: each example is asked, and its answer is the one that the table says.

use postgarlic::Tables;
use std::fs;

const PAGE: &str = concat!(env!("CARGO_MANIFEST_DIR"), "/../../docs/REFUSALS.md");

/// The cells of each row of the tables whose first cell passes.
fn rows(first: impl Fn(&str) -> bool) -> Vec<Vec<String>> {
    let page = fs::read_to_string(PAGE).unwrap();
    let cells = |line: &str| line.trim_matches('|').split('|').map(|cell| cell.trim().to_string()).collect::<Vec<_>>();
    page.lines().filter(|line| line.starts_with('|')).map(cells).filter(|cells| first(&cells[0])).collect()
}

/// The bytes of an example: pieces in back quotes, each so many times.
fn bytes(example: &str) -> Vec<u8> {
    let mut bytes = Vec::new();
    let mut parts = example.split('`').skip(1);
    while let (Some(piece), after) = (parts.next(), parts.next().unwrap_or("").trim()) {
        let times = after.strip_prefix('×').map_or(1, |n| n.trim().parse().unwrap());
        let piece = match piece.split_once("\\x") {
            Some((before, rest)) => {
                [before.as_bytes(), &[u8::from_str_radix(&rest[..2], 16).unwrap()], &rest.as_bytes()[2..]].concat()
            }
            None => piece.as_bytes().to_vec(),
        };
        bytes.extend(piece.repeat(times));
    }
    bytes
}

#[test]
fn every_number_has_its_example() {
    let mut tables = Tables::new();
    let rows = rows(|first| first.parse::<u32>().is_ok());
    assert_eq!(rows.len(), 18);
    for (row, number) in rows.iter().zip(1..) {
        assert_eq!(row.len(), 5, "{row:?}");
        assert_eq!(row[0], format!("{number}"));
        if row[2].starts_with("a call") {
            continue;
        }
        let refusal = tables.parse_bytes(&bytes(&row[2])).unwrap_err();
        assert_eq!(row[3], format!("`{} {}`", refusal.number(), refusal.place()), "{}", row[2]);
    }
}

#[test]
fn what_is_taken_is_taken() {
    let mut tables = Tables::new();
    let rows = rows(|first| first.starts_with("`<tt>"));
    assert_eq!(rows.len(), 5);
    for row in rows {
        let track = tables.parse_bytes(&bytes(&row[0])).unwrap();
        assert_eq!(track.cues().len(), 1, "{}", row[0]);
        let said = row[1].split_once("cue at ").unwrap().1.split_once(" ms").unwrap().0.replace(',', "");
        assert_eq!(track.cue(0).unwrap().begin(), said.parse::<i64>().unwrap() * 1_000, "{}", row[0]);
    }
}

/// What the cure of 12 says.
#[test]
fn a_byte_order_mark_hides_tt() {
    let mut tables = Tables::new();
    let film = "<?xml version=\"1.0\"?><tt/>";
    assert!(tables.parse(film).is_ok());
    assert_eq!(tables.parse(&format!("\u{FEFF}{film}")).unwrap_err().number(), 12);
}

#[test]
fn calls_that_are_refused() {
    let mut tables = Tables::new();
    assert_eq!(tables.check().unwrap().write_into(&mut [0; 10]).unwrap_err().number(), 18);
    assert_eq!(tables.check().unwrap().write_into(&mut []).unwrap_err().number(), 18);
    tables.head[3] = 2_049;
    let refusal = tables.check().unwrap_err();
    assert_eq!((refusal.number(), refusal.place(), refusal.line()), (17, 0, None));
    assert_eq!(refusal.to_string(), "what was handed in is no track (number 17)");
}
