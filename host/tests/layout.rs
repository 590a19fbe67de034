//! The layout document against the proved store and the host's constants: its offsets, its example byte by byte, and its
//! table of sizes.

#![cfg(feature = "linked")]

use rowstore_host::layout::*;
use rowstore_host::store::answer::{ACCEPTED, LENGTH};
use rowstore_host::store::{Proved, Store, MAX_BORDER};

const DOCUMENT: &str = include_str!("../../docs/LAYOUT.md");
const HEADER: &str = include_str!("../../include/rowstore.h");

/// The measures of the document's example.
const EXAMPLE: Measures = Measures::of(4, 8, 6);

/// The lines of the document's only block of bytes.
fn listing() -> Vec<&'static str> {
    let blocks: Vec<&str> = DOCUMENT.split("\n```hex\n").skip(1).collect();
    assert_eq!(blocks.len(), 1, "one block of bytes");
    let (block, _) = blocks[0].split_once("\n```\n").expect("the block ends");
    block.lines().collect()
}

/// The number that follows a buffer's name on a line of its own.
fn heading(line: &str, name: &str) -> Option<usize> {
    let length = line.strip_prefix(name)?.strip_prefix(' ')?;
    Some(length.parse().expect("a length in base ten"))
}

/// All bytes of a buffer: those that the lines list, and zeros.
fn listed(length: usize, lines: &[&str]) -> Vec<u8> {
    let mut bytes = vec![0; length];
    let mut free = 0;
    assert!(!lines.is_empty(), "no bytes listed");
    for line in lines {
        let (offset, rest) = line.split_once(':').expect("an offset and a colon");
        let mut at: usize = offset.trim().parse().expect("an offset in base ten");
        assert!(at >= free, "listed twice or out of order: {line}");
        let digits = rest.split(';').next().unwrap_or_default();
        assert!(!digits.trim().is_empty(), "no bytes: {line}");
        for pair in digits.split_whitespace() {
            assert_eq!(pair.len(), 2, "two digits: {line}");
            assert!(at < length, "beyond the last byte: {line}");
            bytes[at] = u8::from_str_radix(pair, 16).expect("hexadecimal digits");
            at += 1;
        }
        free = at;
    }
    bytes
}

/// The document's records and places.
fn example() -> (Vec<u8>, Vec<u8>) {
    let lines = listing();
    let records_len = heading(lines[0], "records").expect("records come first");
    let split = lines
        .iter()
        .position(|line| heading(line, "places").is_some())
        .expect("places come second");
    let places_len = heading(lines[split], "places").expect("a length");
    (
        listed(records_len, &lines[1..split]),
        listed(places_len, &lines[split + 1..]),
    )
}

/// The cells of a section's first table, line by line, without its heading.
fn cells(heading: &str) -> Vec<Vec<&'static str>> {
    let (_, section) = DOCUMENT.split_once(heading).expect("the section");
    let lines = section.lines().skip_while(|line| !line.starts_with('|'));
    let lines = lines.take_while(|line| line.starts_with('|')).skip(2);
    lines
        .map(|line| line.trim_matches('|').split('|').map(str::trim).collect())
        .collect()
}

/// L, B, P, the bytes of records and the bytes of places, from each line of the table of sizes.
fn sizes() -> Vec<[usize; 5]> {
    let number = |cell: &&str| cell.parse().expect("a number");
    let numbers = |cells: Vec<&str>| cells.iter().map(number).collect::<Vec<usize>>();
    let five = |cells| numbers(cells).try_into().expect("five numbers");
    cells("\n## Sizes\n").into_iter().map(five).collect()
}

#[test]
fn offsets_of_parts() {
    let mut listed = Vec::new();
    for line in cells("# The records as bytes\n") {
        let start = line[0].split(' ').next().and_then(|at| at.parse().ok());
        let word = line[2].split([' ', ',']).next();
        listed.push((word.expect("a part"), start.expect("an offset")));
    }
    // The table has a line for each half.
    listed.dedup();
    assert_eq!(listed, PARTS);
    // What the header calls the parts, in their order.
    let names = [
        "ROWS",
        "WIDTH",
        "PLACE_COUNT",
        "STATES",
        "PARENTS",
        "TAGS",
        "TABLE",
    ];
    for (name, (_, start)) in names.into_iter().zip(PARTS) {
        in_header(&format!("{name}_AT {start}"));
    }
}

/// Fails unless the header has the constant.
fn in_header(constant: &str) {
    let define = format!("\n#define ROWSTORE_{constant}\n");
    assert!(HEADER.contains(&define), "not in the header: {define}");
}

#[test]
fn limits_and_states() {
    in_header(&format!("MAX_ROWS {MAX_ROWS}"));
    in_header(&format!("MAX_WIDTH {MAX_WIDTH}"));
    in_header(&format!("MAX_PLACES {MAX_PLACES}"));
    in_header(&format!("MAX_SNAPSHOTS {MAX_SNAPSHOTS}"));
    in_header(&format!("MAX_BORDER {MAX_BORDER}"));
    in_header(&format!("NODES {NODES}"));
    in_header(&format!("EMPTY {EMPTY}"));
    in_header(&format!("ALIVE {ALIVE}"));
    in_header(&format!("GHOST {GHOST}"));
}

/// The number that the document has for this layout.
#[test]
fn number_of_the_layout() {
    let told = DOCUMENT
        .split_once("This is layout ")
        .expect("its number")
        .1;
    let number: String = told.chars().take_while(char::is_ascii_digit).collect();
    in_header(&format!("LAYOUT {number}"));
}

#[test]
fn example_from_constants() {
    let mut records = vec![0; EXAMPLE.records_len()];
    EXAMPLE.put(&mut records);
    put_node(&mut records, 0, ALIVE, 0, 0);
    put_node(&mut records, 1, ALIVE, 0, 7);
    put_entry(&mut records, 0, 1, 2);
    assert_eq!(records, example().0);
    assert_eq!(Measures::told_by(&records), Some(EXAMPLE));
    assert_eq!(table(&records), (&[1, 0][..], &[[0, 2], [0, 0]][..]));
}

#[test]
fn example_in_full() {
    let (wanted_records, wanted_places) = example();
    assert_eq!(wanted_records.len(), EXAMPLE.records_len());
    assert_eq!(wanted_places.len(), EXAMPLE.places_len());

    // Whatever was in the buffers is gone after the opening.
    let mut records = vec![0xff; wanted_records.len()];
    let mut places = vec![0xff; wanted_places.len()];
    let opened = Proved::open(&mut records, &mut places, EXAMPLE);
    let first = Proved::write(&mut records, &mut places, 0, 2, &[0xa1; 8]);
    let taken = Proved::snapshot(&mut records, 0, 7);
    let second = Proved::write(&mut records, &mut places, 0, 2, &[0xb2; 8]);
    assert_eq!([opened, first, taken, second], [ACCEPTED; 4]);

    assert_eq!(records, wanted_records);
    assert_eq!(places, wanted_places);
}

#[test]
fn sizes_of_stores() {
    let sizes = sizes();
    assert_eq!(sizes.len(), 6);
    for [rows, width, count, records_len, places_len] in sizes {
        let measures = Measures::of(rows, width, count);
        let open = |records_len: usize, places_len: usize| {
            let mut records = vec![0xff; records_len];
            let mut places = vec![0xff; places_len];
            Proved::open(&mut records, &mut places, measures)
        };
        let case = format!("L = {rows}, B = {width}, P = {count}");
        assert_eq!(measures.records_len(), records_len, "{case}");
        assert_eq!(measures.places_len(), places_len, "{case}");
        assert_eq!(open(records_len, places_len), ACCEPTED, "{case}");
        assert_eq!(open(records_len - 1, places_len), LENGTH, "{case}");
        assert_eq!(open(records_len + 1, places_len), LENGTH, "{case}");
        assert_eq!(open(records_len, places_len - 1), LENGTH, "{case}");
        assert_eq!(open(records_len, places_len + 1), LENGTH, "{case}");
    }
}
