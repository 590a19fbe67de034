//! A store's measures, and where its records hold what, as docs/LAYOUT.md has it.

use std::ops::Range;

/// Where the measures are; each is a number of two bytes.
pub const ROWS: usize = 0;
pub const WIDTH: usize = ROWS + 2;
pub const PLACES: usize = WIDTH + 2;

/// How many nodes there are.
pub const NODES: usize = 128;

/// Where the nodes' states and parents start, a byte each, and their tags, two bytes each.
pub const STATES: usize = PLACES + 2;
pub const PARENTS: usize = STATES + NODES;
pub const TAGS: usize = PARENTS + NODES;

/// Where the table starts, and the bytes of an entry: one for its node and two for its row.
pub const TABLE: usize = TAGS + 2 * NODES;
const ENTRY: usize = 3;

/// Where each part starts, under the first word that docs/LAYOUT.md has for it.
pub const PARTS: [(&str, usize); 7] = [
    ("L", ROWS),
    ("B", WIDTH),
    ("P", PLACES),
    ("state", STATES),
    ("parent", PARENTS),
    ("tag", TAGS),
    ("table", TABLE),
];

/// The states of a node.
pub const EMPTY: u8 = 0;
pub const ALIVE: u8 = 1;
pub const GHOST: u8 = 2;

/// The most of each measure, and of snapshots alive.
pub const MAX_ROWS: usize = 1024;
pub const MAX_WIDTH: usize = 1024;
pub const MAX_PLACES: usize = 4096;
pub const MAX_SNAPSHOTS: usize = 64;

/// The rows of a store, the bytes of a row, and the places.
#[derive(Clone, Copy, Debug, PartialEq)]
pub struct Measures {
    pub rows: usize,
    pub width: usize,
    pub places: usize,
}

impl Measures {
    pub const fn of(rows: usize, width: usize, places: usize) -> Measures {
        Measures {
            rows,
            width,
            places,
        }
    }

    /// The measures that records tell; none if the records end before their table.
    pub fn told_by(records: &[u8]) -> Option<Measures> {
        let told = |at| number(records, at) as usize;
        (records.len() >= TABLE).then(|| Measures::of(told(ROWS), told(WIDTH), told(PLACES)))
    }

    pub fn put(&self, records: &mut [u8]) {
        put_number(records, ROWS, self.rows as u16);
        put_number(records, WIDTH, self.width as u16);
        put_number(records, PLACES, self.places as u16);
    }

    pub fn within_limits(&self) -> bool {
        (1..=MAX_ROWS).contains(&self.rows)
            && (1..=MAX_WIDTH).contains(&self.width)
            && (self.rows..=MAX_PLACES).contains(&self.places)
    }

    /// For no more rows than places.
    pub const fn records_len(&self) -> usize {
        TABLE + ENTRY * (self.places - self.rows)
    }

    pub const fn places_len(&self) -> usize {
        self.places * self.width
    }

    /// The bytes of a place, or of a row where rows lie one after the other.
    pub fn stretch(&self, place: usize) -> Range<usize> {
        place * self.width..(place + 1) * self.width
    }
}

/// A number of two bytes, the high one first.
pub fn number(records: &[u8], at: usize) -> u16 {
    u16::from_be_bytes([records[at], records[at + 1]])
}

pub fn put_number(records: &mut [u8], at: usize, number: u16) {
    records[at..at + 2].copy_from_slice(&number.to_be_bytes());
}

pub fn put_node(records: &mut [u8], node: usize, state: u8, parent: usize, tag: u16) {
    records[STATES + node] = state;
    records[PARENTS + node] = parent as u8;
    put_number(records, TAGS + 2 * node, tag);
}

/// The table's two halves: the nodes and the rows.
pub fn table(records: &[u8]) -> (&[u8], &[[u8; 2]]) {
    let (nodes, rows) = records[TABLE..].split_at(entries(records));
    (nodes, arrays(rows))
}

pub fn table_mut(records: &mut [u8]) -> (&mut [u8], &mut [[u8; 2]]) {
    let entries = entries(records);
    let (nodes, rows) = records[TABLE..].split_at_mut(entries);
    (nodes, arrays_mut(rows))
}

pub fn put_entry(records: &mut [u8], entry: usize, node: usize, row: usize) {
    let (nodes, rows) = table_mut(records);
    nodes[entry] = node as u8;
    rows[entry] = (row as u16).to_be_bytes();
}

/// How many entries records of this length have.
fn entries(records: &[u8]) -> usize {
    (records.len() - TABLE) / ENTRY
}

/// Bytes as arrays of N, without those that are left over: what `as_chunks` gives from Rust 1.88 on.
pub fn arrays<const N: usize>(bytes: &[u8]) -> &[[u8; N]] {
    let whole = bytes.len() / N;
    // SAFETY: so many arrays lie within the bytes, and need no alignment.
    unsafe { std::slice::from_raw_parts(bytes.as_ptr().cast(), whole) }
}

fn arrays_mut<const N: usize>(bytes: &mut [u8]) -> &mut [[u8; N]] {
    let whole = bytes.len() / N;
    // SAFETY: as above, and nobody else holds them.
    unsafe { std::slice::from_raw_parts_mut(bytes.as_mut_ptr().cast(), whole) }
}
