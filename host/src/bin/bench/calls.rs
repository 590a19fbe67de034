//! The calls on a store, each as a repetition that is timed.

use crate::hard::{Doomed, SLOW_READER};
use crate::stores::{open, Border, Lent, Stock, CHAIN_ROWS};
use crate::timing::{timed, timed_changing, Repetition};
use rowstore_host::dice::Dice;
use rowstore_host::plain::Plain;
use rowstore_host::store::{Store, MAX_BORDER};
use std::hint::black_box;
use std::ops::Range;

/// One straight pass: the sum of all bytes. The compiler vectorises it, with sums of 64 bits.
pub fn timed_pass(lent: &Lent) -> Repetition {
    let records = lent.records.clone();
    timed(move |_| {
        let sum: u64 = black_box(&records).iter().map(|&byte| byte as u64).sum();
        black_box(sum);
    })
}

fn timed_open<S: Store>(stock: &Stock) -> Repetition {
    let mut lent = stock.full.clone();
    timed(move |_| assert_eq!(open::<S>(black_box(&mut lent)), 0))
}

fn timed_snapshot<S: Store>(stock: &Stock) -> Repetition {
    let tags = stock.open_to_more.tags();
    timed_changing(&stock.open_to_more.records, move |records, number| {
        S::snapshot(records, tags[number % tags.len()], 65_000)
    })
}

fn timed_read<S: Store>(lent: &Lent, targets: Vec<(u16, usize)>) -> Repetition {
    let lent = lent.clone();
    let mut out = vec![0; lent.shape.measures.width];
    timed(move |number| {
        let (tag, row) = targets[number % targets.len()];
        let (answer, sharers) = S::read(black_box(&lent.records), &lent.places, tag, row, &mut out);
        assert_eq!(answer, 0);
        black_box((&out, sharers));
    })
}

/// Rows of bytes that no row of the store has yet.
pub struct Fresh {
    width: usize,
    bytes: Vec<u8>,
    written: u64,
}

impl Fresh {
    pub fn rows(rows: usize, lent: &Lent) -> Fresh {
        let width = lent.shape.measures.width;
        Fresh {
            width,
            bytes: vec![7; rows * width],
            written: 0,
        }
    }

    pub fn bytes(&mut self) -> &[u8] {
        let mut row = 0;
        while row < self.bytes.len() {
            self.written += 1;
            self.bytes[row..row + 8].copy_from_slice(&self.written.to_le_bytes());
            row += self.width;
        }
        &self.bytes
    }
}

fn timed_write<S: Store>(lent: &Lent, shared: bool) -> Repetition {
    let targets = lent.targets(shared);
    let mut fresh = Fresh::rows(1, lent);
    let mut places = lent.places.clone();
    timed_changing(&lent.records, move |records, number| {
        let (tag, row) = targets[number % targets.len()];
        S::write(records, &mut places, tag, row, fresh.bytes())
    })
}

/// Writes what the version reads there already, a shared row, which changes nothing.
fn timed_write_equal<S: Store>(lent: &Lent) -> Repetition {
    let targets = lent.targets(true);
    let bytes = |&(tag, row): &(u16, usize)| lent.bytes(tag, &[row as u16]);
    let rows: Vec<Vec<u8>> = targets.iter().map(bytes).collect();
    let mut lent = lent.clone();
    timed(move |number| {
        let ((tag, row), bytes) = (targets[number % targets.len()], &rows[number % rows.len()]);
        let answer = S::write(
            black_box(&mut lent.records),
            &mut lent.places,
            tag,
            row,
            bytes,
        );
        assert_eq!(answer, 0);
    })
}

fn timed_border<S: Store>(lent: &Lent, borders: Vec<Border>, at_once: bool) -> Repetition {
    let mut fresh = Fresh::rows(MAX_BORDER, lent);
    let mut places = lent.places.clone();
    timed_changing(&lent.records, move |records, number| {
        let border = &borders[number % borders.len()];
        border.write::<S>(at_once, records, &mut places, fresh.bytes())
    })
}

fn timed_border_equal<S: Store>(lent: &Lent, borders: Vec<Border>, at_once: bool) -> Repetition {
    let bytes = |border: &Border| lent.bytes(border.tag, &border.rows);
    let rows: Vec<Vec<u8>> = borders.iter().map(bytes).collect();
    let mut lent = lent.clone();
    timed(move |number| {
        let (border, bytes) = (&borders[number % borders.len()], &rows[number % rows.len()]);
        let records = black_box(&mut lent.records);
        let answer = border.write::<S>(at_once, records, &mut lent.places, bytes);
        assert_eq!(answer, 0);
    })
}

fn timed_delete<S: Store>(lent: &Lent, tags: Vec<u16>) -> Repetition {
    timed_changing(&lent.records, move |records, number| {
        S::delete(records, tags[number % tags.len()])
    })
}

fn timed_doomed<S: Store>((_, lent, tag): &Doomed) -> Repetition {
    timed_delete::<S>(lent, vec![*tag])
}

fn timed_count<S: Store>(lent: &Lent) -> Repetition {
    let records = lent.records.clone();
    timed(move |_| assert_eq!(S::count(black_box(&records)).0, 0))
}

pub const CALLS: [&str; 8] = [
    "open",
    "snapshot",
    "read",
    "write unshared",
    "write shared",
    "write equal",
    "delete",
    "count",
];

/// The calls in the order of their names.
fn timed_calls<S: Store>(stock: &Stock) -> Vec<Repetition> {
    let full = &stock.full;
    vec![
        timed_open::<S>(stock),
        timed_snapshot::<S>(stock),
        timed_read::<S>(full, full.all_targets()),
        timed_write::<S>(full, false),
        timed_write::<S>(&stock.roomy, true),
        timed_write_equal::<S>(full),
        timed_delete::<S>(full, full.snapshots()),
        timed_count::<S>(full),
    ]
}

pub const CHAIN_CALLS: [&str; 3] = ["read own row", "read origin's", "count"];

/// The calls of a chain in the order of their names: reads at the deepest version, of its own rows
/// and of those that are the origin's.
fn timed_chain<S: Store>(lent: &Lent) -> Vec<Repetition> {
    let deepest = |rows: Range<usize>| rows.map(|row| (lent.shape.snapshots as u16, row)).collect();
    vec![
        timed_read::<S>(lent, deepest(0..CHAIN_ROWS)),
        timed_read::<S>(lent, deepest(CHAIN_ROWS..lent.rows())),
        timed_count::<S>(lent),
    ]
}

pub const SLOW_CALLS: [&str; 2] = ["read", "count"];

/// The calls of the slow store in the order of their names; what is read are the ghost's rows.
fn timed_slow<S: Store>(lent: &Lent) -> Vec<Repetition> {
    let mut dice = Dice::new(2);
    let drawn = (0..lent.rows()).map(|_| (SLOW_READER, dice.below(lent.rows())));
    vec![
        timed_read::<S>(lent, drawn.collect()),
        timed_count::<S>(lent),
    ]
}

pub const BORDER_KINDS: [&str; 3] = ["border unshared", "border shared", "border equal"];

/// The borders in the order of their kinds, and then the same rows one by one.
fn timed_borders<S: Store>(stock: &Stock) -> Vec<Repetition> {
    let timed_kinds = |at_once: bool| {
        let [(full, unshared), (roomier, shared), (_, equal)] = stock.borders();
        [
            timed_border::<S>(full, unshared, at_once),
            timed_border::<S>(roomier, shared, at_once),
            timed_border_equal::<S>(full, equal, at_once),
        ]
    };
    [true, false].into_iter().flat_map(timed_kinds).collect()
}

/// A store that is timed.
pub struct Timed {
    pub name: &'static str,
    pub calls: fn(&Stock) -> Vec<Repetition>,
    pub borders: fn(&Stock) -> Vec<Repetition>,
    pub chain: fn(&Lent) -> Vec<Repetition>,
    pub slow: fn(&Lent) -> Vec<Repetition>,
    pub count: fn(&Lent) -> Repetition,
    pub doomed: fn(&Doomed) -> Repetition,
}

impl Timed {
    fn of<S: Store>() -> Timed {
        Timed {
            name: S::NAME,
            calls: timed_calls::<S>,
            borders: timed_borders::<S>,
            chain: timed_chain::<S>,
            slow: timed_slow::<S>,
            count: timed_count::<S>,
            doomed: timed_doomed::<S>,
        }
    }
}

/// The proved store first, if it is linked.
pub fn stores() -> Vec<Timed> {
    vec![
        #[cfg(feature = "linked")]
        Timed::of::<rowstore_host::store::Proved>(),
        Timed::of::<Plain>(),
    ]
}
