//! Time of each call, beside one straight pass over the record bytes.

#[cfg(lmdb)]
mod beside;
mod cable;
mod calls;
mod hard;
#[cfg(lmdb)]
mod lmdb;
mod stores;
mod timing;

use calls::{stores, timed_pass, Timed, BORDER_KINDS, CALLS, CHAIN_CALLS, SLOW_CALLS};
use rowstore_host::layout::Measures;
use stores::{Border, Lent, Shape, Stock, FULLEST, GROWTH, LARGEST, MIDDLE, SMALL};
use timing::{line, medians, Repetition, REPETITION, REPETITIONS};

/// The measures of a store, and how much of it is in use.
fn print_store(lent: &Lent) {
    let Shape {
        name,
        measures,
        snapshots,
        entries: used,
        ..
    } = lent.shape;
    let (rows, width, places) = (measures.rows, measures.width, measures.places);
    let (ghosts, entries) = (lent.parsed().ghosts(), places - rows);
    println!("\n{name}: {rows} rows of {width} bytes, {places} places;");
    println!("{snapshots} snapshots, {ghosts} ghosts, {used} of {entries} entries in use");
}

/// A store, then the time of some calls on it.
fn print_calls<T: AsRef<str>>(lent: &Lent, calls: &[T], timed: impl Fn(&Timed) -> Vec<Repetition>) {
    print_store(lent);
    print_times(lent, calls, timed);
}

/// The time of some calls. The ratio is that of two stores, and the passes are the first one's: its
/// time by that of one pass over the records.
fn print_times<T: AsRef<str>>(lent: &Lent, calls: &[T], timed: impl Fn(&Timed) -> Vec<Repetition>) {
    let stores = stores();
    print!("{:<24}", "ns per call");
    stores.iter().for_each(|store| print!("{:>12}", store.name));
    if stores.len() == 2 {
        print!("{:>8}", "ratio");
    }
    println!("{:>12}{:>8}", "one pass", "passes");
    let mut cells = vec![timed_pass(lent)];
    cells.extend(stores.iter().flat_map(timed));
    let times = medians(cells);
    let (pass, times) = (times[0], &times[1..]);
    for (row, call) in calls.iter().enumerate() {
        let line = line(times, row, calls.len());
        print!("{:<24}", call.as_ref());
        line.iter().for_each(|time| print!("{time:>12.0}"));
        if let [one, other] = line[..] {
            print!("{:>8.2}", one / other);
        }
        println!("{pass:>12.0}{:>8.1}", line[0] / pass);
    }
}

fn print_shape(shape: Shape) {
    let stock = Stock::of(shape);
    print_calls(&stock.full, &CALLS, |store| (store.calls)(&stock));
    print_borders(&stock);
}

fn print_chain() {
    let lent = Lent::chain();
    print_calls(&lent, &CHAIN_CALLS, |store| (store.chain)(&lent));
}

fn print_slow() {
    let lent = hard::slow();
    print_calls(&lent, &SLOW_CALLS, |store| (store.slow)(&lent));
}

/// A count at each of the stores, which differ only in how their nodes and entries lie.
fn print_deep_ghosts() {
    let (lines, all): (Vec<String>, Vec<Lent>) = hard::deep_ghosts().into_iter().unzip();
    print_calls(&all[0], &lines, |store| {
        all.iter().map(store.count).collect()
    });
    println!("pairs, leaves: what hangs on each ghost of a chain, beside the next one;");
    println!(
        "low, high: the ghosts' node numbers; turns: a row's deepest reader is not the next one's"
    );
}

/// A delete at each of some stores of the largest measures.
fn print_deletes() {
    let all = hard::deletes();
    let lines: Vec<&str> = all.iter().map(|(line, ..)| *line).collect();
    println!("\ndeletes for which much is asked, each at a store of its own");
    print_times(&all[0].1, &lines, |store| {
        all.iter().map(store.doomed).collect()
    });
}

/// The time of borders of 64 rows, beside 64 writes of the same rows; at least so many are different.
fn print_borders(stock: &Stock) {
    print!("{:<24}{:>12}", "ns per 64 rows", "different");
    let mut cells = Vec::new();
    for store in stores() {
        print!("{:>12}{:>12}{:>7}", store.name, "64 writes", "ratio");
        cells.extend((store.borders)(stock));
    }
    println!();
    let times = medians(cells);
    for (kind, (_, borders)) in stock.borders().into_iter().enumerate() {
        let different = borders.iter().map(Border::different_rows).min();
        print!("{:<24}{:>12}", BORDER_KINDS[kind], different.unwrap_or(0));
        for times in times.chunks(2 * BORDER_KINDS.len()) {
            let (border, writes) = (times[kind], times[BORDER_KINDS.len() + kind]);
            print!("{border:>12.0}{writes:>12.0}{:>7.2}", border / writes);
        }
        println!();
    }
}

/// The time of each call as the table doubles, and the factor of each doubling.
fn print_growth() {
    println!("\ngrowth: 256 rows of 32 bytes, 48 snapshots; a full table of 240 entries and more");
    let stocks = GROWTH.map(|entries| {
        Stock::of(Shape {
            name: "growth",
            measures: Measures::of(256, 32, 256 + entries),
            snapshots: 48,
            entries,
            ..LARGEST
        })
    });
    let stores = stores();
    let mut cells: Vec<Repetition> = Vec::new();
    for stock in &stocks {
        cells.extend(stores.iter().flat_map(|store| (store.calls)(stock)));
        cells.push(timed_pass(&stock.full));
    }
    let times = medians(cells);
    let lines = stores.len() * CALLS.len() + 1;
    print!("{:<24}", "ns per call");
    GROWTH.iter().for_each(|entries| print!("{entries:>9}"));
    println!("   factors");
    for row in 0..lines {
        let label = match stores.get(row / CALLS.len()) {
            Some(store) => format!("{} {}", store.name, CALLS[row % CALLS.len()]),
            None => "one pass".to_string(),
        };
        print!("{label:<24}");
        let grown = line(&times, row, lines);
        grown.iter().for_each(|time| print!("{time:>9.0}"));
        let factors = grown.windows(2).map(|pair| pair[1] / pair[0]);
        factors.for_each(|factor| print!("{factor:>7.2}"));
        println!();
    }
}

/// The largest store beside LMDB, where it is installed.
fn print_lmdb() {
    #[cfg(lmdb)]
    beside::print(&Stock::of(LARGEST));
    #[cfg(not(lmdb))]
    println!("\nLMDB is not installed, or pkg-config does not find it; its table is left out");
}

fn main() {
    println!("time per call: median of {REPETITIONS} repetitions of {REPETITION:?} or more");
    [SMALL, MIDDLE, LARGEST].into_iter().for_each(print_shape);
    print_shape(FULLEST);
    print_chain();
    print_slow();
    print_deep_ghosts();
    print_deletes();
    print_growth();
    cable::print();
    print_lmdb();
}
