//! A row turned to cable order and back, beside plain Rust that goes by the same order and by a transpose.

use crate::timing::{line, medians, timed, Repetition};
use rowstore_host::cable::{ByTable, Transposed, Turn, ROW};
use rowstore_host::dice::Dice;
use std::hint::black_box;

const LINES: [&str; 2] = ["to cable", "from cable"];
/// The rows that are turned, one after the other.
const ROWS: usize = 64;

fn timed_turn(turn: fn(&[u8], &mut [u8]) -> u8) -> Repetition {
    let rows = Dice::new(1).bytes(ROWS * ROW);
    let mut out = [0; ROW];
    timed(move |number| {
        let at = number % ROWS * ROW;
        let answer = turn(black_box(&rows[at..at + ROW]), black_box(&mut out));
        assert_eq!(answer, 0);
    })
}

/// Both directions, in the order of the lines.
fn timed_turns<T: Turn>() -> (&'static str, Vec<Repetition>) {
    let turns = vec![timed_turn(T::to_cable), timed_turn(T::from_cable)];
    (T::NAME, turns)
}

/// The time of each direction, and the ratios of the first one's to the others'.
pub fn print() {
    let turns = vec![
        #[cfg(feature = "linked")]
        timed_turns::<rowstore_host::store::Proved>(),
        timed_turns::<ByTable>(),
        timed_turns::<Transposed>(),
    ];
    println!("\ncable: a row of {ROW} bytes, one of {ROWS} in turn");
    print!("{:<24}", "ns per call");
    turns.iter().for_each(|(name, _)| print!("{name:>12}"));
    let (first, others) = (turns[0].0, &turns[1..]);
    for (name, _) in others {
        print!("{:>20}", format!("{first}/{name}"));
    }
    println!();
    let times = medians(turns.into_iter().flat_map(|(_, turns)| turns).collect());
    for (number, call) in LINES.iter().enumerate() {
        let line = line(&times, number, LINES.len());
        print!("{call:<24}");
        line.iter().for_each(|time| print!("{time:>12.0}"));
        line[1..]
            .iter()
            .for_each(|time| print!("{:>20.2}", line[0] / time));
        println!();
    }
}
