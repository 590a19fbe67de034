//! How a call is timed: medians of repetitions that take turns.

use crate::stores::BORDERS;
use std::hint::black_box;
use std::time::{Duration, Instant};

/// A time is the median of this many repetitions, each of at least this length.
pub const REPETITIONS: usize = 15;
pub const REPETITION: Duration = Duration::from_millis(2);

/// Makes one repetition and gives its time per call, in nanoseconds.
pub type Repetition = Box<dyn FnMut() -> f64>;

fn span(calls: usize, act: &mut impl FnMut(usize)) -> Duration {
    let start = Instant::now();
    for number in 0..calls {
        act(number);
    }
    start.elapsed()
}

/// A repetition of as many calls as take long enough; their time is given by their number.
fn repeated(mut span: impl FnMut(usize) -> Duration + 'static) -> Repetition {
    let mut calls = BORDERS;
    while span(calls) < REPETITION {
        calls *= 2;
    }
    Box::new(move || span(calls).as_nanos() as f64 / calls as f64)
}

/// Times an act, which is given the number of the call.
pub fn timed(mut act: impl FnMut(usize) + 'static) -> Repetition {
    repeated(move |calls| span(calls, &mut act))
}

/// Times an act that is undone each time, which is not counted.
#[cfg(lmdb)]
pub fn timed_undone(
    mut act: impl FnMut(usize) + 'static,
    mut undo: impl FnMut(usize) + 'static,
) -> Repetition {
    repeated(move |calls| {
        let call = |number| {
            let time = span(1, &mut |_| act(number));
            undo(number);
            time
        };
        (0..calls).map(call).sum()
    })
}

/// Times a call that changes the records: they are restored each time, and the time of the
/// restoring alone is taken off.
pub fn timed_changing(
    records: &[u8],
    mut act: impl FnMut(&mut [u8], usize) -> u8 + 'static,
) -> Repetition {
    let (first, mut lent) = (records.to_vec(), records.to_vec());
    let mut restoring = timed(move |_| {
        black_box(&mut lent).copy_from_slice(black_box(&first));
    });
    let (first, mut lent) = (records.to_vec(), records.to_vec());
    let mut both = timed(move |number| {
        black_box(&mut lent).copy_from_slice(black_box(&first));
        assert_eq!(act(&mut lent, number), 0);
    });
    Box::new(move || both() - restoring())
}

/// The median of each; they take turns, so that a slow spell of the machine meets all alike.
pub fn medians(mut cells: Vec<Repetition>) -> Vec<f64> {
    let mut times = vec![Vec::new(); cells.len()];
    for _ in 0..REPETITIONS {
        for (cell, times) in cells.iter_mut().zip(&mut times) {
            times.push(cell());
        }
    }
    let median = |mut times: Vec<f64>| {
        times.sort_by(f64::total_cmp);
        times[REPETITIONS / 2]
    };
    times.into_iter().map(median).collect()
}

/// A line of a table whose times stand column by column.
pub fn line(times: &[f64], number: usize, lines: usize) -> Vec<f64> {
    times.iter().skip(number).step_by(lines).copied().collect()
}
