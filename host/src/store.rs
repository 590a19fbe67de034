//! The seven calls on lent bytes, and the proved store behind them.

use crate::layout::Measures;

/// Answer numbers; 0 is acceptance, every other one a refusal.
pub mod answer {
    pub const ACCEPTED: u8 = 0;
    /// Rows, width or places beyond their limits.
    pub const MEASURE: u8 = 1;
    /// A buffer that is too short or too long.
    pub const LENGTH: u8 = 2;
    /// No such row.
    pub const ROW: u8 = 3;
    /// A snapshot under the origin's tag.
    pub const TAG_ZERO: u8 = 4;
    /// The origin cannot be deleted.
    pub const ORIGIN: u8 = 5;
    /// Records that break a rule.
    pub const UNSOUND: u8 = 20;
    /// No such version.
    pub const NO_VERSION: u8 = 21;
    /// A snapshot under a tag that another one has.
    pub const TAG_ALIVE: u8 = 22;
    /// A snapshot beyond the 64th.
    pub const SNAPSHOTS: u8 = 23;
    /// A shared row, and no free place to move it to.
    pub const NO_PLACE: u8 = 24;
    /// A border of more rows than one may have.
    pub const TOO_MANY_ROWS: u8 = 25;
}

/// The most rows of a border.
pub const MAX_BORDER: usize = 64;

/// A store on lent bytes. Each call returns its answer number.
pub trait Store {
    const NAME: &'static str;

    fn open(records: &mut [u8], places: &mut [u8], measures: Measures) -> u8;

    fn snapshot(records: &mut [u8], source: u16, tag: u16) -> u8;

    /// The answer, and how many living versions share the row, this one included.
    fn read(records: &[u8], places: &[u8], tag: u16, row: usize, out: &mut [u8]) -> (u8, usize);

    fn write(records: &mut [u8], places: &mut [u8], tag: u16, row: usize, bytes: &[u8]) -> u8;

    /// Writes rows in their order up to the first that is refused: the answer, and the rows done.
    fn border(
        records: &mut [u8],
        places: &mut [u8],
        tag: u16,
        rows: &[u16],
        bytes: &[u8],
    ) -> (u8, usize);

    fn delete(records: &mut [u8], tag: u16) -> u8;

    /// The answer, the places in use and the snapshots alive.
    fn count(records: &[u8]) -> (u8, usize, usize);
}

/// The proved store, called through its C interface.
#[cfg(feature = "linked")]
pub struct Proved;

#[cfg(feature = "linked")]
mod linked {
    use super::{Measures, Proved, Store};

    extern "C" {
        fn rowstore_open(
            records: *mut u8,
            records_len: usize,
            places: *mut u8,
            places_len: usize,
            rows: usize,
            width: usize,
            place_count: usize,
        ) -> u8;
        fn rowstore_snapshot(records: *mut u8, records_len: usize, source: u16, tag: u16) -> u8;
        fn rowstore_read(
            records: *const u8,
            records_len: usize,
            places: *const u8,
            places_len: usize,
            tag: u16,
            row: usize,
            out: *mut u8,
            out_len: usize,
            sharers: *mut usize,
        ) -> u8;
        fn rowstore_write(
            records: *mut u8,
            records_len: usize,
            places: *mut u8,
            places_len: usize,
            tag: u16,
            row: usize,
            bytes: *const u8,
            bytes_len: usize,
        ) -> u8;
        fn rowstore_border(
            records: *mut u8,
            records_len: usize,
            places: *mut u8,
            places_len: usize,
            tag: u16,
            rows: *const u16,
            rows_len: usize,
            bytes: *const u8,
            bytes_len: usize,
            done: *mut usize,
        ) -> u8;
        fn rowstore_delete(records: *mut u8, records_len: usize, tag: u16) -> u8;
        fn rowstore_count(
            records: *const u8,
            records_len: usize,
            used: *mut usize,
            snapshots: *mut usize,
        ) -> u8;
    }

    // Each slice is lent whole, as its pointer and length, and for the call only; no two overlap.
    impl Store for Proved {
        const NAME: &'static str = "proved";

        fn open(records: &mut [u8], places: &mut [u8], measures: Measures) -> u8 {
            let (r, r_len) = (records.as_mut_ptr(), records.len());
            let (p, p_len) = (places.as_mut_ptr(), places.len());
            let (rows, width, place_count) = (measures.rows, measures.width, measures.places);
            unsafe { rowstore_open(r, r_len, p, p_len, rows, width, place_count) }
        }

        fn snapshot(records: &mut [u8], source: u16, tag: u16) -> u8 {
            unsafe { rowstore_snapshot(records.as_mut_ptr(), records.len(), source, tag) }
        }

        fn read(
            records: &[u8],
            places: &[u8],
            tag: u16,
            row: usize,
            out: &mut [u8],
        ) -> (u8, usize) {
            // It must be set by the call, to 0 if it refuses.
            let mut sharers = usize::MAX;
            let (r, r_len) = (records.as_ptr(), records.len());
            let (p, p_len) = (places.as_ptr(), places.len());
            let (o, o_len) = (out.as_mut_ptr(), out.len());
            let answer =
                unsafe { rowstore_read(r, r_len, p, p_len, tag, row, o, o_len, &mut sharers) };
            (answer, sharers)
        }

        fn write(records: &mut [u8], places: &mut [u8], tag: u16, row: usize, bytes: &[u8]) -> u8 {
            let (r, r_len) = (records.as_mut_ptr(), records.len());
            let (p, p_len) = (places.as_mut_ptr(), places.len());
            let (b, b_len) = (bytes.as_ptr(), bytes.len());
            unsafe { rowstore_write(r, r_len, p, p_len, tag, row, b, b_len) }
        }

        fn border(
            records: &mut [u8],
            places: &mut [u8],
            tag: u16,
            rows: &[u16],
            bytes: &[u8],
        ) -> (u8, usize) {
            // It must be set by the call.
            let mut done = usize::MAX;
            let (r, r_len) = (records.as_mut_ptr(), records.len());
            let (p, p_len) = (places.as_mut_ptr(), places.len());
            let (n, n_len) = (rows.as_ptr(), rows.len());
            let (b, b_len) = (bytes.as_ptr(), bytes.len());
            let answer =
                unsafe { rowstore_border(r, r_len, p, p_len, tag, n, n_len, b, b_len, &mut done) };
            (answer, done)
        }

        fn delete(records: &mut [u8], tag: u16) -> u8 {
            unsafe { rowstore_delete(records.as_mut_ptr(), records.len(), tag) }
        }

        fn count(records: &[u8]) -> (u8, usize, usize) {
            // Both must be set by the call, to 0 if it refuses.
            let (mut used, mut snapshots) = (usize::MAX, usize::MAX);
            let (r, r_len) = (records.as_ptr(), records.len());
            let answer = unsafe { rowstore_count(r, r_len, &mut used, &mut snapshots) };
            (answer, used, snapshots)
        }
    }
}
