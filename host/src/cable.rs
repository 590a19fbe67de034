//! Rows of 1,024 hooks in cable order and back: the proved turns, and two plain ones beside them.

use crate::store::answer::{ACCEPTED, LENGTH};

/// The bytes of a row, with a bit for each hook.
pub const ROW: usize = 128;
pub const HOOKS: usize = 8 * ROW;
/// The head has files of hooks, one behind the other.
pub const FILES: usize = 16;
pub const IN_FILE: usize = HOOKS / FILES;

type Row = [u8; ROW];

/// The hook of each position: the cable takes one hook of each file in turn.
const ORDER: [u16; HOOKS] = {
    let mut order = [0; HOOKS];
    let mut position = 0;
    while position < HOOKS {
        let (file, hook) = (position % FILES, position / FILES);
        order[position] = (file * IN_FILE + hook) as u16;
        position += 1;
    }
    order
};

/// Rows turned to cable order and back. Each turn returns its answer number.
pub trait Turn {
    const NAME: &'static str;

    fn to_cable(row: &[u8], out: &mut [u8]) -> u8;

    fn from_cable(row: &[u8], out: &mut [u8]) -> u8;
}

/// Makes a turn of a row and an output of the right length, or refuses it.
fn turned(row: &[u8], out: &mut [u8], turn: impl Fn(&Row, &mut Row)) -> u8 {
    match (row.try_into(), out.try_into()) {
        (Ok(row), Ok(out)) => {
            turn(row, out);
            ACCEPTED
        }
        _ => LENGTH,
    }
}

/// Bit by bit, by a table.
pub struct ByTable;

impl Turn for ByTable {
    const NAME: &'static str = "by table";

    fn to_cable(row: &[u8], out: &mut [u8]) -> u8 {
        turned(row, out, |row, out| {
            for (byte, hooks) in out.iter_mut().zip(ORDER.chunks_exact(8)) {
                *byte = hooks.iter().fold(0, |byte, &hook| {
                    byte << 1 | row[hook as usize / 8 % ROW] >> (7 - hook % 8) & 1
                });
            }
        })
    }

    fn from_cable(row: &[u8], out: &mut [u8]) -> u8 {
        turned(row, out, |row, out| {
            out.fill(0);
            for (byte, hooks) in row.iter().zip(ORDER.chunks_exact(8)) {
                for (bit, &hook) in hooks.iter().enumerate() {
                    out[hook as usize / 8 % ROW] |= (byte >> (7 - bit) & 1) << (7 - hook % 8);
                }
            }
        })
    }
}

/// A transpose of 16 files by 64 hooks, in four blocks of 16 by 16 at once.
pub struct Transposed;

/// Four blocks side by side: word `n` has line `n` of each, its highest bit first.
fn transpose(lines: &mut [u64; FILES]) {
    let stages = [
        (8, 0x00ff_00ff_00ff_00ff),
        (4, 0x0f0f_0f0f_0f0f_0f0f),
        (2, 0x3333_3333_3333_3333),
        (1, 0x5555_5555_5555_5555),
    ];
    for (apart, mask) in stages {
        for high in (0..FILES).filter(|line| line & apart == 0) {
            let low = high + apart;
            let swapped = (lines[high] ^ lines[low] >> apart) & mask;
            lines[high] ^= swapped;
            lines[low] ^= swapped << apart;
        }
    }
}

impl Turn for Transposed {
    const NAME: &'static str = "transposed";

    fn to_cable(row: &[u8], out: &mut [u8]) -> u8 {
        turned(row, out, |row, out| {
            let mut lines = [0; FILES];
            for (line, file) in lines.iter_mut().zip(row.chunks_exact(8)) {
                *line = u64::from_be_bytes(file.try_into().expect("eight bytes"));
            }
            transpose(&mut lines);
            for (block, bytes) in out.chunks_exact_mut(2 * FILES).enumerate() {
                for (pair, line) in bytes.chunks_exact_mut(2).zip(lines) {
                    pair.copy_from_slice(&((line >> (48 - 16 * block)) as u16).to_be_bytes());
                }
            }
        })
    }

    fn from_cable(row: &[u8], out: &mut [u8]) -> u8 {
        turned(row, out, |row, out| {
            let mut lines = [0; FILES];
            for bytes in row.chunks_exact(2 * FILES) {
                for (line, pair) in lines.iter_mut().zip(bytes.chunks_exact(2)) {
                    let pair = u16::from_be_bytes(pair.try_into().expect("two bytes"));
                    *line = *line << 16 | pair as u64;
                }
            }
            transpose(&mut lines);
            for (file, line) in out.chunks_exact_mut(8).zip(lines) {
                file.copy_from_slice(&line.to_be_bytes());
            }
        })
    }
}

#[cfg(feature = "linked")]
mod linked {
    use super::Turn;
    use crate::store::Proved;

    extern "C" {
        fn rowstore_to_cable(row: *const u8, row_len: usize, out: *mut u8, out_len: usize) -> u8;
        fn rowstore_from_cable(row: *const u8, row_len: usize, out: *mut u8, out_len: usize) -> u8;
    }

    // Each slice is lent whole, as its pointer and length, and for the call only; they do not overlap.
    impl Turn for Proved {
        const NAME: &'static str = "proved";

        fn to_cable(row: &[u8], out: &mut [u8]) -> u8 {
            unsafe { rowstore_to_cable(row.as_ptr(), row.len(), out.as_mut_ptr(), out.len()) }
        }

        fn from_cable(row: &[u8], out: &mut [u8]) -> u8 {
            unsafe { rowstore_from_cable(row.as_ptr(), row.len(), out.as_mut_ptr(), out.len()) }
        }
    }
}
