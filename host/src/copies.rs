//! A store of full copies: every living version holds the bytes and a mark of each of its rows.

use crate::layout::Measures;
use crate::store::{answer::*, MAX_BORDER};
use std::collections::BTreeMap;

/// A version's rows one after the other, and the mark of each.
#[derive(Clone)]
pub struct Version {
    pub bytes: Vec<u8>,
    pub marks: Vec<usize>,
}

#[derive(Clone)]
pub struct Copies {
    pub measures: Measures,
    versions: BTreeMap<u16, Version>,
    next_mark: usize,
}

impl Copies {
    /// Opens with zero bytes and a different mark for each of the origin's rows.
    pub fn open(records_len: usize, places_len: usize, measures: Measures) -> Result<Copies, u8> {
        if !measures.within_limits() {
            return Err(MEASURE);
        }
        if records_len != measures.records_len() || places_len != measures.places_len() {
            return Err(LENGTH);
        }
        let origin = Version {
            bytes: vec![0; measures.rows * measures.width],
            marks: (0..measures.rows).collect(),
        };
        Ok(Copies::of(measures, BTreeMap::from([(0, origin)])))
    }

    /// The copies that sound records from elsewhere start with: the marks are the places read.
    pub fn of(measures: Measures, versions: BTreeMap<u16, Version>) -> Copies {
        let highest = versions.values().flat_map(|v| v.marks.iter().copied());
        let next_mark = highest.max().map_or(0, |mark| mark + 1);
        Copies {
            measures,
            versions,
            next_mark,
        }
    }

    pub fn snapshot(&mut self, source: u16, tag: u16) -> u8 {
        if tag == 0 {
            return TAG_ZERO;
        }
        let Some(copied) = self.versions.get(&source) else {
            return NO_VERSION;
        };
        if self.versions.contains_key(&tag) {
            return TAG_ALIVE;
        }
        if self.snapshots() == 64 {
            return SNAPSHOTS;
        }
        self.versions.insert(tag, copied.clone());
        ACCEPTED
    }

    /// The row's bytes, and how many living versions share it.
    pub fn read(
        &self,
        places_len: usize,
        tag: u16,
        row: usize,
        out_len: usize,
    ) -> Result<(&[u8], usize), u8> {
        self.row_refusal(places_len, tag, row, out_len)?;
        Ok((self.row(tag, row), self.sharers(tag, row)))
    }

    pub fn write(&mut self, places_len: usize, tag: u16, row: usize, bytes: &[u8]) -> u8 {
        if let Err(refusal) = self.row_refusal(places_len, tag, row, bytes.len()) {
            return refusal;
        }
        if self.row(tag, row) == bytes {
            return ACCEPTED;
        }
        if self.shared(tag, row) && self.places_in_use() == self.measures.places {
            return NO_PLACE;
        }
        let mark = self.next_mark;
        self.next_mark += 1;
        let stretch = self.measures.stretch(row);
        let version = self.versions.get_mut(&tag).expect("a living version");
        version.bytes[stretch].copy_from_slice(bytes);
        version.marks[row] = mark;
        ACCEPTED
    }

    /// Writes row after row up to the first that is refused: the answer, and how many were written.
    pub fn border(
        &mut self,
        places_len: usize,
        tag: u16,
        rows: &[u16],
        bytes: &[u8],
    ) -> (u8, usize) {
        let Measures { width, .. } = self.measures;
        if rows.len() > MAX_BORDER {
            return (TOO_MANY_ROWS, 0);
        }
        if places_len != self.measures.places_len() || bytes.len() != rows.len() * width {
            return (LENGTH, 0);
        }
        if !self.versions.contains_key(&tag) {
            return (NO_VERSION, 0);
        }
        for (done, (&row, bytes)) in rows.iter().zip(bytes.chunks(width)).enumerate() {
            let answer = self.write(places_len, tag, row.into(), bytes);
            if answer != ACCEPTED {
                return (answer, done);
            }
        }
        (ACCEPTED, rows.len())
    }

    pub fn delete(&mut self, tag: u16) -> u8 {
        if tag == 0 {
            return ORIGIN;
        }
        match self.versions.remove(&tag) {
            Some(_) => ACCEPTED,
            None => NO_VERSION,
        }
    }

    /// Places in use and snapshots alive.
    pub fn count(&self) -> (usize, usize) {
        (self.places_in_use(), self.snapshots())
    }

    /// Whether two living versions share a row.
    pub fn shares(&self, tag_a: u16, tag_b: u16, row: usize) -> bool {
        self.versions[&tag_a].marks[row] == self.versions[&tag_b].marks[row]
    }

    /// How many living versions hold the mark that this one holds at the row, itself included.
    pub fn sharers(&self, tag: u16, row: usize) -> usize {
        let mark = self.versions[&tag].marks[row];
        let holders = self.versions.values().filter(|v| v.marks[row] == mark);
        holders.count()
    }

    /// Whether any other living version shares the row with this one.
    pub fn shared(&self, tag: u16, row: usize) -> bool {
        self.sharers(tag, row) > 1
    }

    pub fn tags(&self) -> Vec<u16> {
        self.versions.keys().copied().collect()
    }

    /// The bytes of a living version's row.
    pub fn row(&self, tag: u16, row: usize) -> &[u8] {
        &self.versions[&tag].bytes[self.measures.stretch(row)]
    }

    /// What read and write test alike: lengths, then the row, then the tag.
    fn row_refusal(
        &self,
        places_len: usize,
        tag: u16,
        row: usize,
        row_len: usize,
    ) -> Result<(), u8> {
        if places_len != self.measures.places_len() || row_len != self.measures.width {
            return Err(LENGTH);
        }
        if row >= self.measures.rows {
            return Err(ROW);
        }
        if !self.versions.contains_key(&tag) {
            return Err(NO_VERSION);
        }
        Ok(())
    }

    fn snapshots(&self) -> usize {
        self.versions.len() - 1
    }

    /// The number of different marks.
    fn places_in_use(&self) -> usize {
        let mut held = vec![false; self.next_mark];
        for version in self.versions.values() {
            for &mark in &version.marks {
                held[mark] = true;
            }
        }
        held.iter().filter(|&&held| held).count()
    }
}
