//! The same calls in plain Rust, written for speed: the proved store's opponent in the benchmark.
//! Records are judged where they lie, with one pass over the table and no heap.

use crate::layout::*;
use crate::store::{answer::*, Store, MAX_BORDER};

const MAX_SNAPSHOTS: u32 = 64;
/// A node that has no rank.
const NO_RANK: u8 = 255;
/// Where no node in use stands; higher than any slot.
const NO_SLOT: u16 = 0x8000;
/// No row at all, for calls that look none up.
const NO_ROW: usize = usize::MAX;
/// The rank of node 0's child: nothing but node 0 can rank above it.
const ORIGIN_CHILD: usize = 1;

/// The ranks that have an entry for a row, a bit for each.
type Owners = [u8; NODES / 8];

pub struct Plain;

impl Store for Plain {
    const NAME: &'static str = "plain";

    fn open(records: &mut [u8], places: &mut [u8], measures: Measures) -> u8 {
        if !measures.within_limits() {
            return MEASURE;
        }
        if records.len() != measures.records_len() || places.len() != measures.places_len() {
            return LENGTH;
        }
        records.fill(0);
        measures.put(records);
        put_node(records, 0, ALIVE, 0, 0);
        places.fill(0);
        ACCEPTED
    }

    fn snapshot(records: &mut [u8], source: u16, tag: u16) -> u8 {
        let mut tree = Tree::new();
        if survey(&mut tree, records, NO_ROW).is_none() {
            return UNSOUND;
        }
        if tag == 0 {
            return TAG_ZERO;
        }
        let Some(source) = node_of(records, source) else {
            return NO_VERSION;
        };
        if node_of(records, tag).is_some() {
            return TAG_ALIVE;
        }
        if tree.snapshots == MAX_SNAPSHOTS {
            return SNAPSHOTS;
        }
        let node = empty_node(records);
        if let (0, Some(child)) = (source, tree.origin_child()) {
            records[PARENTS + child] = node as u8;
        }
        put_node(records, node, ALIVE, source, tag);
        ACCEPTED
    }

    fn read(records: &[u8], places: &[u8], tag: u16, row: usize, out: &mut [u8]) -> (u8, usize) {
        let mut tree = Tree::new();
        match tree.seek(records, places.len(), out.len(), tag, row) {
            Err(refusal) => (refusal, 0),
            Ok(sought) => {
                out.copy_from_slice(&places[sought.measures.stretch(sought.place)]);
                (ACCEPTED, tree.readers(sought.source, sought.owners))
            }
        }
    }

    fn write(records: &mut [u8], places: &mut [u8], tag: u16, row: usize, bytes: &[u8]) -> u8 {
        let mut tree = Tree::new();
        match tree.seek(records, places.len(), bytes.len(), tag, row) {
            Err(refusal) => refusal,
            Ok(mut sought) => tree.write(records, places, &mut sought, bytes),
        }
    }

    fn border(
        records: &mut [u8],
        places: &mut [u8],
        tag: u16,
        rows: &[u16],
        bytes: &[u8],
    ) -> (u8, usize) {
        let Some(measures) = fitting_measures(records) else {
            return (UNSOUND, 0);
        };
        let width = measures.width;
        with_owners(measures.rows, |owners| {
            let mut tree = Tree::new();
            if !judge(&mut tree, records, owners) {
                return (UNSOUND, 0);
            }
            if rows.len() > MAX_BORDER {
                return (TOO_MANY_ROWS, 0);
            }
            if places.len() != measures.places_len() || bytes.len() != rows.len() * width {
                return (LENGTH, 0);
            }
            let Some(node) = node_of(records, tag) else {
                return (NO_VERSION, 0);
            };
            let mut version = tree.rank[node] as usize;
            for (done, (&row, bytes)) in rows.iter().zip(bytes.chunks(width)).enumerate() {
                let row = row as usize;
                let Some(set) = owners.get_mut(row) else {
                    return (ROW, done);
                };
                let of_row = u128::from_le_bytes(*set);
                let mut sought = tree.look_up(records, measures, version, row, of_row);
                let answer = tree.write(records, places, &mut sought, bytes);
                if answer != ACCEPTED {
                    return (answer, done);
                }
                version = sought.version;
                *set = sought.owners.to_le_bytes();
            }
            (ACCEPTED, rows.len())
        })
    }

    fn delete(records: &mut [u8], tag: u16) -> u8 {
        let Some(measures) = fitting_measures(records) else {
            return UNSOUND;
        };
        with_owners(measures.rows, |owners| {
            let mut tree = Tree::new();
            if !judge(&mut tree, records, owners) {
                return UNSOUND;
            }
            if tag == 0 {
                return ORIGIN;
            }
            let Some(node) = node_of(records, tag) else {
                return NO_VERSION;
            };
            let parting = Parting::of(&tree, tree.rank[node] as usize);
            parting.sort_entries(records, &tree, owners);
            parting.change_tree(records, &tree);
            ACCEPTED
        })
    }

    fn count(records: &[u8]) -> (u8, usize, usize) {
        let mut tree = Tree::new();
        match survey(&mut tree, records, NO_ROW) {
            None => (UNSOUND, 0, 0),
            Some((measures, _)) => {
                let used = measures.rows + taken_entries(records);
                (ACCEPTED, used, tree.snapshots as usize)
            }
        }
    }
}

/// The measures that the records tell, if they are within their limits and the length fits them.
fn fitting_measures(records: &[u8]) -> Option<Measures> {
    let told = Measures::told_by(records)?;
    (told.within_limits() && records.len() == told.records_len()).then_some(told)
}

/// A version's row, looked up in sound records; version and source are ranks.
struct Sought {
    measures: Measures,
    row: usize,
    /// The ranks that have an entry for the row.
    owners: u128,
    version: usize,
    source: usize,
    place: usize,
}

/// The nodes' fields where they lie.
struct Nodes<'a> {
    states: &'a [u8; NODES],
    parents: &'a [u8; NODES],
    tags: &'a [u8; 2 * NODES],
}

impl Nodes<'_> {
    fn of(records: &[u8]) -> Option<Nodes<'_>> {
        Some(Nodes {
            states: records[STATES..].first_chunk()?,
            parents: records[PARENTS..].first_chunk()?,
            tags: records[TAGS..].first_chunk()?,
        })
    }

    fn tag(&self, node: usize) -> u16 {
        number(self.tags, 2 * node)
    }

    /// The living and the ghost nodes, if every state is a state and no empty node has a parent.
    /// Eight nodes are looked at together.
    fn states(&self) -> Option<(u128, u128)> {
        const ONES: u64 = 0x0101_0101_0101_0101;
        // Gathers the lowest bits of eight bytes in one.
        let gather = |word: u64| (word.wrapping_mul(0x0102_0408_1020_4080) >> 56) as u8;
        let (mut living, mut ghosts) = ([0; NODES / 8], [0; NODES / 8]);
        let mut wrong = 0;
        let (states, parents) = (arrays(self.states), arrays(self.parents));
        for (group, (states, parents)) in states.iter().zip(parents).enumerate() {
            let states = u64::from_le_bytes(*states);
            let (alive, ghost) = (states & ONES, states >> 1 & ONES);
            let in_use = (alive | ghost) * 255;
            wrong |= states & !(3 * ONES) | alive & ghost;
            wrong |= u64::from_le_bytes(*parents) & !in_use;
            living[group] = gather(alive);
            ghosts[group] = gather(ghost);
        }
        (wrong == 0).then_some((u128::from_le_bytes(living), u128::from_le_bytes(ghosts)))
    }

    /// Whether there are no more tags above 0 than living snapshots.
    fn tags_are_of(&self, snapshots: u32) -> bool {
        let mut tagged = 0;
        for tag in arrays(self.tags) {
            tagged += (u16::from_ne_bytes(*tag) != 0) as u16;
        }
        tagged as u32 == snapshots
    }

    /// Whether the tags of at most 64 living nodes are above 0 and all different.
    fn tags_differ(&self, living: u128) -> bool {
        let mut slots = [0; 256];
        for node in Members(living) {
            let tag = self.tag(node);
            let mut slot = (tag.wrapping_mul(0x9e37) >> 8) as u8;
            while slots[slot as usize] != 0 && slots[slot as usize] != tag {
                slot = slot.wrapping_add(1);
            }
            if tag == 0 || slots[slot as usize] == tag {
                return false;
            }
            slots[slot as usize] = tag;
        }
        true
    }
}

/// The nodes in use, ranked so that a parent comes before its children; node 0 has rank 0.
struct Tree {
    count: usize,
    /// The node of each rank, the rank of its parent, and the number of its children.
    node: [u8; NODES],
    above: [u8; NODES],
    children: [u8; NODES],
    /// The rank of each node.
    rank: [u8; NODES],
    /// The ranks that are ghosts; all others below `count` are alive.
    ghosts: u128,
    snapshots: u32,
}

/// Judges the records; gives their measures and the ranks that have an entry for the row.
fn survey(tree: &mut Tree, records: &[u8], row: usize) -> Option<(Measures, u128)> {
    let measures = fitting_measures(records)?;
    with_owners(measures.rows, |owners| {
        let sound = judge(tree, records, owners);
        let of_row = owners.get(row).map_or(0, |set| u128::from_le_bytes(*set));
        sound.then_some((measures, of_row))
    })
}

/// Lends an empty set for each row, in no more memory than the rows call for.
fn with_owners<T>(rows: usize, work: impl FnOnce(&mut [Owners]) -> T) -> T {
    match rows {
        0..=16 => work(&mut [[0; NODES / 8]; 16][..rows]),
        17..=64 => work(&mut [[0; NODES / 8]; 64][..rows]),
        65..=256 => work(&mut [[0; NODES / 8]; 256][..rows]),
        _ => work(&mut [[0; NODES / 8]; 1024][..rows]),
    }
}

/// Whether records of a fitting length are sound; fills the tree and each row's owners.
fn judge(tree: &mut Tree, records: &[u8], owners: &mut [Owners]) -> bool {
    tree.fill(records).is_some()
        && tree.scan(records, owners)
        && free_rows_are_0(records)
        && tree.ghosts_are_read(owners)
}

impl Tree {
    fn new() -> Tree {
        Tree {
            count: 1,
            node: [0; NODES],
            above: [0; NODES],
            children: [0; NODES],
            rank: [NO_RANK; NODES],
            ghosts: 0,
            snapshots: 0,
        }
    }

    /// Ranks the nodes, if they meet the rules for states, tags, parents and children.
    fn fill(&mut self, records: &[u8]) -> Option<()> {
        let nodes = Nodes::of(records)?;
        let (living, ghosts) = nodes.states()?;
        self.snapshots = (living & !1).count_ones();
        let fits = living & 1 == 1
            && nodes.parents[0] == 0
            && nodes.tag(0) == 0
            && self.snapshots <= MAX_SNAPSHOTS
            && nodes.tags_are_of(self.snapshots)
            && nodes.tags_differ(living & !1);
        if !fits {
            return None;
        }
        self.rank[0] = 0;
        let mut way = [0; NODES];
        for node in Members((living | ghosts) & !1) {
            self.rank_up(&nodes, node as u8, &mut way)?;
        }
        let one_child = self.children[0] <= 1;
        let ghosts_fit = Members(self.ghosts).all(|ghost| self.children[ghost] >= 2);
        (one_child && ghosts_fit).then_some(())
    }

    /// Ranks a node and those above it that have no rank yet, the highest first.
    fn rank_up(&mut self, nodes: &Nodes, node: u8, way: &mut [u8; NODES]) -> Option<()> {
        let mut len = 0;
        let mut at = node;
        while *self.rank.get(at as usize)? == NO_RANK {
            if nodes.states[at as usize] == EMPTY {
                return None;
            }
            // A way longer than the nodes returns to itself.
            *way.get_mut(len)? = at;
            len += 1;
            at = nodes.parents[at as usize];
        }
        let mut above = self.rank[at as usize];
        for &node in way[..len].iter().rev() {
            above = self.rank_last(node, above);
            if nodes.states[node as usize] == GHOST {
                self.ghosts |= 1 << above;
            }
        }
        Some(())
    }

    /// Ranks a node behind all others; gives its rank.
    fn rank_last(&mut self, node: u8, above: u8) -> u8 {
        let rank = self.count as u8;
        self.node[rank as usize] = node;
        self.above[rank as usize] = above;
        self.children[above as usize] += 1;
        self.rank[node as usize] = rank;
        self.count += 1;
        rank
    }

    /// Finds a row. Read and write test alike: records, lengths, row and tag, in this order.
    fn seek(
        &mut self,
        records: &[u8],
        places_len: usize,
        row_len: usize,
        tag: u16,
        row: usize,
    ) -> Result<Sought, u8> {
        let (measures, owners) = survey(self, records, row).ok_or(UNSOUND)?;
        if places_len != measures.places_len() || row_len != measures.width {
            return Err(LENGTH);
        }
        if row >= measures.rows {
            return Err(ROW);
        }
        let node = node_of(records, tag).ok_or(NO_VERSION)?;
        let version = self.rank[node] as usize;
        Ok(self.look_up(records, measures, version, row, owners))
    }

    /// Looks a row of the store up, for a version of sound records.
    #[inline(always)]
    fn look_up(
        &self,
        records: &[u8],
        measures: Measures,
        version: usize,
        row: usize,
        owners: u128,
    ) -> Sought {
        let source = self.source(version, owners);
        Sought {
            measures,
            row,
            owners,
            version,
            source,
            place: self.place(records, source, row),
        }
    }

    /// Writes a row that was looked up; version and owners are afterwards those to go on with.
    #[inline(always)]
    fn write(
        &mut self,
        records: &mut [u8],
        places: &mut [u8],
        sought: &mut Sought,
        bytes: &[u8],
    ) -> u8 {
        let measures = sought.measures;
        let mut place = sought.place;
        if places[measures.stretch(place)] == *bytes {
            return ACCEPTED;
        }
        if self.readers(sought.source, sought.owners) > 1 {
            let Some(entry) = free_entry(records) else {
                return NO_PLACE;
            };
            let free = measures.rows + entry;
            let owner = if sought.version == 0 {
                // The snapshots that share the origin's row keep its old bytes.
                places.copy_within(measures.stretch(place), free * measures.width);
                ORIGIN_CHILD
            } else {
                place = free;
                sought.version = self.new_owner(records, sought.version, sought.owners);
                sought.version
            };
            put_entry(records, entry, self.node[owner] as usize, sought.row);
            sought.owners |= 1 << owner;
        }
        places[measures.stretch(place)].copy_from_slice(bytes);
        ACCEPTED
    }

    fn living(&self) -> u128 {
        (u128::MAX >> (NODES - self.count)) & !self.ghosts
    }

    /// For each byte that may name a node, the byte and the bit of its rank in a set of owners.
    /// A free entry's bit is none.
    fn slots(&self) -> [u16; 256] {
        let mut slots = [NO_SLOT; 256];
        slots[0] = 0;
        for rank in 1..self.count {
            slots[self.node[rank] as usize] = (rank as u16 >> 3) << 8 | 1 << (rank & 7);
        }
        slots
    }

    /// The pass over the table: every entry's node is in use and its row one of the rows, and no
    /// node has a row twice.
    fn scan(&self, records: &[u8], owners: &mut [Owners]) -> bool {
        let slots = self.slots();
        let (nodes, rows) = table(records);
        let (mut twice, mut all) = (0, 0);
        for (&node, &row) in nodes.iter().zip(rows) {
            let Some(set) = owners.get_mut(u16::from_be_bytes(row) as usize) else {
                return false;
            };
            let slot = slots[node as usize];
            let held = &mut set[(slot >> 8) as usize % (NODES / 8)];
            twice |= *held & slot as u8;
            *held |= slot as u8;
            all |= slot;
        }
        twice == 0 && all < NO_SLOT
    }

    /// Whether a living version reads each ghost's entry; a living node reads its own.
    fn ghosts_are_read(&self, owners: &[Owners]) -> bool {
        if self.ghosts == 0 {
            return true;
        }
        let lines = Lines::of(self);
        let living = self.living();
        owners.iter().all(|set| {
            let owners = u128::from_le_bytes(*set);
            Members(owners & self.ghosts).all(|ghost| lines.read(ghost, owners, living))
        })
    }

    fn origin_child(&self) -> Option<usize> {
        (self.count > ORIGIN_CHILD).then_some(self.node[ORIGIN_CHILD] as usize)
    }

    /// The rank that gives a version its row: the nearest one that owns it, else node 0.
    fn source(&self, version: usize, owners: u128) -> usize {
        let mut rank = version;
        while rank != 0 && !has(owners, rank) {
            rank = self.above[rank] as usize;
        }
        rank
    }

    /// The place in which a source has the row.
    fn place(&self, records: &[u8], source: usize, row: usize) -> usize {
        if source == 0 {
            return row;
        }
        let (nodes, rows) = table(records);
        let wanted = (row as u16).to_be_bytes();
        let mut entry = 0;
        while let Some(next) = find(&rows[entry..], |row| row == wanted) {
            entry += next;
            if nodes[entry] == self.node[source] {
                break;
            }
            entry += 1;
        }
        number(records, ROWS) as usize + entry
    }

    /// How many living versions get their row at a rank or through it.
    fn readers(&self, top: usize, owners: u128) -> usize {
        let mut through = [false; NODES];
        through[top] = true;
        let mut readers = !has(self.ghosts, top) as usize;
        for rank in top + 1..self.count {
            let inherits = !has(owners, rank) & through[self.above[rank] as usize];
            through[rank] = inherits;
            readers += (inherits & !has(self.ghosts, rank)) as usize;
        }
        readers
    }

    /// The rank for a snapshot's new entry: its own, unless versions below it read on through it.
    /// For those the node is kept as a ghost, and the tag passes to a new child.
    fn new_owner(&mut self, records: &mut [u8], version: usize, owners: u128) -> usize {
        if self.readers(version, owners) == 1 {
            return version;
        }
        let node = self.node[version] as usize;
        let child = empty_node(records);
        let tag = number(records, TAGS + 2 * node);
        put_node(records, child, ALIVE, node, tag);
        let parent = records[PARENTS + node] as usize;
        put_node(records, node, GHOST, parent, 0);
        self.ghosts |= 1 << version;
        self.rank_last(child as u8, version as u8) as usize
    }
}

/// Whether every free entry has row 0.
fn free_rows_are_0(records: &[u8]) -> bool {
    let (nodes, rows) = table(records);
    let mut stray = 0;
    for (&node, row) in nodes.iter().zip(rows) {
        stray |= u16::from_ne_bytes(*row) & ((node == 0) as u16).wrapping_neg();
    }
    stray == 0
}

/// For each rank the ranks from it up to node 0, and those from it down; both with itself.
struct Lines {
    up: [u128; NODES],
    down: [u128; NODES],
}

impl Lines {
    fn of(tree: &Tree) -> Lines {
        let mut lines = Lines {
            up: [1; NODES],
            down: [0; NODES],
        };
        for rank in 1..tree.count {
            lines.up[rank] = lines.up[tree.above[rank] as usize] | 1 << rank;
        }
        for rank in (0..tree.count).rev() {
            lines.down[rank] |= 1 << rank;
            lines.down[tree.above[rank] as usize] |= lines.down[rank];
        }
        lines
    }

    /// Whether one of the living reads a rank's entry, where the owners have entries at its row.
    /// Each turn drops all below one topmost owner, so a row takes about as many as it has owners.
    fn read(&self, rank: usize, owners: u128, living: u128) -> bool {
        let lower = owners & !self.up[rank];
        let mut readers = living & self.down[rank];
        while readers != 0 {
            let between = lower & self.up[readers.trailing_zeros() as usize];
            if between == 0 {
                return true;
            }
            readers &= !self.down[between.trailing_zeros() as usize];
        }
        false
    }
}

/// What a version's parting does to the tree, by ranks.
struct Parting {
    version: usize,
    /// The version's node goes, as it has no children.
    leaf: bool,
    /// A node that is taken out, and its one child, which takes over its entries.
    taken_out: Option<(usize, usize)>,
}

impl Parting {
    fn of(tree: &Tree, version: usize) -> Parting {
        let above = tree.above[version] as usize;
        let leaf = tree.children[version] == 0;
        let lone_sibling = leaf && has(tree.ghosts, above) && tree.children[above] == 2;
        let out = match tree.children[version] {
            1 => Some(version),
            _ => lone_sibling.then_some(above),
        };
        let heir = |out: usize| {
            let child = |&rank: &usize| tree.above[rank] as usize == out && rank != version;
            (1..tree.count).find(child).map(|heir| (out, heir))
        };
        Parting {
            version,
            leaf,
            taken_out: out.and_then(heir),
        }
    }

    /// Only entries of the version and of the ghosts right above it can lose their last reader:
    /// a living node further up reads all that the version read there.
    fn touched(&self, tree: &Tree) -> [bool; 256] {
        let mut touched = [false; 256];
        touched[tree.node[self.version] as usize] = true;
        let mut rank = tree.above[self.version] as usize;
        while has(tree.ghosts, rank) {
            touched[tree.node[rank] as usize] = true;
            rank = tree.above[rank] as usize;
        }
        touched
    }

    /// Frees the entries that nobody reads any longer, and passes on those of the node taken out.
    fn sort_entries(&self, records: &mut [u8], tree: &Tree, owners: &[Owners]) {
        // Of a leaf under a living node nothing is read by others.
        let alone = self.leaf && !has(tree.ghosts, tree.above[self.version] as usize);
        let lines = (!alone).then(|| Lines::of(tree));
        let living = tree.living() & !(1 << self.version);
        let touched = self.touched(tree);
        let (nodes, rows) = table_mut(records);
        for (node, row) in nodes.iter_mut().zip(rows) {
            if !touched[*node as usize] {
                continue;
            }
            let rank = tree.rank[*node as usize] as usize;
            let owners = u128::from_le_bytes(owners[u16::from_be_bytes(*row) as usize]);
            let read = |lines: &Lines| lines.read(rank, owners, living);
            if !lines.as_ref().is_some_and(read) {
                (*node, *row) = (0, [0, 0]);
            } else if let Some((_, heir)) = self.taken_out.filter(|&(out, _)| out == rank) {
                *node = tree.node[heir];
            }
        }
    }

    fn change_tree(&self, records: &mut [u8], tree: &Tree) {
        let node = tree.node[self.version] as usize;
        let parent = records[PARENTS + node] as usize;
        if self.leaf {
            put_node(records, node, EMPTY, 0, 0);
        } else {
            put_node(records, node, GHOST, parent, 0);
        }
        if let Some((out, heir)) = self.taken_out {
            let out = tree.node[out] as usize;
            records[PARENTS + tree.node[heir] as usize] = records[PARENTS + out];
            put_node(records, out, EMPTY, 0, 0);
        }
    }
}

/// The members of a set, lowest first.
struct Members(u128);

impl Iterator for Members {
    type Item = usize;

    fn next(&mut self) -> Option<usize> {
        if self.0 == 0 {
            return None;
        }
        let lowest = self.0.trailing_zeros() as usize;
        self.0 &= self.0 - 1;
        Some(lowest)
    }
}

/// Whether a set has a rank.
fn has(set: u128, rank: usize) -> bool {
    let halves = [set as u64, (set >> 64) as u64];
    halves[rank >> 6 & 1] >> (rank & 63) & 1 == 1
}

/// The first item that is wanted. A group is first looked through as a whole, without a branch.
fn find<T: Copy>(items: &[T], wanted: impl Fn(T) -> bool) -> Option<usize> {
    const GROUP: usize = 64;
    for (group, part) in items.chunks(GROUP).enumerate() {
        if part.iter().fold(false, |met, &item| met | wanted(item)) {
            let at = part.iter().position(|&item| wanted(item))?;
            return Some(GROUP * group + at);
        }
    }
    None
}

/// The node that has a tag; in sound records only living nodes have tags above 0.
fn node_of(records: &[u8], tag: u16) -> Option<usize> {
    if tag == 0 {
        return Some(0);
    }
    let tags = arrays(Nodes::of(records)?.tags);
    let wanted = tag.to_be_bytes();
    find(tags, |tag| tag == wanted)
}

/// The first empty node. There is one whenever a node is made: the records are sound afterwards,
/// and have at most two nodes for each of 64 snapshots.
fn empty_node(records: &[u8]) -> usize {
    let empty = |nodes: Nodes| find(nodes.states, |state| state == EMPTY);
    let found = Nodes::of(records).and_then(empty);
    found.expect("an empty node")
}

/// The entries in use, counted in groups that a byte can count.
fn taken_entries(records: &[u8]) -> usize {
    let taken = |group: &[u8]| group.iter().map(|&node| (node != 0) as u8).sum::<u8>();
    let groups = table(records).0.chunks(128);
    groups.map(|group| taken(group) as usize).sum()
}

fn free_entry(records: &[u8]) -> Option<usize> {
    find(table(records).0, |node| node == 0)
}
