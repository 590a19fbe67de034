//! What a store holds, for the eye: the tree of versions, who shares which rows, places, and what each deletion would free.

mod svg;
mod text;

use crate::judge::Records;
use crate::layout::{Measures, NODES};
use std::collections::BTreeMap;

pub use svg::svg;
pub use text::text;

/// A living version.
pub struct Version {
    pub tag: u16,
    pub node: usize,
    /// The place of each row.
    pub reads: Vec<usize>,
    /// The places that nobody else reads; those of the origin are never free.
    pub frees: Vec<usize>,
}

/// A node in use: the origin, a snapshot or a ghost.
pub struct Node {
    /// None for a ghost.
    pub tag: Option<u16>,
    /// The rows that it has of its own, and the place of each.
    pub own: Vec<(usize, usize)>,
    /// The nodes that hang on it.
    pub children: Vec<usize>,
}

pub struct Picture {
    pub measures: Measures,
    pub nodes: BTreeMap<usize, Node>,
    /// By rising tags, so that the origin comes first.
    pub versions: Vec<Version>,
    /// For each place the node whose row it has, and which row; none if it is free.
    pub held: Vec<Option<(usize, usize)>>,
    /// For each place the tags that read it, rising.
    pub readers: Vec<Vec<u16>>,
}

impl Picture {
    /// The picture of sound records.
    pub fn of(records: &Records) -> Picture {
        let measures = records.measures;
        let mut versions = versions_of(records);
        let mut readers = vec![Vec::new(); measures.places];
        for version in &versions {
            for &place in &version.reads {
                readers[place].push(version.tag);
            }
        }
        for version in &mut versions[1..] {
            let alone = |&place: &usize| readers[place] == [version.tag];
            version.frees = version.reads.iter().copied().filter(alone).collect();
            version.frees.sort();
        }
        let nodes = nodes_of(records);
        Picture {
            measures,
            held: held_by(&nodes, measures),
            nodes,
            versions,
            readers,
        }
    }

    /// The version of a node, if it is alive.
    pub fn version_at(&self, node: usize) -> Option<&Version> {
        self.versions.iter().find(|version| version.node == node)
    }

    pub fn free_places(&self) -> Vec<usize> {
        let free = |&place: &usize| self.held[place].is_none();
        (0..self.measures.places).filter(free).collect()
    }

    pub fn ghosts(&self) -> usize {
        self.nodes.len() - self.versions.len()
    }

    /// Rows that the same versions share, with these versions' tags in groups: each group reads one place.
    pub fn sharing(&self) -> Vec<(Vec<usize>, Vec<Vec<u16>>)> {
        let mut kinds: Vec<(Vec<usize>, Vec<Vec<u16>>)> = Vec::new();
        let mut known = BTreeMap::new();
        for row in 0..self.measures.rows {
            let groups = self.groups(row);
            let kind = *known.entry(groups.clone()).or_insert(kinds.len());
            if kind == kinds.len() {
                kinds.push((Vec::new(), groups));
            }
            kinds[kind].0.push(row);
        }
        kinds
    }

    /// The tags that read a row, those of one place together; in the order of their lowest tags.
    fn groups(&self, row: usize) -> Vec<Vec<u16>> {
        let mut groups: Vec<Vec<u16>> = Vec::new();
        let mut group_of = BTreeMap::new();
        for version in &self.versions {
            let group = *group_of.entry(version.reads[row]).or_insert(groups.len());
            if group == groups.len() {
                groups.push(Vec::new());
            }
            groups[group].push(version.tag);
        }
        groups
    }
}

/// The living versions by rising tags, with the places that they read.
fn versions_of(records: &Records) -> Vec<Version> {
    let version = |tag: u16| {
        let place = |row| records.place_of(tag, row).expect("a place for every row");
        Version {
            tag,
            node: records.node_of(tag).expect("a living version's node"),
            reads: (0..records.measures.rows).map(place).collect(),
            frees: Vec::new(),
        }
    };
    let mut tags = records.tags();
    tags.sort();
    tags.into_iter().map(version).collect()
}

/// What each place holds: the origin's rows first, then own rows of other nodes.
fn held_by(nodes: &BTreeMap<usize, Node>, measures: Measures) -> Vec<Option<(usize, usize)>> {
    let mut held: Vec<_> = (0..measures.rows).map(|row| Some((0, row))).collect();
    held.resize(measures.places, None);
    for (&n, node) in nodes {
        for &(row, place) in &node.own {
            held[place] = Some((n, row));
        }
    }
    held
}

fn nodes_of(records: &Records) -> BTreeMap<usize, Node> {
    let node = |n: usize| Node {
        tag: (!records.is_ghost(n)).then(|| records.tag(n)),
        own: records.own_rows(n),
        children: (1..NODES)
            .filter(|&m| records.in_use(m) && records.parent(m) == n)
            .collect(),
    };
    let used = (0..NODES).filter(|&n| records.in_use(n));
    used.map(|n| (n, node(n))).collect()
}

/// "7, 9 to 12": numbers that rise, three or more in a row by the first and the last.
pub fn ranges(numbers: impl IntoIterator<Item = usize>) -> String {
    let mut runs: Vec<(usize, usize)> = Vec::new();
    for number in numbers {
        match runs.last_mut() {
            Some((_, last)) if *last + 1 == number => *last = number,
            _ => runs.push((number, number)),
        }
    }
    let run = |&(first, last): &(usize, usize)| match last - first {
        0 => format!("{first}"),
        1 => format!("{first}, {last}"),
        _ => format!("{first} to {last}"),
    };
    runs.iter().map(run).collect::<Vec<_>>().join(", ")
}

/// "3 places", "1 place".
pub fn number_of(count: usize, thing: &str) -> String {
    let plural = if count == 1 { "" } else { "s" };
    format!("{count} {thing}{plural}")
}
