//! The picture in the terminal.

use super::{number_of, ranges, Node, Picture};
use crate::layout::{MAX_SNAPSHOTS, NODES};
use std::fmt::Write;

/// The most bytes of a row that are shown.
const SHOWN: usize = 16;

/// The whole picture; with the places, these too, one to a line.
pub fn text(picture: &Picture, places: Option<&[u8]>) -> String {
    let mut out = summary(picture);
    out += "\nversions, each below the one that it reads from\n";
    out += &tree(picture);
    out += "\nrows, and who shares them\n";
    out += &sharing(picture);
    if let Some(bytes) = places {
        out += "\nplaces\n";
        out += &place_lines(picture, bytes);
    }
    out
}

fn summary(picture: &Picture) -> String {
    let measures = picture.measures;
    let free = picture.free_places();
    let used = measures.places - free.len();
    let free = match &free[..] {
        [] => "none free".to_string(),
        _ => format!("free: {}", ranges(free)),
    };
    let rows = number_of(measures.rows, "row");
    let width = number_of(measures.width, "byte");
    format!(
        "{rows} of {width}; places in use: {used} of {}, {free}\n\
         snapshots: {} of {MAX_SNAPSHOTS}; nodes in use: {} of {NODES}, ghosts among them: {}\n",
        measures.places,
        picture.versions.len() - 1,
        picture.nodes.len(),
        picture.ghosts(),
    )
}

/// "tag 7 (node 3)".
fn label(number: usize, node: &Node) -> String {
    match node.tag {
        Some(0) => format!("origin (node {number})"),
        Some(tag) => format!("tag {tag} (node {number})"),
        None => format!("ghost (node {number})"),
    }
}

/// A line for each node. One that hangs alone stands right below; others are branches.
fn tree(picture: &Picture) -> String {
    let mut lines = Vec::new();
    branch(picture, 0, "", "", &mut lines);
    let widest = lines.iter().map(|(drawn, _)| drawn.chars().count()).max();
    let widest = widest.unwrap_or(0);
    let mut out = String::new();
    for (drawn, number) in lines {
        let said = node_words(picture, number);
        let _ = writeln!(out, "{}", format!("{drawn:<widest$}  {said}").trim_end());
    }
    out
}

/// Draws a node behind `lead` and what hangs on it behind `rest`.
fn branch(
    picture: &Picture,
    number: usize,
    lead: &str,
    rest: &str,
    lines: &mut Vec<(String, usize)>,
) {
    let node = &picture.nodes[&number];
    lines.push((format!("{lead}{}", label(number, node)), number));
    match &node.children[..] {
        [] => {}
        &[child] => branch(picture, child, rest, rest, lines),
        [children @ .., last] => {
            for &child in children {
                let (lead, rest) = (format!("{rest}├─ "), format!("{rest}│  "));
                branch(picture, child, &lead, &rest, lines);
            }
            let (lead, rest) = (format!("{rest}└─ "), format!("{rest}   "));
            branch(picture, *last, &lead, &rest, lines);
        }
    }
}

/// A node's own rows, and what its version's deletion would free.
fn node_words(picture: &Picture, number: usize) -> String {
    if number == 0 {
        return String::new();
    }
    let own = &picture.nodes[&number].own;
    let rows = match own.len() {
        0 => "no own rows".to_string(),
        1 => format!("own row {}", own[0].0),
        _ => format!("own rows {}", ranges(own.iter().map(|&(row, _)| row))),
    };
    match picture.version_at(number) {
        None => rows,
        Some(version) => format!("{rows}; its deletion frees {}", freed(&version.frees)),
    }
}

fn freed(places: &[usize]) -> String {
    match places.len() {
        0 => "nothing".to_string(),
        count => {
            let places = ranges(places.iter().copied());
            format!("{}: {places}", number_of(count, "place"))
        }
    }
}

fn tags(tags: &[u16]) -> String {
    ranges(tags.iter().map(|&tag| tag.into()))
}

/// A line for each kind of row: the rows, then the tags, a bar between those that read different places.
fn sharing(picture: &Picture) -> String {
    let mut out = String::new();
    for (rows, groups) in picture.sharing() {
        let name = if rows.len() == 1 { "row" } else { "rows" };
        let groups: Vec<String> = groups.iter().map(|group| tags(group)).collect();
        let _ = writeln!(out, "{name} {}: {}", ranges(rows), groups.join(" | "));
    }
    out
}

/// A line for each place: whose row it is, the first bytes, and who reads it.
fn place_lines(picture: &Picture, bytes: &[u8]) -> String {
    let mut out = String::new();
    let digits = (picture.held.len() - 1).to_string().len();
    for (place, held) in picture.held.iter().enumerate() {
        let words = match held {
            None => "free".to_string(),
            Some((number, row)) => {
                let owner = label(*number, &picture.nodes[number]);
                let shown = hexadecimal(&bytes[picture.measures.stretch(place)]);
                let readers = tags(&picture.readers[place]);
                format!("{shown}  row {row} of {owner}, read by {readers}")
            }
        };
        let _ = writeln!(out, "{place:>digits$}: {words}");
    }
    out
}

/// The first bytes, two digits each.
fn hexadecimal(bytes: &[u8]) -> String {
    let shown = bytes.len().min(SHOWN);
    let digits: String = bytes[..shown].iter().map(|b| format!("{b:02x}")).collect();
    match bytes.len() - shown {
        0 => digits,
        _ => digits + "..",
    }
}
