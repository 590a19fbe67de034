//! The picture as SVG: the tree, a strip of rows for each version, and the places.

use super::{number_of, ranges, Picture};

use std::collections::BTreeMap;
use std::fmt::Write;

/// The margin around all, and the space between the parts.
const MARGIN: usize = 24;
/// A line of text.
const LINE: usize = 18;
/// A node's box, and the steps from one to the next.
const BOX: (usize, usize) = (104, 40);
const STEP: (usize, usize) = (120, 64);
/// A version's name in front of its strip, the strip's height, and the most that its rows take.
const NAME: usize = 72;
const STRIP: usize = 16;
const ROWS_WIDTH: usize = 1024;
const WIDEST_ROW: usize = 24;
/// A place's square, and how many stand side by side.
const SQUARE: usize = 14;
const SIDE_BY_SIDE: usize = 64;

const FREE: &str = "#ffffff";
const ORIGIN: &str = "#d8d8d8";

/// The whole picture. What has one colour in a column of the strips is read from one place.
pub fn svg(picture: &Picture) -> String {
    let mut canvas = Canvas::default();
    canvas.heading(&format!(
        "{} of {}; {} in use, {} free; {}",
        number_of(picture.measures.rows, "row"),
        number_of(picture.measures.width, "byte"),
        number_of(
            picture.measures.places - picture.free_places().len(),
            "place"
        ),
        picture.free_places().len(),
        number_of(picture.versions.len() - 1, "snapshot"),
    ));
    draw_tree(picture, &mut canvas);
    canvas.heading(
        "rows: one colour in a column is one place, in the colour of the node that has it",
    );
    draw_strips(picture, &mut canvas);
    canvas.heading("places, each in the colour of the node whose row it has; white ones are free");
    draw_places(picture, &mut canvas);
    canvas.ended()
}

/// What is drawn so far, and how far it reaches.
#[derive(Default)]
struct Canvas {
    body: String,
    width: usize,
    height: usize,
}

impl Canvas {
    /// A line of text below all that is there.
    fn heading(&mut self, words: &str) {
        let y = self.height + MARGIN + LINE;
        self.text(MARGIN, y, words, "");
        self.height = y + LINE / 2;
        self.width = self.width.max(MARGIN + 7 * words.len());
    }

    fn text(&mut self, x: usize, y: usize, words: &str, more: &str) {
        let _ = writeln!(self.body, r#"<text x="{x}" y="{y}"{more}>{words}</text>"#);
    }

    /// A box whose title shows where the pointer rests on it.
    fn rect(
        &mut self,
        at: (usize, usize),
        size: (usize, usize),
        fill: &str,
        more: &str,
        title: &str,
    ) {
        let ((x, y), (width, height)) = (at, size);
        let _ = writeln!(
            self.body,
            r#"<rect x="{x}" y="{y}" width="{width}" height="{height}" fill="{fill}"{more}><title>{title}</title></rect>"#
        );
        self.width = self.width.max(x + width);
        self.height = self.height.max(y + height);
    }

    fn line(&mut self, from: (usize, usize), to: (usize, usize)) {
        let ((x1, y1), (x2, y2)) = (from, to);
        let _ = writeln!(self.body, r#"<path d="M{x1} {y1}L{x2} {y2}"/>"#);
    }

    fn ended(self) -> String {
        let (width, height) = (self.width + MARGIN, self.height + MARGIN);
        format!(
            r##"<svg xmlns="http://www.w3.org/2000/svg" width="{width}" height="{height}" viewBox="0 0 {width} {height}" font-family="sans-serif" font-size="13" stroke="none">
<rect width="{width}" height="{height}" fill="#fcfcfc"/>
<g>
{}</g>
</svg>
"##,
            self.body.replace("<path ", r##"<path stroke="#404040" "##)
        )
    }
}

/// The colour of a node's rows: another one for each node.
fn colour(node: usize) -> String {
    if node == 0 {
        return ORIGIN.to_string();
    }
    // Hues that are a golden section apart, and three shades in turn.
    let hue = (node as f64 * 0.618_034).fract() * 6.0;
    let (light, strong) = [(0.97, 0.40), (0.88, 0.45), (0.93, 0.25)][node % 3];
    let channel = |shift: f64| {
        let k = (shift + hue) % 6.0;
        let value = light - light * strong * k.min(4.0 - k).clamp(0.0, 1.0);
        (value * 255.0).round() as u8
    };
    format!(
        "#{:02x}{:02x}{:02x}",
        channel(5.0),
        channel(3.0),
        channel(1.0)
    )
}

/// Where each node stands: leaves side by side, and a node above the middle of what hangs on it.
fn positions(picture: &Picture) -> BTreeMap<usize, (usize, usize)> {
    let mut at = BTreeMap::new();
    let mut leaves = 0;
    place_node(picture, 0, 0, &mut leaves, &mut at);
    at
}

fn place_node(
    picture: &Picture,
    number: usize,
    depth: usize,
    leaves: &mut usize,
    at: &mut BTreeMap<usize, (usize, usize)>,
) {
    let children = &picture.nodes[&number].children;
    for &child in children {
        place_node(picture, child, depth + 1, leaves, at);
    }
    let x = match (children.first(), children.last()) {
        (Some(first), Some(last)) => (at[first].0 + at[last].0) / 2,
        _ => {
            *leaves += 1;
            (*leaves - 1) * STEP.0
        }
    };
    at.insert(number, (x, depth * STEP.1));
}

fn draw_tree(picture: &Picture, canvas: &mut Canvas) {
    let top = canvas.height + MARGIN / 2;
    let at: BTreeMap<usize, (usize, usize)> = positions(picture)
        .into_iter()
        .map(|(number, (x, y))| (number, (MARGIN + x, top + y)))
        .collect();
    let middle = |(x, y): (usize, usize), down: usize| (x + BOX.0 / 2, y + down);
    for (number, node) in &picture.nodes {
        for child in &node.children {
            canvas.line(middle(at[number], BOX.1), middle(at[child], 0));
        }
    }
    for &number in picture.nodes.keys() {
        draw_node(picture, number, at[&number], canvas);
    }
}

fn draw_node(picture: &Picture, number: usize, at: (usize, usize), canvas: &mut Canvas) {
    let node = &picture.nodes[&number];
    let (name, outline) = match node.tag {
        Some(0) => ("origin".to_string(), ""),
        Some(tag) => (format!("tag {tag}"), ""),
        None => ("ghost".to_string(), r#" stroke-dasharray="4 3""#),
    };
    let own = ranges(node.own.iter().map(|&(row, _)| row));
    let frees = picture.version_at(number).map(|version| &version.frees);
    let mut title = format!("{name}, node {number}; own rows: {}", or_none(own));
    let mut said = format!("own {}", node.own.len());
    if let (Some(places), false) = (frees, number == 0) {
        let freed = or_none(ranges(places.iter().copied()));
        let _ = write!(title, "; its deletion frees places: {freed}");
        let _ = write!(said, ", frees {}", places.len());
    }
    let more = format!(r##" rx="6" stroke="#404040"{outline}"##);
    canvas.rect(at, BOX, &colour(number), &more, &title);
    let centre = at.0 + BOX.0 / 2;
    canvas.text(centre, at.1 + 17, &name, r#" text-anchor="middle""#);
    if number != 0 {
        let small = r#" text-anchor="middle" font-size="10""#;
        canvas.text(centre, at.1 + 32, &said, small);
    }
}

fn or_none(words: String) -> String {
    match words.is_empty() {
        true => "none".to_string(),
        false => words,
    }
}

/// A strip for each version: its rows from left to right, in the colours of the nodes that have them.
fn draw_strips(picture: &Picture, canvas: &mut Canvas) {
    let column = (ROWS_WIDTH / picture.measures.rows).clamp(1, WIDEST_ROW);
    let (left, y) = (MARGIN + NAME, canvas.height + 12);
    canvas.text(left, y, "0", r#" font-size="10""#);
    if picture.measures.rows > 1 {
        let right = left + picture.measures.rows * column;
        let last = (picture.measures.rows - 1).to_string();
        canvas.text(right, y, &last, r#" font-size="10" text-anchor="end""#);
    }
    canvas.height += LINE;
    for version in &picture.versions {
        let y = canvas.height + 4;
        let name = match version.tag {
            0 => "origin".to_string(),
            tag => format!("tag {tag}"),
        };
        canvas.text(MARGIN, y + STRIP - 4, &name, "");
        let owner = |row: usize| picture.held[version.reads[row]].map_or(0, |(node, _)| node);
        let mut first = 0;
        for row in 1..=picture.measures.rows {
            if row < picture.measures.rows && owner(row) == owner(first) {
                continue;
            }
            let node = owner(first);
            let at = (left + first * column, y);
            let size = ((row - first) * column, STRIP);
            let title = format!("{name}, rows {} of node {node}", ranges(first..row));
            canvas.rect(at, size, &colour(node), "", &title);
            first = row;
        }
    }
}

fn draw_places(picture: &Picture, canvas: &mut Canvas) {
    let top = canvas.height + MARGIN / 4;
    for (place, held) in picture.held.iter().enumerate() {
        let at = (
            MARGIN + place % SIDE_BY_SIDE * SQUARE,
            top + place / SIDE_BY_SIDE * SQUARE,
        );
        let (fill, title) = match held {
            None => (FREE.to_string(), format!("place {place} is free")),
            Some((node, row)) => {
                let readers = ranges(picture.readers[place].iter().map(|&tag| tag.into()));
                let title = format!("place {place}: row {row} of node {node}, read by {readers}");
                (colour(*node), title)
            }
        };
        let more = r##" stroke="#808080" stroke-width="0.5""##;
        canvas.rect(at, (SQUARE, SQUARE), &fill, more, &title);
    }
}

#[cfg(test)]
mod tests {
    use super::*;
    use crate::layout::NODES;
    use std::collections::BTreeSet;

    #[test]
    fn every_node_has_a_colour_of_its_own() {
        let colours: BTreeSet<String> = (0..NODES).map(colour).collect();
        assert_eq!(colours.len(), NODES);
        assert!(!colours.contains(FREE));
    }
}
