//! The crates, each above those that it rests on, with the groups of `crates.txt`.

use super::layers::{self, Layers, What};
use super::list::{Crate, Kind, List};
use super::svg::{name_width, Svg};

const WIDTH: usize = 1000;
const MARGIN: usize = 20;

/// The first level's top, and how far apart levels are. A crate is a box with the number
/// of its group at the left.
const TOP: usize = 66;
const LEVEL: usize = 80;
const BOX: usize = 36;
const NUMBER: usize = 24;
const NAME: usize = 13;

/// How far apart lines leave a crate, and the height of a line of the legend.
const PORT: f64 = 12.0;
const ROW: usize = 22;

/// Pale enough for black text. The numbers tell the groups apart, too.
const TINTS: [&str; 12] = [
    "#dbe9f8", "#fbe3c9", "#e0f0d9", "#f3dcec", "#fdf3bf", "#d8f0ee", "#e6e0f5", "#f9dcd7",
    "#e8eadb", "#d9ddf3", "#efe4d6", "#dff3e6",
];

const STYLES: &str = "\
text { fill: #1a1a1a }
.title { font-size: 16px; font-weight: bold }
.name { font-family: monospace; font-size: 13px; font-weight: bold; text-anchor: middle }
.kind { font-size: 11px; text-anchor: middle }
.number { font-size: 12px; font-weight: bold; text-anchor: middle }
.note { font-size: 12px }
.box { stroke: #333; stroke-width: 1 }
.inner { stroke: #333; stroke-width: 1; fill: none }
.program { stroke: #333; stroke-width: 3 }
.line { fill: none; stroke: #555; stroke-width: 1.3 }
.head { fill: #555 }
";

/// What a kind of crate is called, if it is not just a library.
fn kind_name(kind: Kind) -> Option<&'static str> {
    match kind {
        Kind::Library => None,
        Kind::Static => Some("static library"),
        Kind::Program => Some("program"),
    }
}

fn box_width(name: &str, kind: Kind) -> usize {
    let kind = kind_name(kind).map_or(0, |kind| name_width(kind, 10));
    NUMBER + name_width(name, NAME).max(kind) + 16
}

pub fn draw(list: &List) -> String {
    let crates = list.crates.iter();
    let widths: Vec<f64> = crates
        .clone()
        .map(|one| box_width(&one.name, one.kind) as f64)
        .collect();
    let rests_on: Vec<Vec<usize>> = crates.map(|one| one.rests_on.clone()).collect();
    let layers = layers::lay(&widths, &rests_on, MARGIN as f64, (WIDTH - MARGIN) as f64);
    let levels = layers.spots.iter().map(|spot| spot.level + 1).max();
    let levels = levels.unwrap_or(0);
    let legend = TOP + levels * LEVEL;
    let size = (WIDTH, legend + (list.groups.len() + 1) * ROW + MARGIN);
    let title = "The crates, and what rests on what";
    let mut svg = Svg::new(size, title, STYLES);
    svg.text((MARGIN, 28), "title", title);
    svg.text(
        (MARGIN, 48),
        "note",
        "Lines lead down to what a crate rests on; those that follow from others are left out.",
    );
    let top = |level: usize| TOP + (levels - 1 - level) * LEVEL;
    draw_lines(&mut svg, &layers, &top);
    for spot in &layers.spots {
        if let What::Node(node) = spot.what {
            let middle = spot.x.round() as usize;
            draw_crate(&mut svg, &list.crates[node], (middle, top(spot.level)));
        }
    }
    draw_legend(&mut svg, list, legend);
    svg.finish()
}

/// Each piece from the bottom of a crate, where its pieces stand side by side, or from a
/// bend, to the top of what is below.
fn draw_lines(svg: &mut Svg, layers: &Layers, top: &impl Fn(usize) -> usize) {
    for (i, spot) in layers.spots.iter().enumerate() {
        let bottom = top(spot.level) + BOX;
        let mut below: Vec<f64> = layers
            .pieces
            .iter()
            .filter(|piece| piece.above == i)
            .map(|piece| layers.spots[piece.below].x)
            .collect();
        below.sort_by(f64::total_cmp);
        for (place, x) in below.iter().enumerate() {
            let aside = place as f64 - (below.len() - 1) as f64 / 2.0;
            let from = (spot.x + aside * PORT).round();
            let to = x.round();
            let end = bottom + LEVEL - BOX;
            let middle = bottom + (LEVEL - BOX) / 2;
            svg.path(
                "line",
                &format!("M{from} {bottom} C{from} {middle} {to} {middle} {to} {end}"),
            );
        }
        let x = spot.x.round();
        match spot.what {
            What::Bend(_) => svg.path("line", &format!("M{x} {} V{bottom}", bottom - BOX)),
            What::Node(_) if layers.pieces.iter().any(|piece| piece.below == i) => {
                let tip = top(spot.level);
                svg.path("head", &format!("M{x} {tip} l-4 -8 h8 z"));
            }
            What::Node(_) => {}
        }
    }
}

/// A crate's box, around its middle: the number of its group, its name, and what it is if
/// not just a library.
fn draw_crate(svg: &mut Svg, one: &Crate, (middle, top): (usize, usize)) {
    let width = box_width(&one.name, one.kind);
    draw_box(svg, one.group, one.kind, (middle - width / 2, top), width);
    let name = middle + NUMBER / 2;
    match kind_name(one.kind) {
        None => svg.text((name, top + 22), "name", &one.name),
        Some(kind) => {
            svg.text((name, top + 16), "name", &one.name);
            svg.text((name, top + 29), "kind", kind);
        }
    }
}

/// A static library has a double edge, a program a thick one.
fn draw_box(svg: &mut Svg, group: usize, kind: Kind, (left, top): (usize, usize), width: usize) {
    let tint = TINTS[group % TINTS.len()];
    let class = match kind {
        Kind::Program => "program",
        _ => "box",
    };
    svg.rect(
        (left, top),
        (width, BOX),
        &format!("class=\"{class}\" fill=\"{tint}\""),
    );
    if kind == Kind::Static {
        svg.rect((left + 3, top + 3), (width - 6, BOX - 6), "class=\"inner\"");
    }
    svg.text((left + 14, top + 22), "number", &(group + 1).to_string());
}

/// The groups by their numbers, and what is not drawn.
fn draw_legend(svg: &mut Svg, list: &List, top: usize) {
    for (group, text) in list.groups.iter().enumerate() {
        let y = top + group * ROW;
        let tint = TINTS[group % TINTS.len()];
        svg.rect(
            (MARGIN, y),
            (28, ROW - 4),
            &format!("class=\"box\" fill=\"{tint}\""),
        );
        svg.text((MARGIN + 14, y + 13), "number", &(group + 1).to_string());
        svg.text((MARGIN + 38, y + 13), "note", text);
    }
    let note = format!("Not drawn: the kit's {}.", list.of_the_kit.join(", "));
    svg.text((MARGIN, top + list.groups.len() * ROW + 13), "note", &note);
}
