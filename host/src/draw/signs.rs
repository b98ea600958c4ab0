//! The signs of the map, which the legend shows as well.

use super::shape::{escaped, Point, Short};
use std::fmt::Write;

pub const INK: &str = "#22262c";
pub const START: &str = "#0f7a55";
pub const END: &str = "#a3195b";

/// The marks at the start and the end, whatever the number of nodes. Where both are at one node the square one is seen behind the round one.
pub const START_RADIUS: f64 = 13.0;
pub const END_HALF: f64 = 15.0;
pub const WAY_WIDTH: f64 = 6.0;

/// Sizes that follow the numbers of nodes and edges, within what can be seen.
pub struct Sizes {
    pub node: f64,
    pub transit: f64,
    pub edge: f64,
}

impl Sizes {
    pub fn of(nodes: usize, edges: usize) -> Sizes {
        let share = |number: usize| 1.0 / (number.max(1) as f64).sqrt();
        Sizes {
            node: (40.0 * share(nodes)).clamp(1.6, 5.0),
            transit: (60.0 * share(nodes)).clamp(3.0, 7.0),
            edge: (18.0 * share(edges)).clamp(1.0, 2.2),
        }
    }
}

/// Straight lines as one path: much shorter than an element for each.
pub fn lines(style: &str, width: f64, lines: impl IntoIterator<Item = (Point, Point)>) -> String {
    let mut d = String::new();
    for (a, b) in lines {
        let _ = write!(d, "M{a}L{b}");
    }
    format!("<path {style} stroke-width=\"{}\" fill=\"none\" d=\"{d}\"/>", Short(width))
}

pub fn grid(lines_of_it: impl IntoIterator<Item = (Point, Point)>) -> String {
    lines(r##"class="grid" stroke="#bfd0e6""##, 1.0, lines_of_it)
}

pub fn open_roads(sizes: &Sizes, roads: impl IntoIterator<Item = (Point, Point)>) -> String {
    lines(r##"class="open" stroke="#868c96" stroke-linecap="round""##, sizes.edge, roads)
}

/// Closed by a sheet: dotted, and with a colour of their own.
pub fn shut_roads(sizes: &Sizes, roads: impl IntoIterator<Item = (Point, Point)>) -> String {
    lines(r##"class="shut" stroke="#d02020" stroke-dasharray="1 6" stroke-linecap="round""##, sizes.edge + 1.6, roads)
}

/// Wider than the way, so that they are seen beneath it, and no wider than the room that numbers leave for roads.
pub fn delayed_roads(roads: impl IntoIterator<Item = (Point, Point)>) -> String {
    lines(r##"class="delayed" stroke="#f2b33d" stroke-linecap="round""##, WAY_WIDTH + 2.8, roads)
}

pub fn way(points: &[Point]) -> String {
    let list: Vec<String> = points.iter().map(Point::to_string).collect();
    let style = r##"class="way" fill="none" stroke="#2f7fe0" stroke-linejoin="round" stroke-linecap="round""##;
    format!("<polyline {style} stroke-width=\"{}\" points=\"{}\"/>", Short(WAY_WIDTH), list.join(" "))
}

fn dots(style: &str, radius: f64, points: impl IntoIterator<Item = Point>) -> String {
    let mut s = format!("<g {style}>");
    for p in points {
        let _ = write!(s, "<circle cx=\"{}\" cy=\"{}\" r=\"{}\"/>", Short(p.x), Short(p.y), Short(radius));
    }
    s + "</g>"
}

pub fn nodes(sizes: &Sizes, points: impl IntoIterator<Item = Point>) -> String {
    dots(r##"class="places" fill="#3a3f47""##, sizes.node, points)
}

pub fn transit_nodes(sizes: &Sizes, points: impl IntoIterator<Item = Point>) -> String {
    dots(r##"class="transit" fill="#f59a0c" stroke="#6b4300""##, sizes.transit, points)
}

/// Text from `p` on, or about it, by `style`.
pub fn text(p: Point, size: f64, style: &str, content: &str) -> String {
    format!("<text x=\"{}\" y=\"{}\" font-size=\"{}\" {style}>{}</text>", Short(p.x), Short(p.y), Short(size), escaped(content))
}

fn letter(p: Point, content: &str) -> String {
    let style = r##"fill="#fff" font-weight="bold" text-anchor="middle""##;
    text(Point { x: p.x, y: p.y + 6.0 }, 17.0, style, content)
}

const OUTLINE: &str = r##"stroke="#fff" stroke-width="2.5""##;

pub fn start(p: Point) -> String {
    let circle = format!("<circle cx=\"{}\" cy=\"{}\" r=\"{}\" fill=\"{START}\" {OUTLINE}/>", Short(p.x), Short(p.y), Short(START_RADIUS));
    format!("<g class=\"start\">{circle}{}</g>", letter(p, "S"))
}

pub fn end(p: Point) -> String {
    let (x, y, side) = (Short(p.x - END_HALF), Short(p.y - END_HALF), Short(2.0 * END_HALF));
    let square = format!("<rect x=\"{x}\" y=\"{y}\" width=\"{side}\" height=\"{side}\" fill=\"{END}\" {OUTLINE}/>");
    format!("<g class=\"end\">{square}{}</g>", letter(p, "T"))
}
