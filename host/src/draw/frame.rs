//! Where the ground lies in the picture.

use super::shape::{Area, Point};

/// The longer side of the ground, and the least sides: a row, a column or a single node is shown with some of the grid.
const LONGER: f64 = 1420.0;
const LEAST_WIDTH: f64 = 460.0;
const LEAST_HEIGHT: f64 = 120.0;

/// Room between the nodes and the map's edge, and about the map.
const PAD: f64 = 50.0;
pub const MARGIN: f64 = 40.0;

pub struct Frame {
    /// The least x and y of the nodes, where the grid begins, and s of document 01, "Cells and the places chosen".
    left: f64,
    bottom: f64,
    spread: f64,
    /// Units of the picture in a metre.
    pub scale: f64,
    pub map: Area,
}

impl Frame {
    /// The nodes fill the map's longer side, and the other side follows.
    pub fn over(nodes: &[(i32, i32)]) -> Frame {
        let ends = |of: fn(&(i32, i32)) -> i32| {
            let (least, most) = (nodes.iter().map(of).min().unwrap_or(0), nodes.iter().map(of).max().unwrap_or(0));
            (least as f64, most as f64)
        };
        let ((left, right), (bottom, top)) = (ends(|n| n.0), ends(|n| n.1));
        let spread = (right - left).max(top - bottom);
        let scale = LONGER / spread.max(1.0);
        let width = ((right - left) * scale).max(LEAST_WIDTH) + 2.0 * PAD;
        let height = ((top - bottom) * scale).max(LEAST_HEIGHT) + 2.0 * PAD;
        let map = Area { left: MARGIN, top: MARGIN, right: MARGIN + width, bottom: MARGIN + height };
        Frame { left, bottom, spread, scale, map }
    }

    /// North is up.
    pub fn at(&self, x: f64, y: f64) -> Point {
        Point { x: self.map.left + PAD + (x - self.left) * self.scale, y: self.map.bottom - PAD - (y - self.bottom) * self.scale }
    }

    /// The lines at which cells part, as far as they lie in the map: column k begins at least x + k × (s + 1) / g, and rows likewise.
    pub fn grid_lines(&self, g: u32) -> Vec<(Point, Point)> {
        let part = |k: u32| {
            let from = k as f64 * (self.spread + 1.0) / g as f64;
            self.at(self.left + from, self.bottom + from)
        };
        let (map, low, high) = (self.map, part(0), part(g));
        let (right, top) = (high.x.min(map.right), high.y.max(map.top));
        let mut lines = Vec::new();
        for p in (0..=g).map(part) {
            if p.x <= map.right {
                lines.push((Point { x: p.x, y: low.y }, Point { x: p.x, y: top }));
            }
            if p.y >= map.top {
                lines.push((Point { x: low.x, y: p.y }, Point { x: right, y: p.y }));
            }
        }
        lines
    }
}
