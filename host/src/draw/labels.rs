//! Numbers beside nodes, set where they lie on nothing.

use super::shape::{Area, Point};

/// The size of a digit in parts of its font's size: no common sans-serif font, bold or not, has wider or higher ones.
const DIGIT_WIDTH: f64 = 0.72;
const DIGIT_HEIGHT: f64 = 0.74;

/// Room between a label and a road, and between a label and anything else; a way is drawn wider than a road.
const OFF_ROADS: f64 = 4.5;
const OFF_OTHERS: f64 = 2.0;

/// A label is tried at these distances from its node, and at each in these directions, those that read best first. Above and beneath it begins or ends
/// nearly over the node's middle, so that it is not taken for a neighbour's.
const DISTANCES: [f64; 4] = [2.5, 6.0, 11.0, 17.0];
const DIRECTIONS: [(f64, f64); 8] = [(1.0, -1.0), (-1.0, -1.0), (1.0, 1.0), (-1.0, 1.0), (1.0, 0.0), (-1.0, 0.0), (0.0, -1.0), (0.0, 1.0)];
const ASIDE: f64 = 0.4;

/// What labels must not meet, and where they must be.
pub struct Room {
    pub map: Area,
    pub roads: Vec<(Point, Point)>,
    /// Dots, marks, and the labels that stand.
    pub taken: Vec<Area>,
}

impl Room {
    fn is_free(&self, area: &Area) -> bool {
        let (off_roads, off_others) = (area.grown(OFF_ROADS), area.grown(OFF_OTHERS));
        self.map.holds(&off_others)
            && !self.taken.iter().any(|t| off_others.meets(t))
            && !self.roads.iter().any(|&(a, b)| off_roads.meets_line(a, b))
    }

    /// Takes the first free position for a text beside what is drawn about `p` with this half side, and answers the middle of the text's foot.
    pub fn place(&mut self, text: &str, size: f64, p: Point, half: f64) -> Option<Point> {
        let (half_width, half_height) = (DIGIT_WIDTH * size * text.len() as f64 / 2.0, DIGIT_HEIGHT * size / 2.0);
        let positions = DISTANCES.iter().flat_map(|off| DIRECTIONS.iter().map(move |d| (off, d)));
        let mut middles = positions.map(|(off, d)| {
            let aside = if d.1 == 0.0 { half } else { ASIDE * half };
            Point { x: p.x + d.0 * (aside + off + half_width), y: p.y + d.1 * (half + off + half_height) }
        });
        let middle = middles.find(|&middle| self.is_free(&Area::about(middle, half_width, half_height)))?;
        self.taken.push(Area::about(middle, half_width, half_height));
        Some(Point { x: middle.x, y: middle.y + half_height })
    }
}
