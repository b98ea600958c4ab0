//! The legend beneath the map: its signs, how many there are of each, the way's total, and the scale.

use super::shape::{grouped, Area, Point, Short};
use super::signs::{self, Sizes, END_HALF, INK, START_RADIUS};

const TEXT_SIZE: f64 = 18.0;
const LINE_HEIGHT: f64 = 38.0;

/// Between a sign and its text, and between items.
const SIGN_GAP: f64 = 9.0;
const ITEM_GAP: f64 = 32.0;

/// How long a line stands for roads and the way, and how long the scale may be.
const SAMPLE: f64 = 44.0;
const LONGEST_SCALE: f64 = 200.0;

/// A sign drawn from x 0 on, about y 0, and its text.
pub struct Item {
    sign: String,
    sign_width: f64,
    text: String,
}

impl Item {
    fn new(sign: String, sign_width: f64, text: String) -> Item {
        Item { sign, sign_width, text }
    }

    fn width(&self) -> f64 {
        // In parts of the font's size, as in the wider ones of common sans-serif fonts.
        let letters = self.text.chars().map(|c| if " ,:()lijtfr".contains(c) { 0.37 } else { 0.62 });
        self.text_at() + TEXT_SIZE * letters.sum::<f64>()
    }

    fn text_at(&self) -> f64 {
        if self.sign_width > 0.0 { self.sign_width + SIGN_GAP } else { 0.0 }
    }

    fn drawn(&self, x: f64, y: f64) -> String {
        let text = signs::text(Point { x: self.text_at(), y: TEXT_SIZE * 0.35 }, TEXT_SIZE, &format!("fill=\"{INK}\""), &self.text);
        format!("<g transform=\"translate({} {})\">{}{text}</g>\n", Short(x), Short(y), self.sign)
    }
}

/// So many of something.
fn count(number: usize, what: &str) -> String {
    format!("{} {what}{}", grouped(number as u64), if number == 1 { "" } else { "s" })
}

fn sample_line() -> [(Point, Point); 1] {
    [(Point { x: 0.0, y: 0.0 }, Point { x: SAMPLE, y: 0.0 })]
}

pub fn nodes(sizes: &Sizes, number: usize) -> Item {
    Item::new(signs::nodes(sizes, [Point { x: sizes.node, y: 0.0 }]), 2.0 * sizes.node, count(number, "place"))
}

pub fn transit_nodes(sizes: &Sizes, number: usize) -> Item {
    Item::new(signs::transit_nodes(sizes, [Point { x: sizes.transit, y: 0.0 }]), 2.0 * sizes.transit, count(number, "transit place"))
}

pub fn open_roads(sizes: &Sizes, number: usize) -> Item {
    Item::new(signs::open_roads(sizes, sample_line()), SAMPLE, count(number, "open road"))
}

pub fn shut_roads(sizes: &Sizes, number: usize) -> Item {
    Item::new(signs::shut_roads(sizes, sample_line()), SAMPLE, format!("today: {}", count(number, "closed road")))
}

pub fn delayed_roads(number: usize) -> Item {
    Item::new(signs::delayed_roads(sample_line()), SAMPLE, format!("today: {}", count(number, "delayed road")))
}

pub fn grid(g: u32) -> Item {
    let (low, high) = (4.0, 16.0);
    let lines = [low, high].into_iter().flat_map(|at| {
        let (across, down) = (at - 10.0, at);
        [(Point { x: 0.0, y: across }, Point { x: 20.0, y: across }), (Point { x: down, y: -10.0 }, Point { x: down, y: 10.0 })]
    });
    Item::new(signs::grid(lines), 20.0, format!("grid {g} × {g}"))
}

/// The longest of 1, 2 and 5 times a power of ten that is short enough, in metres. Tenths of a metre serve the smallest ground.
pub fn scale(units: f64) -> Item {
    let tenths = (0..).flat_map(|power| [1, 2, 5].map(|k| k * 10u64.pow(power)));
    let length = |tenths: u64| tenths as f64 / 10.0 * units;
    let tenths = tenths.take_while(|&t| length(t) <= LONGEST_SCALE).last().unwrap_or(1);
    let text = if tenths < 10 { format!("0.{tenths} m") } else { format!("{} m", grouped(tenths / 10)) };
    let (end, bar) = (length(tenths), |x, y, to_x, to_y| (Point { x, y }, Point { x: to_x, y: to_y }));
    let lines = [bar(0.0, 0.0, end, 0.0), bar(0.0, -6.0, 0.0, 6.0), bar(end, -6.0, end, 6.0)];
    Item::new(signs::lines(&format!("class=\"scale\" stroke=\"{INK}\""), 2.0, lines), end, text)
}

pub fn start(number: u32) -> Item {
    Item::new(signs::start(Point { x: START_RADIUS, y: 0.0 }), 2.0 * START_RADIUS, format!("start: place {number}"))
}

pub fn end(number: u32) -> Item {
    Item::new(signs::end(Point { x: END_HALF, y: 0.0 }), 2.0 * END_HALF, format!("end: place {number}"))
}

/// The way with its places and roads, and its total, in seconds and as hours, minutes and seconds.
pub fn way(nodes: usize, seconds: u64) -> [Item; 2] {
    let sign = signs::way(&sample_line().map(|(a, b)| [a, b]).concat());
    let clock = format!("{}:{:02}:{:02}", seconds / 3600, seconds / 60 % 60, seconds % 60);
    let total = format!("total {} s ({clock})", grouped(seconds));
    let passed = format!("way of {}, {}", count(nodes, "place"), count(nodes - 1, "road"));
    [Item::new(sign, SAMPLE, passed), Item::new(String::new(), 0.0, total)]
}

pub fn no_way() -> Item {
    Item::new(String::new(), 0.0, "no way between them".to_string())
}

/// Each group of items begins a line, and takes as many lines as it needs. Answers also where the last line ends.
pub fn beneath(map: &Area, groups: &[Vec<Item>]) -> (String, f64) {
    let mut s = String::new();
    let mut y = map.bottom + LINE_HEIGHT * 0.2;
    for group in groups {
        y += LINE_HEIGHT;
        let mut x = map.left;
        for item in group {
            if x > map.left && x + item.width() > map.right {
                (x, y) = (map.left, y + LINE_HEIGHT);
            }
            s += &item.drawn(x, y);
            x += item.width() + ITEM_GAP;
        }
    }
    (s, y)
}
