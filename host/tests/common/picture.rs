//! Reads a picture back from its text, with nothing of the module that drew it.

/// The widest and highest digits of common sans-serif fonts, in parts of the font's size (DejaVu Sans Bold).
const DIGIT: (f64, f64) = (0.696, 0.729);

/// The width of a letter, over a text.
const LETTER: f64 = 0.6;

pub type Point = (f64, f64);

#[derive(Clone, Copy, Debug)]
pub struct Bounds {
    pub left: f64,
    pub top: f64,
    pub right: f64,
    pub bottom: f64,
}

/// Up to the last decimal that a picture has.
impl PartialEq for Bounds {
    fn eq(&self, other: &Bounds) -> bool {
        let sides = |b: &Bounds| [b.left, b.top, b.right, b.bottom];
        sides(self).iter().zip(sides(other)).all(|(a, b)| (a - b).abs() < 0.15)
    }
}

impl Bounds {
    pub fn about(x: f64, y: f64, half: f64) -> Bounds {
        Bounds { left: x - half, top: y - half, right: x + half, bottom: y + half }
    }

    pub fn grown(&self, by: f64) -> Bounds {
        Bounds { left: self.left - by, top: self.top - by, right: self.right + by, bottom: self.bottom + by }
    }

    pub fn holds(&self, other: &Bounds) -> bool {
        self.left <= other.left && other.right <= self.right && self.top <= other.top && other.bottom <= self.bottom
    }

    pub fn overlaps(&self, other: &Bounds) -> bool {
        self.left < other.right && other.left < self.right && self.top < other.bottom && other.top < self.bottom
    }

    /// Whether a straight line comes inside: the part of it between the left and right sides, and then between top and bottom.
    pub fn meets(&self, (a, b): (Point, Point)) -> bool {
        let (mut from, mut to) = (0.0f64, 1.0f64);
        for (start, end, low, high) in [(a.0, b.0, self.left, self.right), (a.1, b.1, self.top, self.bottom)] {
            let step = end - start;
            if step == 0.0 {
                if start < low || start > high {
                    return false;
                }
                continue;
            }
            let (first, second) = ((low - start) / step, (high - start) / step);
            (from, to) = (from.max(first.min(second)), to.min(first.max(second)));
        }
        from <= to
    }
}

type Attributes = Vec<(String, String)>;

#[derive(Debug)]
struct Element {
    name: String,
    /// Its own attributes and those of the groups that it is in, the inner first.
    attributes: Attributes,
    text: String,
}

impl Element {
    fn get(&self, name: &str) -> Option<&str> {
        self.attributes.iter().find(|(n, _)| n == name).map(|(_, value)| value.as_str())
    }

    fn number(&self, name: &str) -> f64 {
        self.get(name).and_then(|v| v.parse().ok()).unwrap_or_else(|| panic!("{self:?} has no number {name}"))
    }

    /// Of the map, since the legend's items are moved to their places.
    fn in_map(&self) -> bool {
        self.get("transform").is_none()
    }
}

pub struct Picture {
    elements: Vec<Element>,
}

fn attributes(tag: &str) -> Attributes {
    let parts: Vec<&str> = tag.split('"').collect();
    let pairs = parts.chunks_exact(2).map(|p| (p[0].trim().trim_end_matches('=').to_string(), p[1].to_string()));
    pairs.map(|(name, value)| (name.rsplit(' ').next().unwrap().to_string(), value)).collect()
}

fn numbers(text: &str) -> Vec<f64> {
    text.split(|c: char| !c.is_ascii_digit() && c != '.' && c != '-').filter(|t| !t.is_empty()).map(|t| t.parse().unwrap()).collect()
}

/// Numbers have one decimal at the most, and text has nothing that a reader would take for a tag.
fn check(element: &Element) {
    for (name, value) in element.attributes.iter().filter(|(name, _)| name != "xmlns") {
        let long = value.split(|c: char| !c.is_ascii_digit() && c != '.').any(|t| t.split_once('.').is_some_and(|(_, rest)| rest.len() > 1));
        assert!(!long, "{name} is {value}");
    }
    assert!(!element.text.contains(['>', '&']), "{element:?}");
}

impl Picture {
    /// Each tag is closed in its order.
    pub fn of(text: &str) -> Picture {
        let mut open: Vec<(String, Attributes)> = Vec::new();
        let mut elements: Vec<Element> = Vec::new();
        for part in text.split('<').skip(1) {
            let (tag, rest) = part.split_once('>').expect("a tag ends");
            if let Some(name) = tag.strip_prefix('/') {
                assert_eq!(open.pop().map(|(name, _)| name).as_deref(), Some(name));
                continue;
            }
            let name = tag.split([' ', '/']).next().unwrap().to_string();
            let inner = attributes(tag);
            let outer = open.iter().rev().flat_map(|(_, outer)| outer.clone());
            let element = Element { name: name.clone(), attributes: inner.iter().cloned().chain(outer).collect(), text: rest.trim_end().to_string() };
            check(&element);
            elements.push(element);
            if !tag.ends_with('/') {
                open.push((name, inner));
            }
        }
        assert!(open.is_empty() && elements[0].name == "svg");
        Picture { elements }
    }

    fn in_map<'a>(&'a self, name: &'a str, class: &'a str) -> impl Iterator<Item = &'a Element> {
        self.elements.iter().filter(move |e| e.name == name && e.get("class") == Some(class) && e.in_map())
    }

    /// Width and height.
    pub fn size(&self) -> Point {
        let ends = numbers(self.elements[0].get("viewBox").unwrap());
        (ends[2], ends[3])
    }

    pub fn circles(&self, class: &str) -> Vec<Bounds> {
        self.in_map("circle", class).map(|e| Bounds::about(e.number("cx"), e.number("cy"), e.number("r"))).collect()
    }

    pub fn squares(&self, class: &str) -> Vec<Bounds> {
        let bounds = |e: &Element| {
            let (left, top) = (e.number("x"), e.number("y"));
            Bounds { left, top, right: left + e.number("width"), bottom: top + e.number("height") }
        };
        self.in_map("rect", class).map(bounds).collect()
    }

    pub fn map(&self) -> Bounds {
        self.squares("map")[0]
    }

    /// Straight lines, each with half its width.
    pub fn lines(&self, class: &str) -> Vec<((Point, Point), f64)> {
        let mut lines = Vec::new();
        for e in self.in_map("path", class) {
            let ends = numbers(&e.get("d").unwrap().replace(['M', 'L'], " "));
            lines.extend(ends.chunks_exact(4).map(|l| (((l[0], l[1]), (l[2], l[3])), e.number("stroke-width") / 2.0)));
        }
        for e in self.in_map("polyline", class) {
            let points: Vec<Point> = numbers(e.get("points").unwrap()).chunks_exact(2).map(|p| (p[0], p[1])).collect();
            lines.extend(points.windows(2).map(|w| ((w[0], w[1]), e.number("stroke-width") / 2.0)));
        }
        lines
    }

    pub fn is_dashed(&self, class: &str) -> bool {
        self.in_map("path", class).all(|e| e.get("stroke-dasharray").is_some())
    }

    /// The numbers beside places.
    pub fn numbers(&self) -> Vec<(String, Bounds)> {
        let bounds = |e: &Element| {
            let (half, height) = (DIGIT.0 * e.number("font-size") * e.text.len() as f64 / 2.0, DIGIT.1 * e.number("font-size"));
            assert_eq!(e.get("text-anchor"), Some("middle"));
            Bounds { left: e.number("x") - half, top: e.number("y") - height, right: e.number("x") + half, bottom: e.number("y") }
        };
        self.in_map("text", "numbers").map(|e| (e.text.clone(), bounds(e))).collect()
    }

    /// The classes of the last elements, groups left out.
    pub fn last_classes(&self, number: usize) -> Vec<&str> {
        let classes: Vec<&str> = self.elements.iter().filter(|e| e.name != "g").map(|e| e.get("class").unwrap_or("")).collect();
        classes[classes.len() - number..].to_vec()
    }

    fn items(&self) -> impl Iterator<Item = &Element> {
        self.elements.iter().filter(|e| e.name == "text" && !e.in_map())
    }

    fn legend(&self) -> impl Iterator<Item = &str> {
        self.items().map(|e| e.text.as_str())
    }

    /// The right ends and the feet of the legend's texts.
    pub fn legend_ends(&self) -> Vec<Point> {
        let end = |e: &Element| {
            let moved = numbers(e.get("transform").unwrap().trim_start_matches("translate"));
            (moved[0] + e.number("x") + LETTER * e.number("font-size") * e.text.chars().count() as f64, moved[1] + e.number("y"))
        };
        self.items().map(end).collect()
    }

    pub fn says(&self, text: &str) -> bool {
        self.legend().any(|t| t == text)
    }

    /// The seconds that the legend tells.
    pub fn total(&self) -> Option<u64> {
        let text = self.legend().find_map(|t| t.strip_prefix("total "))?;
        text.split_once(" s ").and_then(|(seconds, _)| seconds.replace(',', "").parse().ok())
    }

    /// The length of the scale in the picture, and the metres that it stands for.
    pub fn scale(&self) -> (f64, f64) {
        let bar = self.elements.iter().find(|e| e.get("class") == Some("scale")).expect("there is a scale");
        let ends = numbers(&bar.get("d").unwrap().replace(['M', 'L'], " "));
        let text = self.legend().find_map(|t| t.strip_suffix(" m")).expect("the scale is told");
        (ends[2] - ends[0], text.replace(',', "").parse().unwrap())
    }
}
