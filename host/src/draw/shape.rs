//! Points, areas and numbers of a picture, in its own units: x grows to the right, y downwards.

use std::fmt;

/// A number as text with one decimal at the most, so that a picture of many nodes stays a small file.
pub struct Short(pub f64);

impl fmt::Display for Short {
    fn fmt(&self, f: &mut fmt::Formatter<'_>) -> fmt::Result {
        let tenths = (self.0 * 10.0).round() as i64;
        let sign = if tenths < 0 { "-" } else { "" };
        let (whole, rest) = (tenths.abs() / 10, tenths.abs() % 10);
        write!(f, "{sign}{whole}")?;
        if rest != 0 { write!(f, ".{rest}") } else { Ok(()) }
    }
}

/// A whole number with its thousands parted.
pub fn grouped(number: u64) -> String {
    let digits = number.to_string();
    let mut text = String::new();
    for (i, digit) in digits.chars().enumerate() {
        if i > 0 && (digits.len() - i).is_multiple_of(3) {
            text.push(',');
        }
        text.push(digit);
    }
    text
}

pub fn escaped(text: &str) -> String {
    text.replace('&', "&amp;").replace('<', "&lt;").replace('>', "&gt;")
}

/// Written as `x y`, which is how paths and lists of points have it.
#[derive(Clone, Copy, Debug, PartialEq)]
pub struct Point {
    pub x: f64,
    pub y: f64,
}

impl fmt::Display for Point {
    fn fmt(&self, f: &mut fmt::Formatter<'_>) -> fmt::Result {
        write!(f, "{} {}", Short(self.x), Short(self.y))
    }
}

#[derive(Clone, Copy, Debug, PartialEq)]
pub struct Area {
    pub left: f64,
    pub top: f64,
    pub right: f64,
    pub bottom: f64,
}

impl Area {
    pub fn about(middle: Point, half_width: f64, half_height: f64) -> Area {
        Area { left: middle.x - half_width, top: middle.y - half_height, right: middle.x + half_width, bottom: middle.y + half_height }
    }

    pub fn width(&self) -> f64 {
        self.right - self.left
    }

    pub fn height(&self) -> f64 {
        self.bottom - self.top
    }

    pub fn grown(&self, by: f64) -> Area {
        Area { left: self.left - by, top: self.top - by, right: self.right + by, bottom: self.bottom + by }
    }

    pub fn holds(&self, other: &Area) -> bool {
        self.left <= other.left && self.top <= other.top && other.right <= self.right && other.bottom <= self.bottom
    }

    pub fn meets(&self, other: &Area) -> bool {
        self.left <= other.right && other.left <= self.right && self.top <= other.bottom && other.top <= self.bottom
    }

    /// Whether a straight line has a point in the area: their bounds meet, and the corners are not all on one side of the line.
    pub fn meets_line(&self, a: Point, b: Point) -> bool {
        let bounds = Area { left: a.x.min(b.x), top: a.y.min(b.y), right: a.x.max(b.x), bottom: a.y.max(b.y) };
        if !self.meets(&bounds) {
            return false;
        }
        let side = |x: f64, y: f64| (b.x - a.x) * (y - a.y) - (b.y - a.y) * (x - a.x);
        let sides = [side(self.left, self.top), side(self.right, self.top), side(self.left, self.bottom), side(self.right, self.bottom)];
        sides.iter().any(|&s| s >= 0.0) && sides.iter().any(|&s| s <= 0.0)
    }
}

#[cfg(test)]
mod tests {
    use super::*;

    #[test]
    fn numbers_and_text_are_written_short_and_safe() {
        assert_eq!([0.0, -0.04, -0.26, 9.96, 1420.0].map(|x| Short(x).to_string()), ["0", "0", "-0.3", "10", "1420"]);
        assert_eq!([0, 999, 1000, 409_500_000].map(grouped), ["0", "999", "1,000", "409,500,000"]);
        assert_eq!(escaped("<a> & b"), "&lt;a&gt; &amp; b");
    }
}
