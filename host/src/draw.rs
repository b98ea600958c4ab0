//! A picture of an oracle: nodes, edges, grid lines, transit nodes, and a way if asked; with a day sheet also what that does.

mod frame;
mod labels;
mod legend;
mod roads;
mod shape;
mod signs;

use crate::files::{self, Network};
use crate::sheet;
use frame::{Frame, MARGIN};
use labels::Room;
use roads::{Ends, Roads};
use shape::{Area, Point, Short};
use signs::{Sizes, END, END_HALF, INK, START, START_RADIUS};

/// With so many nodes or fewer each has its number beside it.
const MOST_NUMBERED: usize = 150;
const NUMBER_SIZE: f64 = 14.0;
const END_NUMBER_SIZE: f64 = 20.0;

/// What is drawn.
struct Drawing<'a> {
    net: Network,
    g: u32,
    transit: Vec<u16>,
    roads: Roads,
    /// Whether there is a sheet.
    today: bool,
    asked: Option<(u32, u32)>,
    way: &'a [u16],
    frame: Frame,
    sizes: Sizes,
}

/// The picture of an oracle that the core has accepted, and perhaps a sheet that it has accepted beside it. `asked` is the start and the end of a way,
/// which are nodes of it, and `way` is the core's answer.
pub fn svg(oracle: &[u8], sheet: Option<&[u8]>, asked: Option<(u32, u32)>, way: &[u16]) -> String {
    let drawing = Drawing::of(oracle, sheet, asked, way);
    let map = drawing.frame.map;
    let (legend, bottom) = legend::beneath(&map, &drawing.legend());
    let (width, height) = (Short(map.right + MARGIN), Short(bottom + MARGIN));
    let edge = format!("x=\"{}\" y=\"{}\" width=\"{}\" height=\"{}\"", Short(map.left), Short(map.top), Short(map.width()), Short(map.height()));
    [
        format!("<svg xmlns=\"http://www.w3.org/2000/svg\" viewBox=\"0 0 {width} {height}\" font-family=\"DejaVu Sans, Arial, sans-serif\">"),
        format!("<rect width=\"{width}\" height=\"{height}\" fill=\"#f6f6f2\"/>"),
        format!("<rect class=\"map\" {edge} fill=\"#fff\" stroke=\"#b9bec6\"/>"),
        drawing.ground(),
        drawing.numbers(),
        legend,
        drawing.marks(),
        "</svg>\n".to_string(),
    ]
    .join("\n")
}

impl<'a> Drawing<'a> {
    fn of(oracle: &[u8], sheet: Option<&[u8]>, asked: Option<(u32, u32)>, way: &'a [u16]) -> Drawing<'a> {
        let net = files::network(oracle);
        let roads = Roads::of(&net, &sheet.map_or_else(|| net.edges.iter().copied().map(Some).collect(), |sheet| sheet::applied(&net, sheet)));
        let (frame, sizes) = (Frame::over(&net.nodes), Sizes::of(net.nodes.len(), net.edges.len()));
        let (g, transit) = (files::grid_number(oracle), files::transit_nodes(oracle));
        Drawing { g, transit, net, roads, today: sheet.is_some(), asked, way, frame, sizes }
    }

    fn at(&self, v: u16) -> Point {
        let (x, y) = self.net.nodes[v as usize];
        self.frame.at(x as f64, y as f64)
    }

    fn line(&self, ends: &Ends) -> (Point, Point) {
        (self.at(ends.0), self.at(ends.1))
    }

    fn lines<'b>(&self, all: impl IntoIterator<Item = &'b Ends>) -> Vec<(Point, Point)> {
        all.into_iter().map(|ends| self.line(ends)).collect()
    }

    /// The nodes that are transit nodes, or those that are not.
    fn points(&self, transit: bool) -> impl Iterator<Item = Point> + '_ {
        let nodes = 0..self.net.nodes.len() as u16;
        nodes.filter(move |v| self.transit.binary_search(v).is_ok() == transit).map(|v| self.at(v))
    }

    /// Half the side of what is drawn at a node, marks left aside.
    fn half(&self, v: u16) -> f64 {
        if self.transit.binary_search(&v).is_ok() { self.sizes.transit } else { self.sizes.node }
    }

    /// Roads closed today lie over open ones, so that both show where they join the same nodes. Delayed ones lie beneath, and show at both sides of the others.
    fn ground(&self) -> String {
        let mut layers = vec![signs::grid(self.frame.grid_lines(self.g))];
        if self.today {
            layers.push(signs::delayed_roads(self.lines(&self.roads.delayed.lines)));
        }
        layers.push(signs::open_roads(&self.sizes, self.lines(self.roads.open.keys())));
        if self.today {
            layers.push(signs::shut_roads(&self.sizes, self.lines(&self.roads.shut.lines)));
        }
        if self.way.len() > 1 {
            layers.push(signs::way(&self.way.iter().map(|&v| self.at(v)).collect::<Vec<_>>()));
        }
        layers.push(signs::nodes(&self.sizes, self.points(false)));
        layers.push(signs::transit_nodes(&self.sizes, self.points(true)));
        layers.join("\n")
    }

    /// The start and the end, with half the sides of their marks and their colours; one of them where they are one node.
    fn ends(&self) -> Vec<(u16, f64, &'static str)> {
        let (start, end) = (|s| (s as u16, START_RADIUS, START), |t| (t as u16, END_HALF, END));
        match self.asked {
            Some((s, t)) if s != t => vec![start(s), end(t)],
            Some((_, t)) => vec![end(t)],
            None => Vec::new(),
        }
    }

    /// The room for numbers, with the nodes, the marks and the roads in it.
    fn room(&self) -> Room {
        let dot = |v: u16| Area::about(self.at(v), self.half(v), self.half(v));
        let marks = self.ends().into_iter().map(|(v, half, _)| Area::about(self.at(v), half, half));
        Room {
            map: self.frame.map,
            roads: self.lines(self.roads.lines()),
            taken: (0..self.net.nodes.len() as u16).map(dot).chain(marks).collect(),
        }
    }

    /// Numbers beside the start and the end, and beside the other nodes if they are few. The legend has the former in any case.
    fn numbers(&self) -> String {
        let (mut room, ends) = (self.room(), self.ends());
        let mut s = String::from("<g class=\"numbers\" text-anchor=\"middle\">");
        let mut number = |v: u16, half: f64, size: f64, style: &str| {
            let text = v.to_string();
            s.extend(room.place(&text, size, self.at(v), half).map(|foot| signs::text(foot, size, style, &text)));
        };
        for &(v, half, colour) in &ends {
            number(v, half, END_NUMBER_SIZE, &format!("fill=\"{colour}\" font-weight=\"bold\""));
        }
        if self.net.nodes.len() <= MOST_NUMBERED {
            for v in (0..self.net.nodes.len() as u16).filter(|v| ends.iter().all(|end| end.0 != *v)) {
                number(v, self.half(v), NUMBER_SIZE, &format!("fill=\"{INK}\""));
            }
        }
        s + "</g>"
    }

    /// Over all else.
    fn marks(&self) -> String {
        self.asked.map_or(String::new(), |(s, t)| signs::end(self.at(t as u16)) + &signs::start(self.at(s as u16)))
    }

    fn legend(&self) -> Vec<Vec<legend::Item>> {
        let mut ground = vec![
            legend::nodes(&self.sizes, self.net.nodes.len()),
            legend::transit_nodes(&self.sizes, self.transit.len()),
            legend::open_roads(&self.sizes, self.roads.open_count),
        ];
        if self.today {
            ground.extend([legend::shut_roads(&self.sizes, self.roads.shut.count), legend::delayed_roads(self.roads.delayed.count)]);
        }
        ground.extend([legend::grid(self.g), legend::scale(self.frame.scale)]);
        let Some((s, t)) = self.asked else { return vec![ground] };
        let mut asked = vec![legend::start(s), legend::end(t)];
        if self.way.is_empty() {
            asked.push(legend::no_way());
        } else {
            asked.extend(legend::way(self.way.len(), self.roads.total(self.way)));
        }
        vec![ground, asked]
    }
}
