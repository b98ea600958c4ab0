//! Pictures to read back: oracles, sheets and questions that they are drawn of.

use crate::common::networks::{between, Plan};
use crate::picture::Picture;
use jukesogbi::sample::Random;
use jukesogbi::sheet::{self, Line};
use jukesogbi::{core, draw, files, form};
use std::collections::BTreeSet;

pub fn way(oracle: &[u8], sheet: Option<&[u8]>, s: u32, t: u32) -> Vec<u16> {
    let (mut work, mut out) = (vec![0; files::words_needed(oracle)], vec![0; 2 * files::node_count(oracle)]);
    let nodes = match sheet {
        Some(sheet) => core::way_under(oracle, sheet, s, t, &mut work, &mut out),
        None => core::way(oracle, s, t, &mut work, &mut out),
    };
    files::numbers(&out[..2 * nodes.unwrap()])
}

/// Closures and delays of up to a fifth of the roads, many of them of the road of the line before.
pub fn random_sheet(oracle: &[u8], random: &mut Random) -> Vec<u8> {
    let edges = files::network(oracle).edges;
    let mut road = 0;
    let mut line = |k: usize| {
        if k == 0 || !random.once_in(3) {
            road = random.below(edges.len() as u64) as u16;
        }
        let most = (form::MAX_SECONDS - edges[road as usize].seconds).min(900) as u64;
        if random.once_in(2) { Line::Closed(road) } else { Line::Delayed(road, random.below(most + 1) as u32) }
    };
    sheet::of((0..edges.len().div_ceil(5)).map(&mut line))
}

/// As a picture tells numbers.
fn tenth(number: f64) -> f64 {
    (number * 10.0).round() / 10.0
}

/// An oracle, perhaps a sheet, what was asked, and the picture.
pub struct Case {
    pub oracle: Vec<u8>,
    pub sheet: Option<Vec<u8>>,
    pub asked: Option<(u32, u32)>,
    pub way: Vec<u16>,
    pub picture: Picture,
}

impl Case {
    pub fn new(oracle: Vec<u8>, asked: Option<(u32, u32)>) -> Case {
        Case::under(oracle, None, asked)
    }

    pub fn under(oracle: Vec<u8>, sheet: Option<Vec<u8>>, asked: Option<(u32, u32)>) -> Case {
        let way = asked.map_or(Vec::new(), |(s, t)| way(&oracle, sheet.as_deref(), s, t));
        let picture = Picture::of(&draw::svg(&oracle, sheet.as_deref(), asked, &way));
        Case { oracle, sheet, asked, way, picture }
    }

    /// With a start and an end, mostly, and with a sheet now and then.
    pub fn random(oracle: Vec<u8>, random: &mut Random) -> Case {
        let n = files::node_count(&oracle) as u64;
        let asked = (random.below(n) as u32, random.below(n) as u32);
        let sheet = random.once_in(2).then(|| random_sheet(&oracle, random));
        Case::under(oracle, sheet, if random.once_in(8) { None } else { Some(asked) })
    }

    /// Where each place is drawn: transit places and others are drawn apart, each in their order.
    pub fn points(&self) -> Vec<(f64, f64)> {
        let transit: BTreeSet<u16> = files::transit_nodes(&self.oracle).into_iter().collect();
        let (mut plain, mut chosen) = (self.picture.circles("places").into_iter(), self.picture.circles("transit").into_iter());
        let points: Vec<_> = (0..files::node_count(&self.oracle) as u16)
            .map(|v| if transit.contains(&v) { chosen.next() } else { plain.next() }.expect("each place is drawn"))
            .map(|c| (tenth((c.left + c.right) / 2.0), tenth((c.top + c.bottom) / 2.0)))
            .collect();
        assert!(plain.next().is_none() && chosen.next().is_none(), "more dots than places");
        points
    }

    pub fn point(&self, v: u32) -> (f64, f64) {
        self.points()[v as usize]
    }
}

/// Places anywhere in a rectangle, and so many roads between any two, which cross at will.
pub fn tangle(n: usize, roads: usize, random: &mut Random) -> Plan {
    let (wide, high) = (between(random, 1, 20_000), between(random, 1, 20_000));
    let places = (0..n).map(|_| (between(random, -wide, wide) as i32, between(random, -high, high) as i32)).collect();
    let ends = (0..if n > 1 { roads } else { 0 }).map(|_| {
        let a = random.below(n as u64);
        let b = (a + 1 + random.below(n as u64 - 1)) % n as u64;
        (a as u16, b as u16, between(random, 1, 900) as u32)
    });
    let roads = ends.collect();
    Plan { places, roads }
}
