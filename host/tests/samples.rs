//! Samples with their roads in random order: how many there are, where they lead, and that they are a network; and samples with wide junctions.

mod common;

use common::reference;
use jukesogbi::files::{Edge, Network};
use jukesogbi::sample;
use std::collections::HashMap;

/// How many roads lead between each two places.
fn pairs(edges: &[Edge]) -> HashMap<(u16, u16), usize> {
    let mut counts = HashMap::new();
    edges.iter().for_each(|e| *counts.entry((e.first, e.second)).or_default() += 1);
    counts
}

/// The roads that `base` does not have. All of its own are there.
fn further(net: &Network, base: &Network) -> Vec<Edge> {
    let mut edges = net.edges.clone();
    for edge in &base.edges {
        let at = edges.iter().position(|e| e == edge).expect("each road of the sample is there");
        edges.swap_remove(at);
    }
    edges
}

fn metres(net: &Network, e: &Edge) -> f64 {
    let ((ax, ay), (bx, by)) = (net.nodes[e.first as usize], net.nodes[e.second as usize]);
    ((ax - bx) as f64).hypot((ay - by) as f64)
}

/// The places and roads of the sample, and others of a like speed between near places, in another order than by their ends.
fn check(n: usize, roads: usize) -> Network {
    let (net, base) = (sample::unordered(n, roads, 3), sample::network(n, 3));
    assert_eq!((&net.nodes, net.edges.len()), (&base.nodes, if n == 1 { 0 } else { roads.max(base.edges.len()) }), "{n} places, {roads} roads");
    for e in further(&net, &base) {
        let (metres, seconds) = (metres(&net, &e), e.seconds as f64);
        assert!(metres <= 4_000.0 && metres / seconds >= 9.0 && metres / (seconds + 1.0) < 22.1, "{e:?} of {metres} metres");
    }
    assert!(roads < 20 || !net.edges.is_sorted_by_key(|e| e.first));
    assert!(reference::Network::of(net.to_bytes()).map().is_some(), "{n} places, {roads} roads: refused");
    assert_eq!(net, sample::unordered(n, roads, 3));
    net
}

#[test]
fn between_different_places() {
    for (n, roads) in [(30, 60), (257, 720), (1_024, 0), (1_024, 1_434), (1_024, 4_096), (4_096, 16_384)] {
        assert!(pairs(&check(n, roads).edges).into_values().all(|count| count == 1), "{n} places, {roads} roads");
    }
}

/// More roads than pairs: each has as many as the others, or one more.
#[test]
fn side_by_side() {
    for (n, roads) in [(1, 9), (2, 1), (2, 8), (3, 12), (5, 20), (5, 16_384)] {
        let counts: Vec<usize> = pairs(&check(n, roads).edges).into_values().collect();
        let (least, most) = (counts.iter().min().unwrap_or(&0), counts.iter().max().unwrap_or(&0));
        assert!(most - least <= 1, "{n} places, {roads} roads: {counts:?}");
    }
}

/// Two of five places are halves of junctions, joined by roads of no time; all else is as in a sample, and in one piece.
#[test]
fn wide_junctions() {
    for n in [1, 2, 4, 5, 9, 10, 60, 1_024] {
        let net = sample::junctions(n, 4);
        let (halves, base) = (n / 5, sample::network(n - n / 5, 4));
        assert_eq!((net.nodes.len(), net.edges.len()), (n, base.edges.len() + halves), "{n} places");
        let none: Vec<&Edge> = net.edges.iter().filter(|e| e.seconds == 0).collect();
        assert!(none.len() == halves && none.iter().all(|e| metres(&net, e) <= 20.0), "{n} places");
        let network = reference::Network::of(net.to_bytes());
        assert!((0..n).all(|t| network.map().unwrap().d(0, t).is_some()), "{n} places");
        assert_eq!(net, sample::junctions(n, 4));
    }
}
