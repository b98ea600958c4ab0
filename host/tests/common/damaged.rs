//! Oracles that are refused.

use super::networks;
use super::program::oracle;
use super::reference;
use super::tables::Tables;

/// Fork's oracle, damaged so that it breaks each of rules 1 to 7, 21 and 8 to 11 and none before it: the rule and the bytes. Those with closed roads break
/// later rules as well.
pub fn forks() -> Vec<(u32, Vec<u8>)> {
    let good = oracle(&networks::fork(), 6);
    let bodies: Vec<Vec<u8>> = (1..=7).map(|kind| reference::body(&good, kind).to_vec()).collect();
    let changed = |change: &dyn Fn(&mut Vec<Vec<u8>>)| {
        let mut bodies = bodies.clone();
        change(&mut bodies);
        reference::file(&bodies)
    };
    vec![
        (1, Vec::new()),
        (1, good[1..].to_vec()),
        (1, Tables::of(&good, 5).edition_1(networks::fork().bodies(), 6)),
        (2, [&good[..], &[0]].concat()),
        (3, changed(&|b| b[0].clear())),
        (4, changed(&|b| b[0][3] = 0x7f)),
        (5, changed(&|b| b[1].push(0))),
        (6, changed(&|b| b[1][0] = 5)),
        (7, changed(&|b| b[2] = vec![5, 0])),
        (21, networks::fork_closed().oracle(6)),
        (21, changed(&|b| (b[2], b[3]) = (vec![0, 0, 4, 0], vec![65, 0]))),
        (8, changed(&|b| b[3][0] = 65)),
        (9, changed(&|b| b[4][0] = 5)),
        (10, changed(&|b| b[5][0] = 0)),
        (11, changed(&|b| b[6].push(0))),
    ]
}
