//! Document 02's day sheets by hand: the stored trials, worked out on paper, and those that the checker computes by the definitions. Each goes through the
//! core's safe functions, by the call that checks and over an opened oracle, and through the reference.

mod common;

use common::computed::computed;
use common::networks;
use common::program::oracle;
use common::reference::sheets::{sheet, Under, CLOSED, DELAYED};
use common::reference::Questions;
use common::sheets::Line;
use common::stored::{self, lines_text, oracle_of, printed, way_text, Told, Trial};
use jukesogbi::core::{self, Answer, Refused};
use jukesogbi::oracle::Oracle;
use jukesogbi::{files, text};
use std::collections::BTreeMap;

/// Time and way under these lines, by the call that checks and over an opened oracle, which must say the same.
fn ask(o: &[u8], lines: &[Line], (s, t): (u32, u32)) -> (Result<Answer, Refused>, Result<Vec<u16>, Refused>) {
    let (sheet, n) = (sheet(lines), files::node_count(o));
    let (mut work, mut out, mut beside) = (vec![0; 8 * n], vec![0; 2 * n], vec![0; 2 * n]);
    let mut opened = Oracle::open(o).unwrap();
    let (time, nodes) = (core::time_under(o, &sheet, s, t, &mut work), core::way_under(o, &sheet, s, t, &mut work, &mut out));
    assert_eq!((opened.time_under(&sheet, s, t), opened.way_under(&sheet, s, t, &mut beside)), (time, nodes));
    assert_eq!(out, beside);
    (time, nodes.map(|nodes| files::numbers(&out[..2 * nodes])))
}

fn by_core(o: &[u8], trial: &Trial) -> Told {
    let (time, way) = ask(o, &trial.lines, trial.pair);
    let time = printed(time.map(|a| text::answer(&a)).map_err(|refused| refused.0));
    trial.part(time, printed(way.map(|places| way_text(&places)).map_err(|refused| refused.0)))
}

fn run(trials: &[Trial]) {
    let oracles: BTreeMap<&str, Questions> = trials.iter().map(|trial| (trial.network.as_str(), Questions::of(oracle_of(&trial.network)))).collect();
    for trial in trials {
        let questions = &oracles[trial.network.as_str()];
        let at = format!("{}: {} | {} | {:?}", trial.table, trial.network, lines_text(&trial.lines), trial.pair);
        assert_eq!(by_core(&questions.bytes, trial), trial.told, "{at}, by the core");
        assert_eq!(trial.by_reference(&Under::of(questions, sheet(&trial.lines))), trial.told, "{at}, by the reference");
    }
}

#[test]
fn the_stored_trials() {
    let trials = stored::trials();
    assert!(trials.len() > 100, "{} trials", trials.len());
    run(&trials);
}

/// The compiled core gives what the definitions compute.
#[test]
fn the_trials_of_the_definitions() {
    let computed = computed();
    println!("{} trials, {} rows of other forms", computed.trials.len(), computed.others.len());
    assert!(computed.trials.len() > 40 && computed.trials.iter().any(|trial| trial.told.way.is_some()), "{} trials", computed.trials.len());
    run(&computed.trials);
}

/// Numbers of no road, over all their bytes.
#[test]
fn no_such_road() {
    let line = oracle(&networks::line(), 6);
    for road in [2, 3, 255, 256, 257, 16_383, 16_384, u16::MAX] {
        for lines in [
            &[(CLOSED, road, 0)][..],
            &[(DELAYED, road, 0)],
            &[(CLOSED, 0, 0), (DELAYED, road, u32::MAX), (CLOSED, 1, 0)],
            &[(DELAYED, 0, u32::MAX), (CLOSED, road, 0)],
            &[(CLOSED, road, 0), (DELAYED, road, 0)],
            &[(CLOSED, 0, 0), (DELAYED, 0, u32::MAX), (DELAYED, road, 0)],
        ] {
            assert_eq!(ask(&line, lines, (0, 2)), (Err(Refused(19)), Err(Refused(19))), "{lines:?}");
        }
    }
}
