//! The trials under day sheets that the checker computes by the definitions, read from their table in crates/sheet_demands.

use super::reference::number_16;
use super::reference::sheets::{CLOSED, DELAYED};
use super::sheets::Line;
use super::stored::{way_text, Told, Trial};
use std::collections::BTreeMap;

const FILE: &str = include_str!("../../../crates/sheet_demands/specs/SheetTrials.antt");

pub struct Computed {
    pub trials: Vec<Trial>,
    /// Rows of other forms: without lines of their own, over an oracle that was never built, or with too little memory.
    pub others: Vec<String>,
}

pub fn computed() -> Computed {
    let (_, table) = FILE.split_once("\ntrials =\n").expect("the file has the table");
    let (table, _) = table.split_once("\npub trials_hold").expect("the table has an end");
    let text: Vec<&str> = table.lines().map(|line| line.split_once("--").map_or(line, |(code, _)| code).trim()).collect();
    let (oracles, rows) = oracles(text.join(" ").trim().to_string());
    let mut found = Computed { trials: Vec::new(), others: Vec::new() };
    for row in listed(&rows) {
        match trial(&oracles, row) {
            Some(trial) => found.trials.push(trial),
            None => found.others.push(row.to_string()),
        }
    }
    found
}

/// The oracles that the table names, each with the name of its network here, and the text behind them.
fn oracles(mut text: String) -> (BTreeMap<String, &'static str>, String) {
    let mut oracles = BTreeMap::new();
    while let Some(named) = text.strip_prefix("let ") {
        let (binding, rest) = named.split_once(" in ").expect("`let` has its `in`");
        let (name, oracle) = binding.split_once(" = ").expect("`let` names something");
        let network = match oracle {
            "oracle line (usual 6)" => "line",
            "oracle (fork []) (usual 6)" => "fork",
            "oracle fork_without4 (usual 6)" => "fork-without-4",
            "oracle doubled (usual 6)" => "doubled",
            "oracle side (usual 1)" => "side",
            _ => panic!("`{oracle}` is not known here"),
        };
        oracles.insert(name.to_string(), network);
        text = rest.trim().to_string();
    }
    (oracles, text)
}

/// The members of a list that is written with `∷`.
fn listed(text: &str) -> Vec<&str> {
    let mut members = parted(text, '∷');
    assert_eq!(members.pop(), Some("[]"), "`{text}` is no list");
    members
}

/// The parts of a text between the signs that stand in no bracket, without those that are empty.
fn parted(text: &str, sign: char) -> Vec<&str> {
    let (mut depth, mut from, mut parts) = (0, 0, Vec::new());
    for (at, c) in text.char_indices() {
        depth += (c == '(') as i32 - (c == ')') as i32;
        if c == sign && depth == 0 {
            parts.push(text[from..at].trim());
            from = at + c.len_utf8();
        }
    }
    parts.push(text[from..].trim());
    parts.retain(|part| !part.is_empty());
    parts
}

/// What stands in the brackets, if these are about all of it.
fn inside(text: &str) -> &str {
    text.strip_prefix('(').and_then(|text| text.strip_suffix(')')).unwrap_or(text)
}

/// `(time ORACLE LINES S T ⇒ told ANSWER)` or `(route ORACLE LINES S T ⇒ NUMBERS)`.
fn trial(oracles: &BTreeMap<String, &'static str>, row: &str) -> Option<Trial> {
    let (asked, outcome) = inside(row).split_once(" ⇒ ").unwrap_or_else(|| panic!("`{row}` has no outcome"));
    let [question, oracle, lines, s, t] = parted(asked, ' ')[..] else { return None };
    let told = match question {
        "time" => Told { time: Some(time(outcome)), way: None },
        "route" => Told { time: None, way: Some(way(outcome)) },
        _ => return None,
    };
    let lines = listed(inside(lines)).into_iter().map(line).collect::<Option<Vec<Line>>>()?;
    let network = oracles.get(oracle)?.to_string();
    Some(Trial { table: "SheetTrials", network, lines, pair: (number(s), number(t)), told })
}

fn number(text: &str) -> u32 {
    text.replace('_', "").parse().unwrap_or_else(|_| panic!("`{text}` is no number"))
}

fn line(text: &str) -> Option<Line> {
    match parted(text, ' ')[..] {
        ["close", road] => Some((CLOSED, number(road) as u16, 0)),
        ["delay", road, added] => Some((DELAYED, number(road) as u16, number(added))),
        ["odd", first] => Some((number(first) as u8, 0, 0)),
        ["close_with", added] => Some((CLOSED, 0, number(added))),
        _ => None,
    }
}

/// `told (Time 11 3 Far 4)`, `told (None Local 0)` or `told (Refused 20)`.
fn time(outcome: &str) -> String {
    let answer = inside(outcome.strip_prefix("told ").unwrap_or_else(|| panic!("`{outcome}` tells no answer")));
    match parted(answer, ' ')[..] {
        ["Time", seconds, roads, kind, pairs] => format!("{} {} {} {}", number(seconds), number(roads), kind.to_lowercase(), number(pairs)),
        ["None", kind, pairs] => format!("- - {} {}", kind.to_lowercase(), number(pairs)),
        ["Refused", rule] => format!("refused {}", number(rule)),
        _ => panic!("`{answer}` is no answer"),
    }
}

/// The rule, the number of places, and an output of 8 bytes that was filled with 7.
fn way(outcome: &str) -> String {
    let numbers: Vec<u32> = listed(outcome).into_iter().map(number).collect();
    let (rule, count, output) = (numbers[0], numbers[1] as usize, numbers[2..].iter().map(|&byte| byte as u8).collect::<Vec<_>>());
    assert!(output.len() == 8 && output[2 * count..].iter().all(|&byte| byte == 7), "`{outcome}` writes more than its places");
    if rule != 0 {
        return format!("refused {rule}");
    }
    way_text(&output[..2 * count].chunks(2).map(|place| number_16(place, 0) as u16).collect::<Vec<_>>())
}
