//! What T-05 changed: each stored trial and each random sheet, answered by the rule of before and by that of now. "Answers can change only under sheets where
//! a delay follows a closure of its road and no later line closes it, and docs/ lists which of our trials those are": the list is made here. No call of
//! the core is made; that the reference's answers of now are the core's is seen in sheet_trials.rs and sheets.rs.

mod common;

use common::computed::computed;
use common::random_sheets::{Drawn, ORACLES};
use common::reference::sheets::{delay_after_closure, sheet, Under};
use common::reference::{Questions, WORDS};
use common::sheets::Line;
use common::stored::{self, lines_text, oracle_of, Told, Trial};
use std::fs;

const PAGE: &str = concat!(env!("CARGO_MANIFEST_DIR"), "/../docs/SHEETS.md");
const HEADING: &str = "## What changed with T-05\n";

// ---- Stored trials ----

fn told_before_and_after(trial: &Trial) -> (Told, Told) {
    let questions = Questions::of(oracle_of(&trial.network));
    let by = |under: Under| trial.by_reference(&under);
    (by(Under::former(&questions, sheet(&trial.lines))), by(Under::of(&questions, sheet(&trial.lines))))
}

/// The time, and the way where that is asked for alone, or is another one on the other side.
fn shown(told: &Told, other: &Told) -> String {
    let by = |way: &String| if way.is_empty() { "no way".to_string() } else { format!("by {way}") };
    match (&told.time, &told.way) {
        (Some(time), Some(way)) if !way.is_empty() && way != time && told.way != other.way => format!("{time}, {}", by(way)),
        (Some(time), _) => time.clone(),
        (None, way) => way.iter().map(by).collect(),
    }
}

/// Its row in the list.
fn row(trial: &Trial) -> String {
    let (before, after) = told_before_and_after(trial);
    let now = if before == after { "the same".to_string() } else { shown(&after, &before) };
    let (s, t) = trial.pair;
    format!("| {} | {} | {} | {s}, {t} | {} | {now} |\n", trial.table, trial.network, lines_text(&trial.lines), shown(&before, &after))
}

fn all_trials() -> Vec<Trial> {
    stored::trials().into_iter().chain(computed().trials).collect()
}

#[test]
fn other_trials_are_as_they_were() {
    let (such, others): (Vec<Trial>, Vec<Trial>) = all_trials().into_iter().partition(|trial| delay_after_closure(&trial.lines));
    for trial in &others {
        let (before, after) = told_before_and_after(trial);
        assert_eq!(before, after, "{}: {} | {}", trial.table, trial.network, lines_text(&trial.lines));
    }
    let changed = such.iter().map(told_before_and_after).filter(|(before, after)| before != after).count();
    println!("{} trials as they were, {} of the kind, {changed} of them changed", others.len(), such.len());
    assert!(others.len() > 100 && changed > 25 && changed < such.len());
}

/// Rows that are not read have one line at the most, and so no delay after a closure.
#[test]
fn other_rows_have_one_line() {
    for row in computed().others {
        let lines = ["close ", "delay "].iter().map(|word| row.matches(word).count()).sum::<usize>();
        assert!(lines <= 1, "{row}");
    }
}

// ---- Random sheets ----

#[derive(Default)]
struct Tally {
    sheets: usize,
    /// Those of the kind, those of them under which an answer changed, and pairs asked under them and changed.
    such: usize,
    changed: usize,
    pairs: usize,
    pairs_changed: usize,
}

impl Tally {
    fn count(&mut self, questions: &Questions, lines: &[Line], seed: u64) {
        let (n, file) = (questions.size(), sheet(lines));
        let (words, such) = (WORDS * n, delay_after_closure(lines));
        // The program's own word on such sheets.
        assert_eq!(!jukesogbi::sheet::closed_then_delayed(jukesogbi::sheet::lines(&file)).is_empty(), such, "seed {seed}, {lines:?}");
        let (before, after) = (Under::former(questions, file.clone()), Under::of(questions, file));
        let outcome = |under: &Under, s: u32, t: u32| (under.time(s, t, words), under.way(s, t, words, 2 * n));
        let pairs = (0..n as u32).flat_map(|s| (0..n as u32).map(move |t| (s, t)));
        let changed = pairs.filter(|&(s, t)| outcome(&before, s, t) != outcome(&after, s, t)).count();
        assert!(such || changed == 0, "seed {seed}, {lines:?}");
        self.sheets += 1;
        if such {
            self.such += 1;
            self.changed += (changed > 0) as usize;
            self.pairs += n * n;
            self.pairs_changed += changed;
        }
    }
}

/// The sheets of sheets.rs, all of them whatever number of networks is asked for: the page has their numbers.
fn tally() -> Tally {
    let mut tally = Tally::default();
    for seed in 0..ORACLES {
        for drawn in [Drawn::built(seed), Drawn::never_built(seed)] {
            let questions = Questions::of(drawn.oracle);
            drawn.sheets.iter().for_each(|lines| tally.count(&questions, lines, seed));
        }
    }
    tally
}

// ---- The page ----

/// With the thousands parted.
fn grouped(number: usize) -> String {
    if number < 1000 { number.to_string() } else { format!("{},{:03}", grouped(number / 1000), number % 1000) }
}

/// What the page says below the heading.
fn section() -> String {
    let such: Vec<Trial> = all_trials().into_iter().filter(|trial| delay_after_closure(&trial.lines)).collect();
    let rows: String = such.iter().map(row).collect();
    let tally = tally();
    assert!(tally.such > 500 && tally.changed > 300, "{} sheets of the kind, {} changed", tally.such, tally.changed);
    let [sheets, of_kind, changed, pairs, pairs_changed] = [tally.sheets, tally.such, tally.changed, tally.pairs, tally.pairs_changed].map(grouped);
    format!(
        "
Until T-05 the last line about a road held, so a delay after a closure opened the road. Answers can be others than before only under sheets where a delay
follows a closure of its road and no later line closes it. That is proved for every sheet, refusals included (crates/sheet_demands, SheetAnswers `same_time`
and `same_way`). Of our stored trials {} are of that kind. `sheets.txt` is in host/tests/trials, `SheetTrials` in crates/sheet_demands/specs.

| table | network | lines | from, to | before | after |
|---|---|---|---|---|---|
{rows}
Of the {sheets} random sheets of host/tests/sheets.rs {of_kind} are of that kind, and under {changed} of these some time, way or refusal is another than before;
of {pairs} pairs of places asked under such sheets {pairs_changed} have another. Under the other sheets none has. Tests that make their sheets by counting
(host/tests/sheet_rules.rs, sheet_limits.rs) have such sheets, too.

In host/, `JUKESOGBI_WRITE_DOCS=1 cargo test --release --offline --test changed_sheets` makes this section; without the variable it is compared.
",
        such.len()
    )
}

#[test]
fn the_page_lists_the_trials() {
    let page = fs::read_to_string(PAGE).unwrap();
    let (before, rest) = page.split_once(HEADING).expect("docs/SHEETS.md has the heading");
    let (listed, after) = rest.split_at(rest.find("\n## ").unwrap_or(rest.len()));
    let section = section();
    if std::env::var("JUKESOGBI_WRITE_DOCS").is_ok_and(|value| value == "1") {
        fs::write(PAGE, [before, HEADING, &section, after].concat()).unwrap();
        return;
    }
    let how = "`JUKESOGBI_WRITE_DOCS=1 cargo test --release --offline --test changed_sheets` in host/ writes it anew";
    assert!(listed == section, "what docs/SHEETS.md says of T-05 is not what the trials say ({how}):\n{section}");
}
