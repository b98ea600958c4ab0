//! The walks of the README and the examples of docs/SHEETS.md: each command there prints what stands below it.

mod common;

use common::program::Folder;

const README: &str = include_str!("../../README.md");
const SHEETS: &str = include_str!("../../docs/SHEETS.md");
const OLD_NETWORK: &[u8] = include_bytes!("../../examples/old.net");

/// A folder with the old network of the examples.
fn with_old_network(name: &str) -> Folder {
    let f = Folder::new(name);
    std::fs::create_dir(f.0.join("examples")).unwrap();
    f.write("examples/old.net", OLD_NETWORK);
    f
}

/// Runs the commands under a heading, and answers how many they are.
fn run(f: &Folder, text: &str, heading: &str) -> usize {
    let (_, walk) = text.split_once(&format!("## {heading}\n")).unwrap();
    let (walk, _) = walk.split_once("\n## ").unwrap();
    let lines: Vec<&str> = walk.lines().filter_map(|line| line.strip_prefix("    ")).collect();
    let mut commands = 0;
    for (at, line) in lines.iter().enumerate() {
        let Some(command) = line.strip_prefix("$ ") else { continue };
        let printed: String = lines[at + 1..].iter().take_while(|line| !line.starts_with("$ ")).map(|line| format!("{line}\n")).collect();
        let ran = f.shell(&format!("jukesogbi() {{ \"$J\" \"$@\"; }}; {command}"));
        assert_eq!(ran.text(), printed, "{command}");
        commands += 1;
    }
    commands
}

#[test]
fn the_first_walk() {
    assert!(run(&Folder::new("readme"), README, "A first walk") >= 13);
}

#[test]
fn the_walks_with_an_old_network() {
    assert_eq!(run(&with_old_network("readme_old"), README, "Old networks"), 4);
    assert_eq!(run(&with_old_network("readme_old_sheets"), SHEETS, "Old networks"), 6);
}

/// Its text is the one at the top of the page, and the page has the word on the road that stays closed.
#[test]
fn the_example_of_sheets() {
    let f = Folder::new("readme_sheets");
    assert!(run(&f, SHEETS, "An example") >= 11);
    let told = f.run("sheet today.txt again.sheet").err;
    assert!(told.starts_with("road 52 ") && SHEETS.contains(&format!("`{}`", told.trim_end())), "{told}");
    let (_, text) = SHEETS.split_once("one line for each closure or delay:\n\n").unwrap();
    let (text, _) = text.split_once("\n\n").unwrap();
    assert_eq!(String::from_utf8(f.read("today.txt")).unwrap(), text.lines().map(|line| line.trim_start().to_string() + "\n").collect::<String>());
}
