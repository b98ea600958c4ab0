//! The inputs and outputs stored with the listing program: each input is the oracle that the reference builds from its own bodies 1 to 4 (or that of Line with
//! a fault), each output what document 01 says of its first 28,672 bytes. No call of the core is made. In host/, `JUKESOGBI_WRITE_STORED=1 cargo test --release
//! --offline --test stored_listings` makes them anew, for another edition; without the variable they are compared.

mod common;

use common::networks;
use common::program::oracle;
use common::reference::{body, file, number_16, Network, Questions, WORDS};
use std::fs;
use std::path::PathBuf;

/// As many bytes are read.
const READ: usize = 28_672;

fn path(name: &str, of: &str) -> PathBuf {
    PathBuf::from(env!("CARGO_MANIFEST_DIR")).join("../crates").join(name).join(of)
}

/// Of any edition: where the bodies are, and what the first four hold, is the same in all.
fn built_again(stored: &[u8]) -> Vec<u8> {
    let network = file(&[1, 2, 3].map(|kind| body(stored, kind).to_vec()));
    Network::of(network).oracle(number_16(body(stored, 4), 0)).bytes.clone()
}

fn listing(oracle: &[u8]) -> String {
    let questions = Questions::of(oracle[..oracle.len().min(READ)].to_vec());
    let (n, words) = (questions.size() as u32, WORDS * questions.size());
    if let Err(rule) = questions.open(words) {
        return format!("refused {rule}\n");
    }
    let mut text = format!("places {n} transit {}\n", body(oracle, 5).len() / 2);
    for (s, t) in (0..n).flat_map(|s| (s + 1..n).map(move |t| (s, t))) {
        let answer = questions.time(s, t, words).result.unwrap();
        let seconds = answer.seconds().map_or("-".to_string(), |seconds| seconds.to_string());
        text += &format!("{s} {t} {seconds} {}\n", if answer.far { "far" } else { "local" });
    }
    text
}

/// The stored input and output, and what they are to be.
fn check(name: &str, input: Vec<u8>) {
    let output = listing(&input).into_bytes();
    if std::env::var("JUKESOGBI_WRITE_STORED").is_ok_and(|value| value == "1") {
        fs::write(path(name, "stdin"), &input).unwrap();
        fs::write(path(name, "stdout"), &output).unwrap();
    }
    assert!(fs::read(path(name, "stdin")).unwrap() == input, "{name}: the stored input is another");
    assert_eq!(String::from_utf8(fs::read(path(name, "stdout")).unwrap()), String::from_utf8(output), "{name}");
}

#[test]
fn built_oracles() {
    for (name, first) in [
        ("listing", "places 3 transit 1\n0 1 7 local\n"),
        ("listing_fork", "places 5 transit 2\n0 1 5 local\n"),
        ("listing_none", "places 11 transit 6\n0 1 - far\n"),
        ("listing_long", "refused 2\n"),
    ] {
        let input = built_again(&fs::read(path(name, "stdin")).unwrap());
        assert!(listing(&input).starts_with(first) && (input.len() > READ) == (name == "listing_long"), "{name}: {} bytes", input.len());
        check(name, input);
    }
    assert_eq!(fs::read(path("listing", "stdin")).unwrap(), oracle(&networks::line(), 6));
    assert_eq!(fs::read(path("listing_fork", "stdin")).unwrap(), oracle(&networks::fork(), 6));
}

/// Line's oracle with a transit place that names no place.
#[test]
fn a_refused_oracle() {
    let mut input = oracle(&networks::line(), 6);
    input[107] = 3;
    assert_eq!(listing(&input), "refused 9\n");
    check("listing_refused", input);
}
