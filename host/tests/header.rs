//! The header says for C what the wrapper says for Rust: numbers that both need are the same, and each rule has its text there.

use jukesogbi::{core, form, sheet};

const HEADER: &str = include_str!("../../include/jukesogbi.h");

fn defined(name: &str) -> &'static str {
    let line = HEADER.lines().find_map(|line| line.strip_prefix("#define ")?.strip_prefix(name)?.strip_prefix(' '));
    line.unwrap_or_else(|| panic!("{name} is not defined")).trim()
}

#[test]
fn the_same_numbers() {
    assert_eq!(defined("JUKESOGBI_WORDS"), form::WORDS.to_string());
    assert_eq!(defined("JUKESOGBI_SIDE"), core::SIDE.to_string());
    assert_eq!(defined("JUKESOGBI_LEGS"), form::MAX_LEGS.to_string());
    assert_eq!(defined("JUKESOGBI_PLACES"), form::MAX_NODES.to_string());
    assert_eq!(defined("JUKESOGBI_ROADS"), form::MAX_EDGES.to_string());
    assert_eq!(defined("JUKESOGBI_CLOSED"), form::CLOSED_LINE.to_string());
    assert_eq!(defined("JUKESOGBI_DELAYED"), form::DELAYED_LINE.to_string());
    assert_eq!(defined("JUKESOGBI_NO_WALK"), "UINT32_MAX");
    assert_eq!(core::NO_WALK, u32::MAX);
    assert_eq!(defined("JUKESOGBI_NO_ROADS"), core::NO_ROADS.to_string());
}

#[test]
fn a_text_for_each_rule() {
    let texts: Vec<&str> = (1..=21).map(core::rule_text).collect();
    for (k, text) in texts.iter().enumerate() {
        assert!(text.len() > 20 && !texts[..k].contains(text), "rule {}: {text}", k + 1);
    }
    let edition = "fewer than 2 bytes, a wrong edition, a wrong entry count or an incomplete contents";
    assert_eq!(core::rule_text(core::CONTENTS), edition);
    assert_eq!(core::rule_text(4), "a coordinate outside -1,000,000 to 1,000,000");
    assert_eq!(core::rule_text(6), "a road with an end not below N, equal ends, or seconds over 100,000");
    assert_eq!(core::rule_text(11), "a table not of 6 * T * T bytes, or a value out of range");
    assert_eq!(core::rule_text(16), "an audited oracle that differs in any byte from the one built from its bodies 1 to 4");
    let many = "either side of a block names no place or more than 12, or there are over 1,000 legs or a part of a leg";
    assert_eq!(core::rule_text(17), many);
    assert_eq!(core::rule_text(sheet::FORM), "a sheet's form, a line's first byte, or the seconds of a closed line are wrong");
    let convert = "closed roads in body 3, which must be empty: `jukesogbi convert NETWORK NEW` (jukesogbi_convert) leaves them out of a network";
    assert_eq!(core::rule_text(21), convert);
    for rule in [0, 22, u32::MAX] {
        assert_eq!(core::rule_text(rule), "no such rule");
    }
}
