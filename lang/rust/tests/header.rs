//! The C header and this crate say the same, and both are for the archive that is linked.

use std::collections::BTreeSet;

use dabberpearl::{
    archive_version, Refusal, CAPTURE_HEADER, FRAME_HEADER, MAX_FRAME, MAX_INSTRUCTIONS, MAX_RUN,
    MAX_TREE, VERSION,
};

const HEADER: &str = include_str!("../../c/pft.h");
const CALLS: &str = include_str!("../src/ffi.rs");

/// What follows a text in the header, up to another.
fn between<'a>(start: &str, end: char) -> Option<&'a str> {
    let (_, rest) = HEADER.split_once(start)?;
    rest.split(end).next()
}

fn number(text: &str) -> usize {
    text.parse().expect("a number")
}

#[test]
fn versions() {
    let defined = between("#define PFT_VERSION ", '\n').map(number);
    assert_eq!(defined, Some(VERSION as usize));
    assert_eq!(archive_version(), VERSION);
}

#[test]
fn limits() {
    for (name, limit) in [
        ("PFT_TREE_MAX", MAX_TREE),
        ("PFT_FRAME_MAX", MAX_FRAME),
        ("PFT_COUNT_MAX", MAX_INSTRUCTIONS),
        ("PFT_RUN_MAX", MAX_RUN),
        ("PFT_CAPTURE_HEADER_SIZE", CAPTURE_HEADER),
        ("PFT_FRAME_HEADER_SIZE", FRAME_HEADER),
    ] {
        let defined = between(&format!("#define {name} ((size_t)"), ')');
        assert_eq!(defined.map(number), Some(limit), "{name}");
    }
}

/// Each refusal has a name of the same words, a number and a word in the header, and it has no more.
#[test]
fn refusals() {
    let listed = between("enum pft_refusal {", '}').expect("the refusals");
    assert_eq!(listed.matches(" = ").count(), Refusal::ALL.len());
    for refusal in Refusal::ALL {
        let name = format!("PFT_{}", refusal.word().to_uppercase().replace(' ', "_"));
        let (_, rest) = listed.split_once(&format!(" {name} = ")).expect("the name");
        let digits = rest.split(|c: char| !c.is_ascii_digit()).next();
        assert_eq!(
            digits.map(number),
            Some(refusal.number() as usize),
            "{name}"
        );
        let worded = format!("case {name}: return \"{}\";", refusal.word());
        assert!(HEADER.contains(&worded), "{worded}");
    }
}

/// The functions of the archive with the bits of their answers, as the header declares them.
fn declared() -> BTreeSet<(&'static str, &'static str)> {
    let lines = HEADER.lines().filter_map(|line| {
        let (bits, rest) = line.strip_prefix("uint")?.split_once("_t ")?;
        Some((rest.strip_prefix("pft_")?.split('(').next()?, bits))
    });
    lines.collect()
}

/// The same, as the crate declares them.
fn called() -> BTreeSet<(&'static str, &'static str)> {
    let parts = CALLS.split("pub fn pft_").skip(1).filter_map(|part| {
        let (name, rest) = part.split_once('(')?;
        let (_, answer) = rest.split_once("-> u")?;
        Some((name, answer.split(';').next()?))
    });
    parts.collect()
}

#[test]
fn functions() {
    assert_eq!(declared(), called());
    assert!(declared().contains(&("frame", "64")));
}
