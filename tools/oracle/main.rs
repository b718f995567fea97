//! The oracle: the answers of answers.rs, line by line.

use std::io::{self, BufRead, Read, Write};

include!("answers.rs");

#[allow(dead_code)]
mod typing;

// ── Text in and out ──────────────────────────────────────────────────────────

fn digit(c: u8) -> u8 {
    match (c as char).to_digit(16) {
        Some(d) => d as u8,
        None => fail("not a hex digit"),
    }
}

fn from_hex(text: &str) -> Vec<u8> {
    if text.len() % 2 != 0 {
        fail("odd number of hex digits");
    }
    let pair = |p: &[u8]| 16 * digit(p[0]) + digit(p[1]);
    text.as_bytes().chunks_exact(2).map(pair).collect()
}

fn to_hex(bytes: impl Iterator<Item = u8>) -> String {
    bytes.map(|b| format!("{b:02x}")).collect()
}

/// How a command answers for a tree file.
type Builder = fn(&[u8]) -> Result<Vec<Insn>, Number>;

/// Any tree by the unchanged Rust, cooked ones too.
fn rust(file: &[u8]) -> Result<Vec<Insn>, Number> {
    let (link, records) = check(file)?;
    rust_program(link, records)
}

/// Any tree by the second generator.
fn second(file: &[u8]) -> Result<Vec<Insn>, Number> {
    let (_, records) = check(file)?;
    second::program(file[LINK], &records)
}

/// One answer for a tree file: COUNT and the program's bytes, or the refusal.
fn built_line(line: &str, builder: Builder) -> String {
    match builder(&from_hex(line)) {
        Ok(insns) => {
            let bytes = insns.iter().flat_map(|i| i.to_le_bytes());
            format!("{} {}", insns.len(), to_hex(bytes))
        }
        Err(n) => format!("refused {n}"),
    }
}

/// Bytes in hex. A lone `-` stands for none.
fn bytes_of(text: &str) -> Vec<u8> {
    from_hex(if text == "-" { "" } else { text })
}

/// One answer of `run`.
fn run_line(line: &str) -> String {
    let Some((program, frame)) = line.split_once(' ') else {
        fail("run wants PROGRAMHEX FRAMEHEX");
    };
    match run(&bytes_of(program), &bytes_of(frame)) {
        Ok(Some(true)) => "accepted".into(),
        Ok(Some(false)) => "dropped".into(),
        Ok(None) => "none".into(),
        Err(n) => format!("refused {n}"),
    }
}

/// One answer of `type`: LENGTH and the file's bytes, or the refusal and its place.
fn typed_line(line: &str) -> String {
    let Some((link, text)) = line.split_once(' ') else {
        fail("type wants LINK TEXTHEX");
    };
    let Ok(link) = link.parse() else {
        fail("LINK is 0 to 255");
    };
    match typing::read(link, &bytes_of(text)) {
        Ok(phrase) => {
            let file = phrase.file(link);
            format!("{} {}", file.len(), to_hex(file.into_iter()))
        }
        Err(refusal) => format!("refused {} {}", refusal.number, refusal.place),
    }
}

/// The listing `pft-list`.
fn listing(file: &[u8]) -> String {
    match build(file) {
        Ok(insns) => {
            let row = |i: &Insn| format!("{} {} {} {}\n", i.code, i.jt, i.jf, i.k);
            let rows: String = insns.iter().map(row).collect();
            format!("{}\n{rows}", insns.len())
        }
        Err(n) => format!("refused {n}\n"),
    }
}

/// Answers line by line, each written out before the next is read.
fn each_line(answer: fn(&str) -> String) -> io::Result<()> {
    let mut out = io::stdout().lock();
    for line in io::stdin().lock().lines() {
        writeln!(out, "{}", answer(&line?))?;
        out.flush()?;
    }
    Ok(())
}

fn list_stdin() -> io::Result<()> {
    let mut file = Vec::new();
    io::stdin().read_to_end(&mut file)?;
    io::stdout().write_all(listing(&file).as_bytes())
}

const USAGE: &str = "usage: oracle build | rust | second | run | type | listing";

fn main() {
    let words: Vec<String> = std::env::args().skip(1).collect();
    let words: Vec<&str> = words.iter().map(String::as_str).collect();
    let done = match words[..] {
        ["build"] => each_line(|line| built_line(line, build)),
        ["rust"] => each_line(|line| built_line(line, rust)),
        ["second"] => each_line(|line| built_line(line, second)),
        ["run"] => each_line(run_line),
        ["type"] => each_line(typed_line),
        ["listing"] => list_stdin(),
        ["--help"] => writeln!(io::stdout(), "{USAGE}"),
        _ => fail(USAGE),
    };
    if let Err(e) = done {
        fail(&e.to_string());
    }
}
