//! What was compared and what differed of one part, and how parts are told.

use std::sync::atomic::{AtomicBool, Ordering};

/// Whether to end at the first difference.
pub static FIRST: AtomicBool = AtomicBool::new(false);

/// How often each answer of a build was met: accepted, then by refusal up to 15.
pub type Answers = [u64; 16];

/// How many differences of a part are shown: those with the smallest inputs.
const SHOWN: usize = 3;

pub struct Part {
    name: &'static str,
    pub compared: u64,
    pub differences: u64,
    shown: Vec<(usize, String)>,
}

impl Part {
    pub fn new(name: &'static str) -> Part {
        Part {
            name,
            compared: 0,
            differences: 0,
            shown: Vec::new(),
        }
    }

    /// Notes a difference; `size` is the input's, in bytes.
    pub fn differs(&mut self, size: usize, text: impl FnOnce() -> String) {
        self.differences += 1;
        let full = self.shown.len() == SHOWN;
        if full && self.shown[SHOWN - 1].0 <= size {
            return;
        }
        self.shown.truncate(SHOWN - full as usize);
        self.shown.push((size, text()));
        self.shown.sort_by_key(|(size, _)| *size);
        if FIRST.load(Ordering::Relaxed) {
            self.print();
            std::process::exit(1);
        }
    }

    pub fn was_asked(&self) -> bool {
        self.compared + self.differences > 0
    }

    pub fn print(&self) {
        for (_, text) in &self.shown {
            println!("{}: {text}", self.name);
        }
        println!(
            "{}: {} compared, {} differences",
            self.name, self.compared, self.differences
        );
    }
}

/// Each part that was asked, then the line of all; how many differences there were.
pub fn print_all(parts: &[&Part]) -> u64 {
    let asked = parts.iter().filter(|part| part.was_asked());
    asked.for_each(|part| part.print());
    let compared: u64 = parts.iter().map(|part| part.compared).sum();
    let differences: u64 = parts.iter().map(|part| part.differences).sum();
    println!("{compared} compared, {differences} differences");
    differences
}

/// Bytes in hex, `-` for none; many equal ones at the end are told by their number,
/// as 00*80.
pub fn to_hex(bytes: &[u8]) -> String {
    let last = bytes.last().copied().unwrap_or(0);
    let differs = bytes.iter().rposition(|b| *b != last);
    let start = differs.map_or(0, |at| at + 1);
    let equal = bytes.len() - start;
    let shown = if equal > 64 { &bytes[..start] } else { bytes };
    let text: String = shown.iter().map(|b| format!("{b:02x}")).collect();
    match (equal > 64, text.is_empty()) {
        (true, true) => format!("{last:02x}*{equal}"),
        (true, false) => format!("{text} {last:02x}*{equal}"),
        (false, true) => "-".into(),
        (false, false) => text,
    }
}
