//! `pft count` over files and over pipes: what it prints of each capture, and how it ends.

use std::fs;
use std::io::Write;
use std::path::{Path, PathBuf};
use std::process::{Command, Output, Stdio};

use crate::captures::Reading;
use crate::fail;
use crate::filter::{bodies, drawn_filter, faults, written, Filter};
use crate::parts::Parts;
use crate::pcap::{Given, CUT_FRAME, LONGEST, NO_CAPTURE, OTHER_LINK};
use crate::trees::Rng;

/// Trees, and captures of each.
const TREES: usize = 60;
const CAPTURES: usize = 5;
/// One capture in so many is larger than what the program reads at once.
const LARGE: usize = 8;

/// What is to be printed of a capture: an answer, and how a message begins.
struct Said {
    answer: Option<String>,
    message: Option<String>,
}

fn said(name: &str, given: &Given, kept: u64) -> Said {
    let (frames, next) = (given.frames.len(), given.frames.len() + 1);
    let counted = |of: &str| Some(format!("{name}: kept {kept} of {of}{frames} frames"));
    let (answer, message) = match given.refusal {
        None => (counted(""), None),
        Some(NO_CAPTURE) => (None, Some("12, no capture".into())),
        Some(OTHER_LINK) => (None, Some("13, other link".into())),
        Some(_) => {
            let place = format!("frame {next}, byte {}", given.stop);
            let words = format!("{CUT_FRAME}, cut frame, at {place}");
            (counted("the first "), Some(words))
        }
    };
    Said {
        answer,
        message: message.map(|words| format!("{name}: refused {words}")),
    }
}

/// What a call must print and how it must end; a refused tree is all that is told.
fn wanted(filter: &Filter, tree: &str, captures: &[(String, Vec<u8>)]) -> (Vec<Said>, i32) {
    if let Some(refusal) = filter.refusal() {
        let refused = Said {
            answer: None,
            message: Some(format!("{tree}: refused {refusal}, ")),
        };
        return (vec![refused], 1);
    }
    let each = captures.iter().map(|(name, bytes)| {
        let reading = Reading::new(filter, bytes);
        said(name, &reading.given, reading.kept())
    });
    let all: Vec<Said> = each.collect();
    let status = all.iter().any(|said| said.message.is_some()) as i32;
    (all, status)
}

/// Whether a message is the one wanted. Behind the words of 12 and 13 others may stand,
/// behind the place of 14 none.
fn is_said(line: &str, start: &str) -> bool {
    let whole = start.contains(", cut frame, ");
    line == start || !whole && line.starts_with(start)
}

/// Whether a call printed that, and ended so.
fn fits(said: &[Said], status: i32, got: &Output) -> bool {
    let (answers, messages) = (text(&got.stdout), text(&got.stderr));
    let lines: Vec<&str> = messages.lines().collect();
    let starts = said.iter().filter_map(|s| s.message.as_deref());
    let starts: Vec<&str> = starts.collect();
    got.status.code() == Some(status)
        && answers
            .lines()
            .eq(said.iter().filter_map(|s| s.answer.as_deref()))
        && lines.len() == starts.len()
        && lines.iter().zip(starts).all(|(l, s)| is_said(l, s))
}

fn text(bytes: &[u8]) -> String {
    String::from_utf8_lossy(bytes).into()
}

/// The capture is written to the program in pieces as drawn, as long as it reads.
fn piped(rng: &mut Rng, mut command: Command, capture: &[u8]) -> Output {
    let child = command.stdin(Stdio::piped()).spawn();
    let mut child = child.unwrap_or_else(|e| fail(&e.to_string()));
    let mut to = child.stdin.take().expect("a pipe");
    let mut rest = capture;
    while !rest.is_empty() {
        let most = rng.pick(&[1, 20, 4096, 70_000]);
        let (piece, behind) = rest.split_at(rng.between(1, most).min(rest.len()));
        if to.write_all(piece).is_err() {
            break;
        }
        rest = behind;
    }
    drop(to);
    let output = child.wait_with_output();
    output.unwrap_or_else(|e| fail(&e.to_string()))
}

/// Many frames of all lengths, more than a few reads of the program take.
fn large(rng: &mut Rng, filter: &Filter) -> Vec<Vec<u8>> {
    const BYTES: usize = 1_500_000;
    let (mut all, mut sum) = (Vec::new(), 0);
    while sum < BYTES {
        let mut body = filter.frame(rng);
        if rng.one_in(2) {
            let most = rng.pick(&[100, 1514, 9000, LONGEST]);
            let length = rng.between(most / 2, most);
            body.resize(length, 0);
        }
        sum += body.len();
        all.push(body);
    }
    all
}

struct Trial<'p> {
    program: &'p Path,
    folder: PathBuf,
    filter: Filter,
}

impl Trial<'_> {
    fn name(&self, file: &str) -> String {
        self.folder.join(file).display().to_string()
    }

    fn write(&self, file: &str, bytes: &[u8]) -> String {
        let name = self.name(file);
        fs::write(&name, bytes).unwrap_or_else(|e| fail(&format!("{name}: {e}")));
        name
    }

    fn command(&self, captures: &[&str]) -> Command {
        let mut command = Command::new(self.program);
        command
            .arg("count")
            .arg(self.name("tree.pft"))
            .args(captures);
        command.stdout(Stdio::piped()).stderr(Stdio::piped());
        command
    }

    /// Notes a difference, whose files stay; whether there was one.
    fn differs(&self, captures: &[(String, Vec<u8>)], got: &Output, parts: &mut Parts) -> bool {
        let (said, status) = wanted(&self.filter, &self.name("tree.pft"), captures);
        parts.captures.compared += captures.len() as u64;
        if fits(&said, status, got) {
            return false;
        }
        let size = captures.iter().map(|(_, bytes)| bytes.len()).sum();
        let lines = text(&[&got.stdout[..], &got.stderr].concat()).replace('\n', "; ");
        let answers = said.iter().filter_map(|s| s.answer.clone());
        let messages = said.iter().filter_map(|s| s.message.clone());
        let there = answers.chain(messages).collect::<Vec<_>>().join("; ");
        let (folder, ended) = (self.folder.display(), got.status);
        let words = || {
            format!("pft count over {folder}, {ended}: {lines}not exit status: {status}: {there}")
        };
        parts.captures.differs(size, words);
        true
    }

    fn capture(&self, rng: &mut Rng) -> Vec<u8> {
        let bodies = match rng.one_in(LARGE) {
            true => large(rng, &self.filter),
            false => bodies(rng, &self.filter),
        };
        let faults = faults(rng);
        written(rng, &self.filter, &bodies, &faults).bytes
    }

    /// Several files in one call, then the longest of them through a pipe.
    fn compare(&self, rng: &mut Rng, parts: &mut Parts) {
        self.write("tree.pft", &self.filter.file);
        let files = (0..CAPTURES).map(|i| {
            let bytes = self.capture(rng);
            (self.write(&format!("{i}.pcap"), &bytes), bytes)
        });
        let files: Vec<(String, Vec<u8>)> = files.collect();
        let names: Vec<&str> = files.iter().map(|(name, _)| name.as_str()).collect();
        let got = self.command(&names).output();
        let got = got.unwrap_or_else(|e| fail(&e.to_string()));
        let mut differs = self.differs(&files, &got, parts);
        let longest = files
            .into_iter()
            .map(|(_, bytes)| bytes)
            .max_by_key(Vec::len);
        let bytes = longest.expect("some files");
        let got = piped(rng, self.command(&["-"]), &bytes);
        differs |= self.differs(&[("standard input".into(), bytes)], &got, parts);
        if !differs {
            fs::remove_dir_all(&self.folder).unwrap_or_else(|e| fail(&e.to_string()));
        }
    }
}

/// Mostly a tree that is accepted: of others no capture is read.
fn filter(rng: &mut Rng, wide: &mut Rng) -> Filter {
    let any = rng.one_in(8);
    loop {
        let filter = drawn_filter(rng, wide);
        if any || filter.refusal().is_none() {
            return filter;
        }
    }
}

/// Trees with captures as files and through a pipe; what differs stays in the folder.
pub fn compare_all(seed: u64, program: &str, folder: &str, parts: &mut Parts) {
    let (mut rng, mut wide) = (Rng(seed ^ 0xC097), Rng(seed ^ 0x31E1));
    let before = parts.captures.compared;
    for i in 0..TREES {
        let trial = Trial {
            program: Path::new(program),
            folder: Path::new(folder).join(i.to_string()),
            filter: filter(&mut rng, &mut wide),
        };
        fs::create_dir_all(&trial.folder).unwrap_or_else(|e| fail(&e.to_string()));
        trial.compare(&mut rng, parts);
    }
    let captures = parts.captures.compared - before;
    println!("captures through pft count: {captures}, {TREES} of them through a pipe");
}
