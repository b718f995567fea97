//! Counts the frames of captures that a tree accepts, and shows where they are.
//!
//!     count TREE CAPTURE...
//!
//! Prints the count of instructions, then for each capture the accepted frames and how many they
//! are of all. Ends with 1 where a file cannot be read or a call is refused.

use std::process::ExitCode;

use dabberpearl::{frames, Error, Program, Refusal, Tree};

struct Filter {
    tree: Tree,
    program: Program,
}

impl Filter {
    fn new(file: &[u8]) -> Result<Filter, Error> {
        let tree = Tree::try_from(file)?;
        let program = Program::from_tree(&tree)?;
        Ok(Filter { tree, program })
    }

    /// The lines of a capture's frames; or why there are none, or no more.
    fn list(&self, name: &str, capture: &[u8]) -> Result<(), String> {
        let counted = self.tree.count(capture);
        let cut = Error::from(Refusal::CutFrame);
        if let Some(error) = counted.error.filter(|error| *error != cut) {
            return Err(error.to_string());
        }
        let mut walk = frames(capture).map_err(|error| error.to_string())?;
        let mut all = 0;
        while let Some(Ok(frame)) = walk.next() {
            all += 1;
            if self.program.accepts(frame) {
                let start = walk.at() - frame.len();
                println!("{name}: {} bytes from byte {start} on", frame.len());
            }
        }
        println!("{name}: {} of {all} frames accepted", counted.accepted);
        let end = format!("at byte {}", walk.at());
        counted
            .error
            .map_or(Ok(()), |error| Err(format!("{error}, {end}")))
    }
}

fn read(name: &str) -> Result<Vec<u8>, String> {
    std::fs::read(name).map_err(|error| error.to_string())
}

/// Prints why something of a name failed, if it did.
fn say<T>(name: &str, result: Result<T, String>) -> Option<T> {
    result.map_err(|reason| println!("{name}: {reason}")).ok()
}

fn count(name: &str, captures: &[String]) -> Option<()> {
    let file = say(name, read(name))?;
    let filter = say(name, Filter::new(&file).map_err(|error| error.to_string()))?;
    println!("{name}: {} instructions", filter.program.len());
    let mut all_good = Some(());
    for name in captures {
        let listed = read(name).and_then(|capture| filter.list(name, &capture));
        all_good = all_good.and(say(name, listed));
    }
    all_good
}

fn main() -> ExitCode {
    let words: Vec<String> = std::env::args().skip(1).collect();
    let Some((tree, captures)) = words.split_first() else {
        eprintln!("usage: count TREE CAPTURE...");
        return ExitCode::FAILURE;
    };
    match count(tree, captures) {
        Some(()) => ExitCode::SUCCESS,
        None => ExitCode::FAILURE,
    }
}
