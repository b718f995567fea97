//! A gate: frames that its tree accepts pass, all others are stopped.
//!
//!     gate TREE FRAME...
//!
//! Each argument is a file. Prints the tree in words, a line for each frame and then their numbers.
//! Ends with 1 where a file cannot be read or the tree is refused.

use std::process::ExitCode;

use dabberpearl::{Error, Program, Tree, Verdict};

struct Gate {
    program: Program,
    passed: u32,
    stopped: u32,
}

impl Gate {
    fn new(tree: &Tree) -> Result<Gate, Error> {
        let program = Program::from_tree(tree)?;
        Ok(Gate {
            program,
            passed: 0,
            stopped: 0,
        })
    }

    /// Whether a frame passes; if not, why.
    fn judge(&mut self, frame: &[u8]) -> Result<(), String> {
        let reason = match self.program.run(frame) {
            Ok(outcome) if outcome.verdict == Verdict::Accepted => {
                self.passed += 1;
                return Ok(());
            }
            Ok(outcome) => outcome.verdict.to_string(),
            Err(error) => error.to_string(),
        };
        self.stopped += 1;
        Err(reason)
    }
}

fn read(name: &str) -> Result<Vec<u8>, String> {
    std::fs::read(name).map_err(|error| format!("{name}: {error}"))
}

fn filter(name: &str, frames: &[String]) -> Result<(), String> {
    let refused = |error: Error| format!("{name}: {error}");
    let tree = Tree::try_from(&read(name)?[..]).map_err(refused)?;
    println!("{name}: {tree}");
    let mut gate = Gate::new(&tree).map_err(refused)?;
    println!("{name}: {} instructions", gate.program.len());
    for name in frames {
        match gate.judge(&read(name)?) {
            Ok(()) => println!("{name}: passed"),
            Err(reason) => println!("{name}: stopped, {reason}"),
        }
    }
    println!("{} passed, {} stopped", gate.passed, gate.stopped);
    Ok(())
}

fn main() -> ExitCode {
    let words: Vec<String> = std::env::args().skip(1).collect();
    let Some((tree, frames)) = words.split_first() else {
        eprintln!("usage: gate TREE FRAME...");
        return ExitCode::FAILURE;
    };
    match filter(tree, frames) {
        Ok(()) => ExitCode::SUCCESS,
        Err(message) => {
            eprintln!("{message}");
            ExitCode::FAILURE
        }
    }
}
