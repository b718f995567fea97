//! Runs a filter that is typed over frames.
//!
//!     typed LINK LINE FRAME...
//!
//! LINK is ethernet, raw or cooked. Prints the count of instructions, then a verdict for each frame;
//! or the line with a mark under the place where it is refused, and what could follow there. Ends
//! with 1 where a file cannot be read or something is refused.

use std::ffi::OsString;
use std::process::ExitCode;

use dabberpearl::{Link, Program, Tree};

/// The program of a line; or why there is none.
fn program_of(link: Link, line: &[u8]) -> Result<Program, String> {
    let tree = Tree::typed(link, line).map_err(|error| error.show(line).to_string())?;
    Program::from_tree(&tree).map_err(|error| format!("{}: {error}", String::from_utf8_lossy(line)))
}

/// The verdict on a frame; or why there is none.
fn judge(program: &Program, name: &OsString) -> Result<String, String> {
    let frame = std::fs::read(name).map_err(|error| error.to_string())?;
    let outcome = program.run(&frame).map_err(|error| error.to_string())?;
    Ok(outcome.verdict.to_string())
}

fn filter(link: Link, line: &[u8], frames: &[OsString]) -> Result<bool, String> {
    let program = program_of(link, line)?;
    let text = String::from_utf8_lossy(line);
    println!("{text}: {} instructions", program.len());
    let mut good = true;
    for name in frames {
        let judged = judge(&program, name);
        good &= judged.is_ok();
        let (Ok(word) | Err(word)) = judged;
        println!("{}: {word}", name.to_string_lossy());
    }
    Ok(good)
}

fn link_of(name: &OsString) -> Option<Link> {
    match name.to_str()? {
        "ethernet" => Some(Link::Ethernet),
        "raw" => Some(Link::RawIp),
        "cooked" => Some(Link::LinuxSll),
        _ => None,
    }
}

fn main() -> ExitCode {
    let words: Vec<OsString> = std::env::args_os().skip(1).collect();
    let link = words.first().and_then(link_of);
    let (Some(link), [_, line, frames @ ..]) = (link, &words[..]) else {
        eprintln!("usage: typed ethernet|raw|cooked LINE FRAME...");
        return ExitCode::FAILURE;
    };
    match filter(link, line.as_encoded_bytes(), frames) {
        Ok(true) => ExitCode::SUCCESS,
        Ok(false) => ExitCode::FAILURE,
        Err(message) => {
            println!("{message}");
            ExitCode::FAILURE
        }
    }
}
