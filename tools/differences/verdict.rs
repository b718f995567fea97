//! What the published Rust's `compile` and `inner` answer, `inner` without document 01's limits. A
//! line `build TREEHEX` gives the program in hex or `refused N`; a line `run PROGRAMHEX FRAMEHEX`,
//! `-` for no bytes, gives `Some(true)`, `Some(false)` or `None`.

use std::io::{self, BufRead, Write};

include!("answers.rs");

fn bytes(text: &str) -> Vec<u8> {
    let digits = if text == "-" { "" } else { text };
    let pair = |at| u8::from_str_radix(&digits[at..at + 2], 16);
    let all: Result<Vec<u8>, _> = (0..digits.len()).step_by(2).map(pair).collect();
    all.unwrap_or_else(|_| fail("not hex"))
}

/// The Rust's own program for a tree file that passes checks 1 to 4, cooked or not.
fn built(file: &str) -> String {
    let file = bytes(file);
    match check(&file).and_then(|(link, records)| rust_program(link, records)) {
        Ok(program) => {
            let bytes = program.iter().flat_map(|i| i.to_le_bytes());
            bytes.map(|b| format!("{b:02x}")).collect()
        }
        Err(number) => format!("refused {number}"),
    }
}

fn ran(program: &str, frame: &str) -> String {
    let program: Vec<Insn> = bytes(program).chunks_exact(INSN).map(insn).collect();
    format!("{:?}", vm::verdict(&program, &bytes(frame)))
}

fn main() -> io::Result<()> {
    for line in io::stdin().lock().lines() {
        let line = line?;
        let words: Vec<&str> = line.split(' ').collect();
        let answer = match words[..] {
            ["build", file] => built(file),
            ["run", program, frame] => ran(program, frame),
            _ => fail("wants build TREEHEX, or run PROGRAMHEX FRAMEHEX"),
        };
        writeln!(io::stdout(), "{answer}")?;
        io::stdout().flush()?;
    }
    Ok(())
}
