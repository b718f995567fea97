//! A gate reserves a slot of its program memory before it loads a program.
//!
//!     slots
//!
//! Each row's tree is asked for its size, so many instructions are reserved, and the program is
//! loaded into them. Some trees are edited in between: one that keeps its size is loaded as it then
//! is; one that does not is refused, its slot is given back, and it is asked anew. Prints what comes
//! of each row, then the verdicts of those that are loaded. Ends with 1 where a line cannot be typed.

use std::error::Error;
use std::ops::Range;

use dabberpearl::{load, run, Link, Refusal, Size, Tree};

/// The instructions of the program memory, and the bytes of each.
const MEMORY: usize = 32;
const INSTRUCTION: usize = 8;

/// Some instructions in a row.
type Slot = Range<usize>;

/// Program memory, and which instructions of it are taken.
struct Memory {
    bytes: [u8; MEMORY * INSTRUCTION],
    taken: [bool; MEMORY],
}

impl Memory {
    /// The first free slot of a size.
    fn reserve(&mut self, size: Size) -> Option<Slot> {
        let mut runs = self.taken.windows(size.count());
        let first = runs.position(|run| run.iter().all(|taken| !taken))?;
        let slot = first..first + size.count();
        self.taken[slot.clone()].fill(true);
        Some(slot)
    }

    fn give_back(&mut self, slot: Slot) {
        self.taken[slot].fill(false);
    }

    fn bytes_of(&mut self, slot: &Slot) -> &mut [u8] {
        &mut self.bytes[INSTRUCTION * slot.start..INSTRUCTION * slot.end]
    }
}

/// A tree, and what it is edited to after the question, if it is.
struct Row {
    tree: Tree,
    edited: Option<&'static str>,
}

fn typed(line: &str) -> Result<Tree, dabberpearl::Error> {
    Ok(Tree::typed(Link::RawIp, line)?)
}

impl Row {
    /// Somebody edits the tree, once.
    fn edit(&mut self) -> Result<(), dabberpearl::Error> {
        if let Some(line) = self.edited.take() {
            println!("  edited to: {line}");
            self.tree = typed(line)?;
        }
        Ok(())
    }

    /// Asks, reserves and loads, and does so again where the count has moved in between. The slot;
    /// none where there is no room.
    fn fill(&mut self, memory: &mut Memory) -> Result<Option<Slot>, dabberpearl::Error> {
        loop {
            let size = self.tree.size()?;
            let Some(slot) = memory.reserve(size) else {
                println!("  {} instructions: no slot is free", size.count());
                return Ok(None);
            };
            let last = slot.end - 1;
            println!(
                "  {} instructions: slot {} to {last}",
                size.count(),
                slot.start
            );
            self.edit()?;
            let Err(error) = load(self.tree.as_bytes(), size, memory.bytes_of(&slot)) else {
                println!("  loaded");
                return Ok(Some(slot));
            };
            memory.give_back(slot);
            if error != Refusal::CountMoved.into() {
                return Err(error);
            }
            println!("  {error}");
        }
    }
}

/// An IPv4 packet to a port.
fn packet(protocol: u8, port: u16) -> [u8; 64] {
    let mut packet = [0; 64];
    packet[0] = 0x45; // IPv4, a header of 20 bytes
    packet[9] = protocol;
    packet[22..24].copy_from_slice(&port.to_be_bytes());
    packet
}

fn main() -> Result<(), Box<dyn Error>> {
    let mut memory = Memory {
        bytes: [0; MEMORY * INSTRUCTION],
        taken: [false; MEMORY],
    };
    let rows = [
        ("tcp dst port 502", None),
        ("tcp dst port 502", Some("tcp dst port 503")), // another program of equal count
        ("udp", Some("udp or tcp")),                    // one of another count
        ("port 502", None),                             // too large for what is left
        ("ip6", None),                                  // refused by the question
        ("not tcp", None),
    ];
    let mut slots = vec![];
    for (i, (line, edited)) in rows.into_iter().enumerate() {
        println!("row {i}: {line}");
        let tree = typed(line)?;
        let filled = Row { tree, edited }.fill(&mut memory);
        let slot = filled.unwrap_or_else(|error| {
            println!("  {error}");
            None
        });
        slots.extend(slot.map(|slot| (i, slot)));
    }
    for (what, protocol, port) in [("TCP", 6, 502), ("TCP", 6, 503), ("UDP", 17, 502)] {
        println!("{what} to port {port}");
        for (i, slot) in &slots {
            let outcome = run(memory.bytes_of(slot), &packet(protocol, port))?;
            println!("  row {i}: {}", outcome.verdict);
        }
    }
    Ok(())
}
