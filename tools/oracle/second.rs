//! A second generator: a tree's instructions from document 01 and the requests after it,
//! in the source's order where the paper leaves that to the source. It calls nothing of
//! codegen.rs and shares nothing with the port. Cooked trees, of which the Rust has no say
//! any more (T-03), are compared with it; on every other tree it is held to the Rust.
//!
//! A part of a tree is told two labels: where a frame goes for which it holds, unless it
//! falls through, and where any other goes. The jumps to a label are resolved where it is
//! placed, and a distance that is too long is met there.

use crate::bpf::Insn;
use crate::Number;
use conditions::{code, equal, joined, kind, numbers, one_of, rest, row, starts_with};
use conditions::{Record, Rest, Sides, Step, Tests, COOKED, EITHER, IPV4, IPV6, KIND, RAW_IP};
use conditions::{ETHERTYPE, NEXT_HEADER, NONE, PORTS, PROTOCOL};

#[path = "second_conditions.rs"]
mod conditions;

const KIND_ON_RAW: Number = 5;
const FAR_JUMP: Number = 8;
const LONGEST: usize = 255;

/// Where the ethertype stands on Ethernet and on LinuxSll; the network header follows it.
const ETHERNET_ETHERTYPE: u32 = 12;
const COOKED_ETHERTYPE: u32 = 14;
const ETHERTYPE_BYTES: u32 = 2;
/// Places in the network header.
const IPV4_PROTOCOL: u32 = 9;
const IPV4_FRAGMENT: u32 = 6;
const IPV6_NEXT_HEADER: u32 = 6;

const FRAGMENT_BITS: u32 = 0x1FFF;
const IPV6_HEADER: u32 = 40;

type Label = usize;
type Done = Result<(), Number>;

/// Where a part of the tree leads.
#[derive(Clone, Copy)]
struct Ends {
    yes: Label,
    no: Label,
}

/// A jump that waits for its label: the place of its instruction, and with which outcome
/// of a comparison it is taken.
enum Jump {
    Always(usize),
    With(bool, usize),
}

struct Generator<'r> {
    link: u8,
    records: &'r [Record<'r>],
    program: Vec<Insn>,
    /// By label.
    waiting: Vec<Vec<Jump>>,
    known: Tests,
}

// ── Instructions and labels ──────────────────────────────────────────────────

impl Generator<'_> {
    fn push(&mut self, code: u16, k: u32) {
        let (jt, jf) = (0, 0);
        self.program.push(Insn { code, jt, jf, k });
    }

    fn label(&mut self) -> Label {
        self.waiting.push(Vec::new());
        self.waiting.len() - 1
    }

    fn jump(&mut self, to: Label) {
        self.waiting[to].push(Jump::Always(self.program.len()));
        self.push(code::JA, 0);
    }

    /// A jump where a comparison has an outcome; with the other it goes on.
    fn branch(&mut self, code: u16, k: u32, outcome: bool, to: Label) {
        self.waiting[to].push(Jump::With(outcome, self.program.len()));
        self.push(code, k);
    }

    /// The label stands before the next instruction.
    fn place(&mut self, label: Label) -> Done {
        for jump in std::mem::take(&mut self.waiting[label]) {
            let (Jump::Always(at) | Jump::With(_, at)) = jump;
            let distance = self.program.len() - at - 1;
            if distance > LONGEST {
                return Err(FAR_JUMP);
            }
            match jump {
                Jump::Always(_) => self.program[at].k = distance as u32,
                Jump::With(true, _) => self.program[at].jt = distance as u8,
                Jump::With(false, _) => self.program[at].jf = distance as u8,
            }
        }
        Ok(())
    }

    fn emit(&mut self, steps: &[Step], no: Label) {
        for Step(code, k, fails) in steps {
            match fails {
                None => self.push(*code, *k),
                Some(outcome) => self.branch(*code, *k, *outcome, no),
            }
        }
    }

    fn emit_sides(&mut self, sides: Sides, ends: Ends) -> Done {
        let ([first, second], [first_is, second_is]) = (&sides.steps, sides.order);
        match sides.direction {
            EITHER => self.emit_enough(first, sides.short, ends)?,
            direction if direction == second_is => (),
            _ => self.emit(first, ends.no),
        }
        if sides.direction != first_is {
            self.emit(second, ends.no);
        }
        Ok(())
    }

    /// The first of two sides where one is enough.
    fn emit_enough(&mut self, steps: &[Step], short: bool, ends: Ends) -> Done {
        let second = self.label();
        match steps {
            [loads @ .., Step(code, k, Some(fails))] if short => {
                self.emit(loads, second);
                self.branch(*code, *k, !fails, ends.yes);
            }
            _ => {
                self.emit(steps, second);
                self.jump(ends.yes);
            }
        }
        self.place(second)
    }
}

// ── Tests that the facts may know ────────────────────────────────────────────

impl Generator<'_> {
    fn ethertype_place(&self) -> Option<u32> {
        match self.link {
            RAW_IP => None,
            COOKED => Some(COOKED_ETHERTYPE),
            _ => Some(ETHERNET_ETHERTYPE),
        }
    }

    fn network(&self) -> u32 {
        self.ethertype_place().map_or(0, |at| at + ETHERTYPE_BYTES)
    }

    /// The load that a test begins with. RawIp has no place for an ethertype.
    fn looks_at(&self, what: usize) -> Result<(u16, u32), Number> {
        let n = self.network();
        match what {
            ETHERTYPE => Ok((code::LDH, self.ethertype_place().ok_or(KIND_ON_RAW)?)),
            PROTOCOL => Ok((code::LDB, n + IPV4_PROTOCOL)),
            _ => Ok((code::LDB, n + IPV6_NEXT_HEADER)),
        }
    }

    /// One of the first three tests; a protocol's stands behind its ethertype's.
    fn test(&mut self, what: usize, number: u32, no: Label) -> Done {
        match what {
            PROTOCOL => self.test(ETHERTYPE, IPV4, no)?,
            NEXT_HEADER => self.test(ETHERTYPE, IPV6, no)?,
            _ => (),
        }
        if self.known[what] == Some(number) {
            return Ok(());
        }
        let (load, at) = self.looks_at(what)?;
        self.emit(&equal(load, at, number), no);
        self.known[what].get_or_insert(number);
        Ok(())
    }

    /// A condition's first test, the narrowest that it has.
    fn start(&mut self, tests: Tests, no: Label) -> Done {
        let mut narrowest = [PORTS, PROTOCOL, NEXT_HEADER, ETHERTYPE].into_iter();
        match narrowest.find_map(|what| Some((what, tests[what]?))) {
            Some((PORTS, set)) => self.ready_ports(set, no),
            Some((what, number)) => self.test(what, number, no),
            None => Ok(()),
        }
    }

    /// What both sides of an or need, each in turn; RawIp leaves the ethertype to them.
    fn hoist(&mut self, tests: Tests, no: Label) -> Done {
        let raw = self.link == RAW_IP;
        for what in if raw { PROTOCOL } else { ETHERTYPE }..PORTS {
            if let Some(number) = tests[what] {
                self.test(what, number, no)?;
            }
        }
        tests[PORTS].map_or(Ok(()), |set| self.ready_ports(set, no))
    }

    /// The facts of an earlier place; ports are no longer ready if X was written since.
    fn back_to(&mut self, known: Tests, since: usize) {
        let loads_x = |insn: &Insn| [code::LDX_HEADER, code::LDX_NUMBER].contains(&insn.code);
        self.known = known;
        if self.program[since..].iter().any(loads_x) {
            self.known[PORTS] = None;
        }
    }
}

fn each(left: Tests, right: Tests, join: fn(Option<u32>, Option<u32>) -> Option<u32>) -> Tests {
    std::array::from_fn(|what| join(left[what], right[what]))
}

/// What both sides have.
fn shared(left: Tests, right: Tests) -> Tests {
    each(left, right, |l, r| l.filter(|_| l == r))
}

/// What is known where two paths meet: of two sets of ports the one with both.
fn meet(left: Tests, right: Tests) -> Tests {
    let mut known = shared(left, right);
    let sets = left[PORTS].zip(right[PORTS]);
    known[PORTS] = sets.and_then(|(l, r)| joined(l, r));
    known
}

// ── Ports ────────────────────────────────────────────────────────────────────

impl Generator<'_> {
    /// X at the ports of a frame whose protocol is in the set.
    fn ready_ports(&mut self, set: u32, no: Label) -> Done {
        if self.known[PORTS].is_some_and(|ready| ready & !set == 0) {
            return Ok(());
        }
        let ready = match self.known[ETHERTYPE] {
            Some(IPV4) => self.ready_for(PROTOCOL, set, no)?,
            Some(IPV6) => self.ready_for(NEXT_HEADER, set, no)?,
            _ => self.ready_for_both(set, no)?,
        };
        self.known[PORTS] = Some(ready);
        Ok(())
    }

    /// The protocol's byte has to be in the set.
    fn member(&mut self, what: usize, set: u32, no: Label) -> Done {
        let (found, numbers) = (self.label(), numbers(set));
        let (last, others) = numbers.split_last().expect("no set is empty");
        let (load, at) = self.looks_at(what)?;
        self.push(load, at);
        for number in others {
            self.branch(code::JEQ, *number, true, found);
        }
        self.branch(code::JEQ, *last, false, no);
        self.place(found)
    }

    /// A later fragment of IPv4 has no ports. Any write of X makes ports unready.
    fn load_x(&mut self, what: usize, no: Label) {
        let n = self.network();
        if what == PROTOCOL {
            self.push(code::LDH, n + IPV4_FRAGMENT);
            self.branch(code::JSET, FRAGMENT_BITS, true, no);
            self.push(code::LDX_HEADER, n);
        } else {
            self.push(code::LDX_NUMBER, IPV6_HEADER);
        }
        self.known[PORTS] = None;
    }

    /// Where the version is known. A protocol that is known, too, narrows the set; ports
    /// that are ready for more protocols only have theirs tested.
    fn ready_for(&mut self, what: usize, set: u32, no: Label) -> Result<u32, Number> {
        let again = self.known[PORTS].is_some();
        let pinned = self.known[what].filter(|_| !again);
        let pinned = pinned.and_then(|number| one_of(set, number));
        if pinned.is_none() {
            self.member(what, set, no)?;
        }
        if !again {
            self.load_x(what, no);
        }
        let ready = pinned.unwrap_or(set);
        if let [number] = numbers(ready)[..] {
            self.known[what].get_or_insert(number);
        }
        Ok(ready)
    }

    fn ready_for_both(&mut self, set: u32, no: Label) -> Result<u32, Number> {
        let (six, ready) = (self.label(), self.label());
        let (load, at) = self.looks_at(ETHERTYPE)?;
        self.push(load, at);
        self.branch(code::JEQ, IPV6, true, six);
        self.branch(code::JEQ, IPV4, false, no);
        self.member(PROTOCOL, set, no)?;
        self.load_x(PROTOCOL, no);
        self.jump(ready);
        self.place(six)?;
        self.member(NEXT_HEADER, set, no)?;
        self.load_x(NEXT_HEADER, no);
        self.place(ready)?;
        Ok(set)
    }
}

// ── The tree ─────────────────────────────────────────────────────────────────

impl Generator<'_> {
    /// What the part that starts at a record needs to hold, and where the next one starts.
    fn needs(&self, at: usize) -> (Tests, usize) {
        let join = self.records[at][KIND];
        if ![kind::AND, kind::OR, kind::NOT].contains(&join) {
            return (starts_with(self.records[at]), at + 1);
        }
        let (left, middle) = self.needs(at + 1);
        if join == kind::NOT {
            return (NONE, middle);
        }
        let (right, end) = self.needs(middle);
        match join {
            kind::AND => (each(left, right, Option::or), end),
            _ => (shared(left, right), end),
        }
    }

    /// Emits the part that starts at a record; where the next one starts.
    fn part(&mut self, at: usize, ends: Ends) -> Result<usize, Number> {
        match self.records[at][KIND] {
            kind::AND => self.and(at + 1, ends),
            kind::OR => self.or(at + 1, ends),
            kind::NOT => self.not(at + 1, ends),
            _ => self.condition(self.records[at], ends).map(|()| at + 1),
        }
    }

    fn condition(&mut self, r: Record, ends: Ends) -> Done {
        let rest = rest(self.link, self.network(), r)?;
        self.start(starts_with(r), ends.no)?;
        match rest {
            Rest::Steps(steps) => self.emit(&steps, ends.no),
            Rest::Sides(sides) => self.emit_sides(sides, ends)?,
        }
        Ok(())
    }

    fn and(&mut self, at: usize, ends: Ends) -> Result<usize, Number> {
        let yes = self.label();
        let middle = self.part(at, Ends { yes, ..ends })?;
        self.place(yes)?;
        self.part(middle, ends)
    }

    fn or(&mut self, at: usize, ends: Ends) -> Result<usize, Number> {
        let (left, middle) = self.needs(at);
        let (right, _) = self.needs(middle);
        self.hoist(shared(left, right), ends.no)?;
        let (known, since, no) = (self.known, self.program.len(), self.label());
        self.part(at, Ends { no, ..ends })?;
        let after_left = self.known;
        self.back_to(known, since);
        self.jump(ends.yes);
        self.place(no)?;
        let end = self.part(middle, ends)?;
        self.known = meet(after_left, self.known);
        Ok(end)
    }

    fn not(&mut self, at: usize, ends: Ends) -> Result<usize, Number> {
        let (known, since, no) = (self.known, self.program.len(), self.label());
        let end = self.part(at, Ends { yes: ends.no, no })?;
        self.back_to(known, since);
        self.jump(ends.no);
        self.place(no)?;
        Ok(end)
    }
}

/// The program for the records of one tree on a link, or the first of 5 to 8 and 15 that
/// the walk meets.
pub fn program(link: u8, records: &[Record]) -> Result<Vec<Insn>, Number> {
    const ACCEPT: u32 = u32::MAX;
    const DROP: u32 = 0;
    let raw = link == RAW_IP;
    let mut generator = Generator {
        link,
        records,
        program: Vec::new(),
        waiting: Vec::new(),
        known: if raw { row(IPV4, None, None) } else { NONE },
    };
    let (yes, no) = (generator.label(), generator.label());
    generator.part(0, Ends { yes, no })?;
    generator.place(yes)?;
    generator.push(code::RET, ACCEPT);
    generator.place(no)?;
    generator.push(code::RET, DROP);
    Ok(generator.program)
}
