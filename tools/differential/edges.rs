//! Files that the generator above makes seldom: longest jumps of 254 to 257,
//! several faults in one file, small cooked trees, and junk behind a good header.

use super::*;

// ── Longest jumps of 254 to 257 ──────────────────────────────────────────────

/// Instructions of a leaf, its kind and the ports' place once known.
fn reach(v: &Values, r: &Record) -> usize {
    let (segments, rest) = ((r[3].min(128) as usize).div_ceil(16), r[3] % 16);
    let net6 = 2 * segments + (r[3] < 128 && rest > 0) as usize;
    let by_direction = match r[0] {
        14 => [2 * net6 + 1, net6, net6, 2 * net6],
        15 => [4, 2, 2, 4],
        16 => [7, 3, 3, 6],
        21 => [3, 0, 0, 0],
        _ => return length(v, r),
    };
    by_direction[r[1] as usize]
}

/// A chain with a condition under nots before or behind it. A not is one
/// instruction more.
struct Tuned {
    link: u8,
    before: Vec<Record>,
    filler: Record,
    after: Vec<Record>,
}

/// What a chain is made of; only the first six are taken by RawIp.
const EDGE_KINDS: [&[u8]; 14] = [
    &[13],
    &[15],
    &[16],
    &[15, 16],
    &[11, 13, 21],
    &[13, 16, 20],
    &[12],
    &[14],
    &[12, 14],
    &[14, 16],
    &[12, 15],
    &[17],
    &[17, 19],
    &[12, 13, 17],
];

impl Tuned {
    fn new(rng: &mut Rng) -> Tuned {
        let link = rng.pick(&[ETHERNET, RAWIP, SLL]);
        let kinds = rng.pick(&EDGE_KINDS[..if link == RAWIP { 6 } else { 14 }]);
        let mut v = Values::new(rng, if link == RAWIP { V4 } else { ALL });
        v.directions = rng.pick(&[vec![0], vec![3], vec![0, 3], vec![0, 1, 2, 3]]);
        v.prefixes = vec![rng.pick(&PREFIXES), 127, 128];
        v.senders = link == SLL;
        v.port_protocols = vec![rng.pick(&PORT_PROTOCOLS)];
        let join = rng.pick(&[AND, OR]);
        let row = Tuned::row(rng, &v, join, kinds);
        let filler = leaf(rng, &v, if link == RAWIP { 20 } else { 19 });
        let first = leaf(rng, &v, kinds[0]);
        let outer = record(rng.pick(&[AND, OR]));
        let inner = record(rng.pick(&[AND, OR]));
        let (before, after) = match rng.below(6) {
            0 => (vec![outer], row),
            1 => ([vec![outer], row].concat(), vec![]),
            2 => ([vec![record(NOT), outer], row].concat(), vec![]),
            3 => ([vec![outer, record(NOT)], row].concat(), vec![]),
            4 => ([vec![outer, first, inner], row].concat(), vec![]),
            _ => (vec![outer, first, inner], row),
        };
        Tuned {
            link,
            before,
            filler,
            after,
        }
    }

    /// Leaves in a row that fall short of the limit.
    fn row(rng: &mut Rng, v: &Values, join: u8, kinds: &[u8]) -> Vec<Record> {
        let target = rng.between(195, 240);
        let (mut leaves, mut sum) = (Vec::new(), 0);
        while sum < target && leaves.len() < 50 {
            let kind = rng.pick(kinds);
            let next = leaf(rng, v, kind);
            sum += reach(v, &next) + (join == OR) as usize;
            leaves.push(next);
        }
        in_a_row(rng, join, leaves)
    }

    /// The most nots that the file has room for.
    fn room(&self) -> usize {
        MOST - 1 - self.before.len() - self.after.len()
    }

    fn file(&self, nots: usize) -> Vec<u8> {
        let middle = [vec![record(NOT); nots], vec![self.filler]].concat();
        file_of(
            self.link,
            &[&self.before[..], &middle, &self.after].concat(),
        )
    }

    /// The fewest nots with which the build is refused with 8.
    fn first_far(&self, refusal: impl Fn(&[u8]) -> Option<u32>) -> Option<usize> {
        let far = |nots| refusal(&self.file(nots)) == Some(8);
        let (mut low, mut high) = (0, self.room());
        if far(low) || !far(high) {
            return None;
        }
        while high - low > 1 {
            let middle = (low + high) / 2;
            *(if far(middle) { &mut high } else { &mut low }) = middle;
        }
        Some(high)
    }
}

pub fn file_of(link: u8, records: &[Record]) -> Vec<u8> {
    [header(link, records.len()), records.concat()].concat()
}

/// Files of one tree that grows by an instruction: two that are taken and two
/// that are not, where there is room for as many. `refusal` says with what number
/// the Rust refuses a file.
pub fn tuned(rng: &mut Rng, refusal: impl Fn(&[u8]) -> Option<u32>) -> Vec<Vec<u8>> {
    let tuned = Tuned::new(rng);
    let Some(first) = tuned.first_far(refusal) else {
        return Vec::new();
    };
    let last = (first + 1).min(tuned.room());
    (first.saturating_sub(2)..=last)
        .map(|nots| tuned.file(nots))
        .collect()
}

// ── Several faults ───────────────────────────────────────────────────────────

/// A file, and the numbers of the faults that it has.
pub struct Faulty {
    pub file: Vec<u8>,
    pub faults: Vec<u32>,
}

impl Faulty {
    /// Whether a refusal fits: the least of 1 to 4, else one of the others.
    pub fn fits(&self, refusal: Option<u32>) -> bool {
        let least = self.faults.iter().copied().min();
        refusal.is_some_and(|n| match least {
            Some(1..=4) => least == Some(n),
            _ => self.faults.contains(&n),
        })
    }
}

/// The numbers of faults that go together: those of RawIp, which 5 and 7 are for, and those
/// of LinuxSll, which 15 is for. The last ones are met in the walk.
const RAW_FAULTS: &[u32] = &[1, 2, 3, 4, 5, 6, 7, 8];
const COOKED_FAULTS: &[u32] = &[1, 2, 3, 4, 6, 8, 15];
const FROM_WALK: usize = 4;

/// Two or three of the numbers of one link, or of those of the walk alone.
fn faults(rng: &mut Rng) -> Vec<u32> {
    let of_link = rng.pick(&[RAW_FAULTS, COOKED_FAULTS]);
    let least = rng.pick(&[0, FROM_WALK]);
    let wanted = rng.between(2, 3);
    let mut all = of_link[least..].to_vec();
    while all.len() > wanted {
        all.remove(rng.below(all.len()));
    }
    all
}

/// A part of the tree that a number of the walk turns down.
fn bad_part(rng: &mut Rng, link: u8, fault: u32) -> Vec<Record> {
    match fault {
        5 => vec![misfit(rng, link, Some(RAW_FIVE))],
        6 => vec![misfit(rng, link, Some(PORT_KINDS))],
        7 | 15 => vec![misfit(rng, link, Some(ETHER_KINDS))],
        _ => far_part(rng, link),
    }
}

/// More than 256 instructions that one jump passes over.
fn far_part(rng: &mut Rng, link: u8) -> Vec<Record> {
    let v = Values::new(rng, ALL);
    let (kind, direction, leaves) = if link == RAWIP {
        (13, 0, 44)
    } else {
        (12, 3, 9)
    };
    let mut one = leaf(rng, &v, kind);
    one[1] = direction;
    let join = rng.pick(&[AND, OR]);
    in_a_row(rng, join, vec![one; leaves])
}

/// The parts in an order that is drawn, joined by and, or and not as drawn.
fn joined(rng: &mut Rng, mut parts: Vec<Vec<Record>>) -> Vec<Record> {
    for i in (1..parts.len()).rev() {
        parts.swap(i, rng.below(i + 1));
    }
    while parts.len() > 1 {
        let at = rng.below(parts.len() - 1);
        let right = parts.remove(at + 1);
        let mut join = vec![record(rng.pick(&[AND, OR]))];
        if rng.one_in(6) {
            join.insert(0, record(NOT));
        }
        parts[at] = [&join, &parts[at], &right[..]].concat();
    }
    parts.remove(0)
}

/// A good tree and what the faults of the walk name, once or twice.
fn bad_tree(rng: &mut Rng, link: u8, faults: &[u32]) -> Vec<Record> {
    let mut v = Values::new(rng, if link == RAWIP { V4 } else { ALL });
    v.senders = link == SLL;
    let (shape, n) = (Shape::new(rng), rng.between(1, 9));
    let mut good = Vec::new();
    tree(rng, &v, &shape, n, &mut good);
    let mut parts = vec![good];
    for fault in faults.iter().copied().filter(|f| *f >= 5) {
        let part = bad_part(rng, link, fault);
        if fault != 8 && rng.one_in(2) {
            parts.push(part.clone());
        }
        parts.push(part);
    }
    joined(rng, parts)
}

/// One record too many or too few, so that the prefix order does not end there.
fn not_one_tree(rng: &mut Rng, records: &mut Vec<Record>) {
    match rng.below(3) {
        0 if records.len() > 1 => drop(records.pop()),
        1 => *records.last_mut().expect("a record") = record(NOT),
        _ => records.push(record(20)),
    }
}

/// A kind, direction or protocol that is not known, or a byte that is not used.
fn bad_record(rng: &mut Rng, records: &mut [Record]) {
    let at = rng.below(records.len());
    if rng.one_in(4) {
        records[at] = record(rng.pick(&[1, 2, 3, 19, 20, 21, 22]));
        records[at][rng.between(1, RECORD - 1)] = 1 << rng.below(8);
        return;
    }
    let unknown: [&[u8]; 3] = [&[0, 4, 9, 25, 255], &[4, 5, 255], &[13, 14, 255]];
    let byte = rng.below(3);
    records[at][byte] = rng.pick(unknown[byte]);
}

/// A count that is out of range or does not belong to the length.
fn wrong_count(rng: &mut Rng, file: &mut Vec<u8>) {
    let count = (file.len() / RECORD) as u16;
    match rng.below(4) {
        0 => write(file, 6, &rng.pick(&[0u16, 129, 256, 65535]).to_be_bytes()),
        1 => write(file, 6, &rng.pick(&[count - 1, count + 1]).to_be_bytes()),
        2 => file.truncate(file.len() - rng.between(1, 24)),
        _ => file.resize(file.len() + rng.between(1, 48), 0),
    }
}

fn strange(rng: &mut Rng, file: &mut Vec<u8>) {
    match rng.below(4) {
        0 => file[rng.below(3)] ^= 1 << rng.below(8),
        1 => file[rng.between(3, 4)] ^= 1 << rng.below(8),
        2 => file[5] = rng.pick(&[0, 4, 5, 129, 255]),
        _ => file.truncate(rng.below(8)),
    }
}

pub fn faulty(rng: &mut Rng) -> Faulty {
    let faults = faults(rng);
    let link = if faults.contains(&5) || faults.contains(&7) {
        RAWIP
    } else if faults.contains(&15) {
        SLL
    } else {
        rng.pick(&[ETHERNET, RAWIP, SLL])
    };
    let mut records = bad_tree(rng, link, &faults);
    if faults.contains(&4) {
        not_one_tree(rng, &mut records);
    }
    if faults.contains(&3) {
        bad_record(rng, &mut records);
    }
    let mut file = file_of(link, &records);
    if faults.contains(&2) {
        wrong_count(rng, &mut file);
    }
    if faults.contains(&1) {
        strange(rng, &mut file);
    }
    Faulty { file, faults }
}

// ── Small cooked trees ───────────────────────────────────────────────────────

/// An ether condition on LinuxSll, which mostly turns it down: alone, under a not, or with
/// another condition.
pub fn cooked(rng: &mut Rng) -> Vec<u8> {
    let mut v = Values::new(rng, ALL);
    v.directions = vec![EITHER, SOURCE, DESTINATION, BOTH];
    let kind = rng.pick(&[17, 17, 17, 19]);
    let ether = leaf(rng, &v, kind);
    v.senders = true;
    let other = any_leaf(rng, &v);
    let join = record(rng.pick(&[AND, OR]));
    let records = match rng.below(4) {
        0 => vec![ether],
        1 => vec![record(NOT), ether],
        2 => vec![join, ether, other],
        _ => vec![join, other, ether],
    };
    file_of(SLL, &records)
}

// ── Junk behind a good header ────────────────────────────────────────────────

/// A record of a known kind with some of its bytes drawn, or all of it drawn.
fn junk_record(rng: &mut Rng) -> Record {
    let mut r = record(rng.pick(&[1, 2, 3, 10, 10, 11, 12, 13, 14, 15, 16, 17, 18, 19, 23, 24]));
    match rng.below(8) {
        0 => r.copy_from_slice(&rng.bytes(RECORD)),
        1..=3 => {
            for _ in 0..rng.between(1, 3) {
                r[rng.below(RECORD)] = rng.below(256) as u8;
            }
        }
        4 => put(&mut r, 8, &rng.bytes(16)),
        _ => (),
    }
    if r[0] == 10 && r[2] == 0 {
        r[2] = rng.between(1, 13) as u8;
    }
    r
}

/// The link is known; count and length fit, mostly.
pub fn junk(rng: &mut Rng) -> Vec<u8> {
    let n = rng.pick(&[1, 1, 2, 3, 3, 5, 40, MOST]);
    let n = rng.between(1, n);
    let link = rng.between(1, 3) as u8;
    if rng.one_in(8) {
        let (count, size) = (rng.below(200), rng.below(4000));
        return [header(link, count), rng.bytes(size)].concat();
    }
    let records: Vec<Record> = (0..n).map(|_| junk_record(rng)).collect();
    file_of(link, &records)
}
