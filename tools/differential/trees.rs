//! Random tree files; a seed fixes them all. The generator of
//! tools/oracle/trees.py with the same draws, so that both give the same files.
//!
//! Few distinct values, so that guards, facts and hoisted tests meet often. Most
//! files pass checks 1 to 4; about a tenth are damaged. Of the others some hold a
//! condition that the link or the port cannot take (5, 6, 7, 15), and some have
//! jumps of about 255.

#[path = "edges.rs"]
pub mod edges;
#[path = "systematic.rs"]
pub mod systematic;

pub const AND: u8 = 1;
pub const OR: u8 = 2;
pub const NOT: u8 = 3;
pub const ETHERNET: u8 = 1;
pub const RAWIP: u8 = 2;
pub const SLL: u8 = 3;
pub const EITHER: u8 = 0;
pub const SOURCE: u8 = 1;
pub const DESTINATION: u8 = 2;
pub const BOTH: u8 = 3;
const RECORD: usize = 24;
pub const MOST: usize = 128;

pub type Record = [u8; RECORD];

/// splitmix64: the same draws on every machine.
pub struct Rng(pub u64);

impl Rng {
    pub fn draw(&mut self) -> u64 {
        self.0 = self.0.wrapping_add(0x9E37_79B9_7F4A_7C15);
        let mut z = self.0;
        z = (z ^ z >> 30).wrapping_mul(0xBF58_476D_1CE4_E5B9);
        z = (z ^ z >> 27).wrapping_mul(0x94D0_49BB_1331_11EB);
        z ^ z >> 31
    }

    pub fn below(&mut self, n: usize) -> usize {
        (self.draw() % n as u64) as usize
    }

    pub fn between(&mut self, low: usize, high: usize) -> usize {
        low + self.below(high - low + 1)
    }

    pub fn one_in(&mut self, n: usize) -> bool {
        self.below(n) == 0
    }

    pub fn pick<T: Clone>(&mut self, items: &[T]) -> T {
        items[self.below(items.len())].clone()
    }

    /// A few draws of items, to be drawn from again.
    fn some<T: Clone>(&mut self, items: &[T], n: usize) -> Vec<T> {
        (0..n).map(|_| self.pick(items)).collect()
    }

    fn bytes(&mut self, n: usize) -> Vec<u8> {
        (0..n).map(|_| self.below(256) as u8).collect()
    }
}

// ── Values ───────────────────────────────────────────────────────────────────

const ETHERTYPES: [u16; 7] = [0x0800, 0x86DD, 0x0806, 0x8035, 0x8100, 0x0000, 0xFFFF];
const NUMBERS: [u8; 8] = [6, 17, 132, 1, 58, 2, 0, 255];
const PORTS: [u16; 5] = [53, 80, 81, 0, 65535];
pub const PREFIXES: [u8; 14] = [0, 1, 15, 16, 17, 32, 64, 100, 112, 113, 127, 128, 129, 255];
pub const MASKS: [u32; 7] = [
    0,
    0xFFFF_FF00,
    0xFFFF_FFFF,
    0xFF00_0000,
    0x00FF_00FF,
    0x8000_0001,
    0x0000_FFFE,
];
pub const ADDRS4: [u32; 6] = [
    0x0A00_0001,
    0x0A00_00FF,
    0xC0A8_0117,
    0xE000_0001,
    0xFFFF_FFFF,
    0,
];
pub const ADDRS6: [u128; 6] = [
    0x20010db8000000000000000000000001,
    0x20010db8000100020003000400050006,
    0xfe80000000000000021122fffe334455,
    0xff020000000000000000000000000001,
    0,
    u128::MAX,
];
pub const MACS: [u64; 4] = [0x0200_0000_00AA, 0xFFFF_FFFF_FFFF, 0x0100_5E00_0001, 0];

pub const PORT_PROTOCOLS: [u8; 4] = [0, 5, 6, 10];
pub const BAD_PORT_PROTOCOLS: [u8; 9] = [1, 2, 3, 4, 7, 8, 9, 11, 12];

/// The kinds, protocols and ethertypes that a file draws from.
pub type Flavour = (&'static [u8], &'static [u8], &'static [u16]);

const PROTOCOLS: &[u8] = &[1, 2, 3, 4, 5, 6, 7, 8, 9, 10, 11, 12];
pub const ALL: Flavour = (
    &[10, 11, 12, 13, 14, 15, 16, 17, 18, 19, 20, 21, 22, 23, 24],
    PROTOCOLS,
    &ETHERTYPES,
);
const V4: Flavour = (
    &[10, 10, 11, 13, 15, 16, 18, 20, 21, 23],
    &[1, 5, 6, 7, 9, 10, 11],
    &[0x0800],
);
const V6: Flavour = (
    &[10, 10, 12, 14, 15, 16, 18, 22, 24],
    &[2, 8, 12],
    &[0x86DD],
);
const BOTH_PORTS: Flavour = (
    &[10, 15, 15, 16, 18, 23, 24],
    &[1, 2, 5, 6, 10, 11, 12],
    &[0x0800, 0x86DD],
);
const PORTS6: Flavour = (&[10, 10, 15, 15, 16, 24], &[2, 12], &[0x86DD]);
const PORTS4: Flavour = (&[10, 15, 15, 16, 23], &[1, 5, 6, 10, 11], &[0x0800]);
const KINDS: Flavour = (&[10, 10, 18, 23, 24], PROTOCOLS, &ETHERTYPES);
const ETHER: Flavour = (&[10, 17, 17, 18, 19], &[1, 2, 3, 4], &ETHERTYPES);
const FLAVOURS: [Flavour; 8] = [ALL, V4, V6, BOTH_PORTS, PORTS6, PORTS4, KINDS, ETHER];

pub fn record(kind: u8) -> Record {
    let mut r = [0; RECORD];
    r[0] = kind;
    r
}

pub fn put(r: &mut Record, at: usize, bytes: &[u8]) {
    r[at..at + bytes.len()].copy_from_slice(bytes);
}

/// The few values that one file uses.
pub struct Values {
    kinds: Vec<u8>,
    protocols: Vec<u8>,
    ethertypes: Vec<u16>,
    numbers: Vec<u8>,
    ports: Vec<u16>,
    port_protocols: Vec<u8>,
    pub directions: Vec<u8>,
    addrs4: Vec<u32>,
    addrs6: Vec<u128>,
    macs: Vec<u64>,
    masks: Vec<u32>,
    pub prefixes: Vec<u8>,
    /// Of the ether conditions the sender's alone, which LinuxSll takes.
    pub senders: bool,
    pool: Vec<Record>,
}

impl Values {
    pub fn new(rng: &mut Rng, (kinds, protocols, ethertypes): Flavour) -> Values {
        let first = &ethertypes[..ethertypes.len().min(3)];
        Values {
            kinds: if rng.one_in(2) {
                kinds.to_vec()
            } else {
                rng.some(kinds, 3)
            },
            protocols: rng.some(protocols, 3),
            ethertypes: [rng.some(first, 2), rng.some(ethertypes, 1)].concat(),
            numbers: vec![
                rng.pick(&NUMBERS[..3]),
                rng.pick(&NUMBERS[..5]),
                rng.pick(&NUMBERS),
            ],
            ports: [rng.some(&PORTS[..2], 2), rng.some(&PORTS, 1)].concat(),
            port_protocols: [rng.some(&PORT_PROTOCOLS, 2), vec![0]].concat(),
            directions: rng.some(&[0, 1, 2, 3], 3),
            addrs4: rng.some(&ADDRS4, 2),
            addrs6: rng.some(&ADDRS6, 2),
            macs: rng.some(&MACS, 2),
            masks: rng.some(&MASKS, 2),
            prefixes: rng.some(&PREFIXES, 2),
            senders: false,
            pool: Vec::new(),
        }
    }

    /// Most files of LinuxSll have ether conditions that it takes, half of these whatever
    /// their flavour.
    fn keep_to_senders(&mut self, rng: &mut Rng, link: u8) {
        self.senders = link == SLL && !rng.one_in(8);
        if self.senders && rng.one_in(2) {
            self.kinds.push(17);
        }
    }

    /// From now on every leaf is one of a few, at times a misfit.
    fn fill_pool(&mut self, rng: &mut Rng, link: u8) {
        let leaves = rng.between(2, 5);
        let mut pool: Vec<Record> = (0..leaves).map(|_| any_leaf(rng, self)).collect();
        if rng.one_in(if link == RAWIP { 3 } else { 12 }) {
            for _ in 0..rng.between(1, 3) {
                pool.push(misfit(rng, link, None));
            }
        }
        self.pool = pool;
    }
}

// ── Leaves ───────────────────────────────────────────────────────────────────

fn protocol_leaf(rng: &mut Rng, v: &Values) -> Record {
    let mut r = record(10);
    r[2] = rng.pick(&v.protocols);
    if r[2] >= 11 {
        r[3] = rng.pick(&v.numbers);
    }
    r
}

fn port_leaf(rng: &mut Rng, v: &Values, kind: u8) -> Record {
    let mut r = record(kind);
    let low = rng.pick(&v.ports);
    let high = if rng.one_in(2) {
        rng.pick(&v.ports)
    } else {
        low.saturating_add(rng.below(3) as u16)
    };
    put(&mut r, 4, &low.to_be_bytes());
    if kind == 16 {
        put(&mut r, 6, &high.to_be_bytes());
    }
    r[2] = rng.pick(&v.port_protocols);
    r[1] = rng.pick(&v.directions);
    r
}

fn address_leaf(rng: &mut Rng, v: &Values, kind: u8) -> Record {
    let mut r = record(kind);
    match kind {
        11 | 13 => put(&mut r, 8, &rng.pick(&v.addrs4).to_be_bytes()),
        12 | 14 => put(&mut r, 8, &rng.pick(&v.addrs6).to_be_bytes()),
        _ => put(&mut r, 8, &rng.pick(&v.macs).to_be_bytes()[2..]),
    }
    if kind == 13 {
        put(&mut r, 12, &rng.pick(&v.masks).to_be_bytes());
    }
    if kind == 14 {
        r[3] = rng.pick(&v.prefixes);
    }
    r[1] = rng.pick(&v.directions);
    r
}

fn sender_leaf(rng: &mut Rng, v: &Values) -> Record {
    let mut r = record(17);
    r[1] = SOURCE;
    put(&mut r, 8, &rng.pick(&v.macs).to_be_bytes()[2..]);
    r
}

pub fn leaf(rng: &mut Rng, v: &Values, kind: u8) -> Record {
    let mut r = record(kind);
    match kind {
        17 | 19 if v.senders => return sender_leaf(rng, v),
        10 => return protocol_leaf(rng, v),
        15 | 16 => return port_leaf(rng, v, kind),
        11..=14 | 17 => return address_leaf(rng, v, kind),
        18 => put(&mut r, 4, &rng.pick(&v.ethertypes).to_be_bytes()),
        23 | 24 => r[3] = rng.pick(&v.numbers),
        _ => (),
    }
    r
}

/// Of the pool, or of the file's kinds.
fn any_leaf(rng: &mut Rng, v: &Values) -> Record {
    if !v.pool.is_empty() {
        return rng.pick(&v.pool);
    }
    let kind = rng.pick(&v.kinds);
    leaf(rng, v, kind)
}

/// Kinds that RawIp turns down with 5, and with 6 or 7; those that LinuxSll takes for the
/// sender alone, and else turns down with 15.
const RAW_FIVE: &[u8] = &[10, 10, 12, 14, 18, 22, 24];
const RAW_OTHER: &[u8] = &[15, 16, 17, 19];
const PORT_KINDS: &[u8] = &[15, 16];
const ETHER_KINDS: &[u8] = &[17, 19];

fn misfits(link: u8) -> Vec<u8> {
    match link {
        RAWIP => [RAW_FIVE, RAW_OTHER].concat(),
        SLL => [PORT_KINDS, ETHER_KINDS].concat(),
        _ => PORT_KINDS.to_vec(),
    }
}

/// A leaf for 6, or on RawIp for 5, 6 or 7, or on LinuxSll for 6 or 15.
fn misfit(rng: &mut Rng, link: u8, kinds: Option<&[u8]>) -> Record {
    let mut v = Values::new(rng, ALL);
    v.port_protocols = BAD_PORT_PROTOCOLS.to_vec();
    v.protocols = vec![2, 3, 4, 8, 12];
    v.ethertypes = ETHERTYPES[1..].to_vec();
    let kind = rng.pick(kinds.unwrap_or(&misfits(link)));
    let mut r = leaf(rng, &v, kind);
    if PORT_KINDS.contains(&kind) && r[2] >= 11 && rng.one_in(2) {
        r[3] = rng.pick(&NUMBERS);
    }
    if kind == 17 && r[1] == SOURCE && link == SLL {
        r[1] = rng.pick(&[EITHER, DESTINATION, BOTH]);
    }
    r
}

// ── Trees ────────────────────────────────────────────────────────────────────

#[derive(Clone)]
enum Split {
    Any,
    Left,
    Right,
    Even,
}

/// How one file's joins are laid out.
struct Shape {
    split: Split,
    joins: &'static [u8],
    nots: usize,
}

impl Shape {
    fn new(rng: &mut Rng) -> Shape {
        const JOINS: [&[u8]; 5] = [&[AND], &[OR], &[AND, OR], &[AND, OR], &[AND, AND, AND, OR]];
        Shape {
            split: rng.pick(&[
                Split::Any,
                Split::Any,
                Split::Left,
                Split::Right,
                Split::Even,
            ]),
            joins: rng.pick(&JOINS),
            nots: rng.pick(&[0, 0, 8, 3]),
        }
    }

    /// The left part's records, of n for both.
    fn left_size(&self, rng: &mut Rng, n: usize) -> usize {
        match self.split {
            Split::Left => n - rng.pick(&[1, 1, 1, 3]).min(n - 1),
            Split::Right => rng.pick(&[1, 1, 1, 3]).min(n - 1),
            Split::Even => n / 2,
            Split::Any => rng.between(1, n - 1),
        }
    }
}

/// Appends a tree of n records in prefix order.
fn tree(rng: &mut Rng, v: &Values, shape: &Shape, n: usize, out: &mut Vec<Record>) {
    if n == 1 {
        out.push(any_leaf(rng, v));
    } else if n == 2 || shape.nots > 0 && rng.one_in(shape.nots) {
        out.push(record(NOT));
        tree(rng, v, shape, n - 1, out);
    } else {
        let left = shape.left_size(rng, n - 1);
        out.push(record(rng.pick(shape.joins)));
        tree(rng, v, shape, left, out);
        tree(rng, v, shape, n - 1 - left, out);
    }
}

fn size(rng: &mut Rng) -> usize {
    let (low, high) = rng.pick(&[
        (1, 3),
        (2, 9),
        (2, 9),
        (5, 20),
        (10, 40),
        (20, 60),
        (60, MOST),
        (MOST - 1, MOST),
    ]);
    rng.between(low, high)
}

fn link_and_flavour(rng: &mut Rng) -> (u8, Flavour) {
    let link = rng.pick(&[ETHERNET, ETHERNET, RAWIP, SLL]);
    if link == RAWIP && !rng.one_in(8) {
        return (link, rng.pick(&[V4, PORTS4]));
    }
    (link, rng.pick(&FLAVOURS))
}

fn plain_file(rng: &mut Rng) -> (u8, Vec<Record>) {
    let (link, flavour) = link_and_flavour(rng);
    let mut v = Values::new(rng, flavour);
    v.keep_to_senders(rng, link);
    if rng.one_in(3) {
        v.fill_pool(rng, link);
    }
    let (shape, n) = (Shape::new(rng), size(rng));
    let mut records = Vec::new();
    tree(rng, &v, &shape, n, &mut records);
    let misfits = match link {
        RAWIP => 6,
        SLL => 10,
        _ => 16,
    };
    if rng.one_in(misfits) {
        let at = rng.below(records.len());
        if records[at][0] >= 10 {
            records[at] = misfit(rng, link, None);
        }
    }
    (link, records)
}

/// RawIp or LinuxSll, an or of two conjunctions with misfits: which is met first?
fn clash_file(rng: &mut Rng) -> (u8, Vec<Record>) {
    let link = rng.pick(&[RAWIP, RAWIP, SLL]);
    let (often, other) = match link {
        RAWIP => (RAW_FIVE, RAW_OTHER),
        _ => (ETHER_KINDS, PORT_KINDS),
    };
    let mut v = Values::new(rng, V4);
    let one = misfit(rng, link, Some(often));
    v.pool = vec![one, one, misfit(rng, link, Some(other)), any_leaf(rng, &v)];
    let shape = Shape {
        joins: &[AND],
        nots: 0,
        ..Shape::new(rng)
    };
    let mut records = vec![record(OR)];
    for _ in 0..2 {
        let n = rng.pick(&[1, 3, 3]);
        tree(rng, &v, &shape, n, &mut records);
    }
    (link, records)
}

// ── Trees whose jumps reach about 255 ────────────────────────────────────────

/// Instructions of a leaf, its kind once known from the facts.
fn length(v: &Values, r: &Record) -> usize {
    let by_direction = match r[0] {
        17 if v.senders => [0, 6, 0, 0],
        11 => [4, 2, 2, 4],
        12 => [33, 16, 16, 32],
        13 => [6, 3, 3, 6],
        17 => [9, 4, 4, 8],
        _ => [2, 0, 0, 0],
    };
    by_direction[r[1] as usize]
}

/// Leaves joined from the left or the right, target instructions or a bit more.
fn chain(rng: &mut Rng, v: &Values, join: u8, kinds: &[u8], target: usize) -> Vec<Record> {
    let (mut leaves, mut sum) = (Vec::new(), 0);
    while sum < target && 2 * leaves.len() + 1 < MOST - 7 {
        let kind = rng.pick(kinds);
        let next = leaf(rng, v, kind);
        sum += length(v, &next) + (join == OR) as usize;
        leaves.push(next);
    }
    in_a_row(rng, join, leaves)
}

/// All joined the same way, from the left or from the right.
fn in_a_row(rng: &mut Rng, join: u8, mut leaves: Vec<Record>) -> Vec<Record> {
    let joins = vec![record(join); leaves.len() - 1];
    if rng.one_in(2) {
        return [joins, leaves].concat();
    }
    let last = leaves.split_off(joins.len());
    let pairs = leaves.into_iter().flat_map(|l| [record(join), l]);
    pairs.chain(last).collect()
}

/// The chain alone, under a not, or joined to more leaves.
fn wrap(rng: &mut Rng, v: &Values, link: u8, records: Vec<Record>) -> Vec<Record> {
    let extra = if rng.one_in(4) {
        misfit(rng, link, None)
    } else {
        any_leaf(rng, v)
    };
    let join = record(rng.pick(&[AND, OR]));
    let port = leaf(rng, v, 15);
    let (before, after) = match rng.below(7) {
        0 => (vec![], vec![]),
        1 => (vec![record(NOT)], vec![]),
        2 => (vec![join, record(NOT)], vec![extra]),
        3 => (vec![join, extra], vec![]),
        4 | 5 => (vec![join], vec![extra]),
        _ => (
            vec![record(OR), join, record(NOT), record(AND), port],
            vec![extra, port],
        ),
    };
    [before, records, after].concat()
}

fn far_file(rng: &mut Rng) -> (u8, Vec<Record>) {
    const DIRECTIONS: [&[u8]; 4] = [&[EITHER], &[BOTH], &[EITHER, BOTH], &[0, 1, 2, 3]];
    const FAR_KINDS: [&[u8]; 6] = [&[13], &[11, 13, 13], &[17], &[17, 19], &[12, 19], &[12, 17]];
    let (link, flavour) = link_and_flavour(rng);
    let mut v = Values::new(rng, flavour);
    v.keep_to_senders(rng, link);
    v.directions = rng.pick(&DIRECTIONS).to_vec();
    let kinds = rng.pick(&FAR_KINDS[..if link == RAWIP { 2 } else { 6 }]);
    let target = rng.between(244, 262);
    let join = rng.pick(&[AND, OR]);
    let records = chain(rng, &v, join, kinds, target);
    (link, wrap(rng, &v, link, records))
}

/// Families whose guards differ, so that nothing is hoisted far ahead.
const FAMILIES: [&[u8]; 6] = [
    &[14],
    &[12, 14],
    &[11, 13, 20, 21],
    &[15, 16],
    &[16],
    &[17, 19],
];

/// And and or in turn, from the left: short jumps, a long program.
pub fn ladder_file(rng: &mut Rng) -> (u8, Vec<Record>) {
    let link = rng.pick(&[ETHERNET, SLL]);
    let mut v = Values::new(rng, ALL);
    v.keep_to_senders(rng, link);
    v.directions = vec![EITHER, EITHER, rng.below(4) as u8];
    v.prefixes = vec![127, rng.pick(&PREFIXES)];
    let joins = rng.between(MOST / 4, (MOST - 1) / 2);
    let families = rng.some(&FAMILIES, 2);
    let mut records: Vec<Record> = (0..joins).map(|i| record([AND, OR][i % 2])).collect();
    for i in 0..=joins {
        let kind = rng.pick(families[i % 2]);
        records.push(leaf(rng, &v, kind));
    }
    (link, records)
}

// ── Damage ───────────────────────────────────────────────────────────────────

fn header(link: u8, count: usize) -> Vec<u8> {
    let [high, low] = (count as u16).to_be_bytes();
    vec![b'P', b'F', b'T', 0, 1, link, high, low]
}

/// Writes data at a place, where the file has that place.
fn write(file: &mut [u8], at: usize, data: &[u8]) {
    if at + data.len() <= file.len() {
        file[at..at + data.len()].copy_from_slice(data);
    }
}

fn recount(file: &mut [u8]) {
    let count = file.len().saturating_sub(8) / RECORD;
    write(file, 6, &(count as u16).to_be_bytes());
}

/// Where a record starts, or where one would.
fn place(rng: &mut Rng, file: &[u8]) -> usize {
    8 + RECORD * rng.below((file.len().saturating_sub(8) / RECORD).max(1))
}

/// A record's byte becomes one of a few.
fn spoil(rng: &mut Rng, file: &mut [u8], byte: usize, values: &[u8]) {
    let at = place(rng, file) + byte;
    let value = rng.pick(values);
    write(file, at, &[value]);
}

fn bad_count(rng: &mut Rng, file: &mut [u8]) {
    let part = |at: usize| *file.get(at).unwrap_or(&0) as u16;
    let count = match file.len() {
        0..=6 => 0,
        7 => part(6),
        _ => 256 * part(6) + part(7),
    };
    let counts = [
        0,
        129,
        256,
        65535,
        count.wrapping_add(1),
        count.saturating_sub(1),
    ];
    let count = rng.pick(&counts);
    write(file, 6, &count.to_be_bytes());
}

fn missing_record(rng: &mut Rng, file: &mut Vec<u8>) {
    let at = place(rng, file).min(file.len());
    file.drain(at..(at + RECORD).min(file.len()));
    recount(file);
}

/// One more record, in the middle or after the end, at times a bad one.
fn extra_record(rng: &mut Rng, file: &mut Vec<u8>) {
    let at = if rng.one_in(2) {
        file.len()
    } else {
        place(rng, file).min(file.len())
    };
    let extra = record(rng.pick(&[1, 3, 19, 20, 21, 25, 0]));
    file.splice(at..at, extra);
    recount(file);
}

fn cut_file(rng: &mut Rng, file: &mut Vec<u8>) {
    let cut = rng.pick(&[1, 2, 23, 24, 25]);
    file.truncate(file.len().saturating_sub(cut));
}

fn swapped_records(rng: &mut Rng, file: &mut [u8]) {
    let (a, b) = (place(rng, file), place(rng, file));
    let part = |at: usize| file[at.min(file.len())..(at + RECORD).min(file.len())].to_vec();
    let (one, other) = (part(a), part(b));
    write(file, a, &other);
    write(file, b, &one);
}

fn huge_file(file: &mut Vec<u8>) {
    let link = *file.get(5).unwrap_or(&1);
    *file = header(link, MOST + 1);
    file.extend([record(AND); MOST / 2].concat());
    file.extend([record(20); MOST / 2 + 1].concat());
}

fn junk_records(rng: &mut Rng, file: &mut Vec<u8>) {
    let n = rng.between(1, 3);
    *file = header(rng.between(1, 3) as u8, n);
    file.extend(rng.bytes(RECORD * n));
}

fn damage(rng: &mut Rng, file: &mut Vec<u8>) {
    match rng.below(22) {
        0 => {
            let at = rng.below(3);
            write(file, at, &[rng.pick(b"pP\0T")]);
        }
        1 => write(
            file,
            3,
            &rng.pick(&[0u16, 2, 0x0100, 0x0101, 65535]).to_be_bytes(),
        ),
        2 => write(file, 5, &[rng.pick(&[0, 4, 5, 255])]),
        3 => bad_count(rng, file),
        4 => spoil(rng, file, 0, &[0, 4, 9, 25, 26, 128, 255]),
        5 => spoil(rng, file, 0, &[1, 2, 3, 19, 20, 21, 22]),
        6 => spoil(rng, file, 0, ALL.0),
        7 => spoil(rng, file, 1, &[1, 3, 4, 5, 255]),
        8 => spoil(rng, file, 2, &[0, 1, 12, 13, 14, 255]),
        9 => spoil(rng, file, 3, &[1, 6, 128]),
        10 => {
            let at = place(rng, file) + rng.between(4, 23);
            write(file, at, &[1 << rng.below(8)]);
        }
        11 => missing_record(rng, file),
        12 | 13 => extra_record(rng, file),
        14 => cut_file(rng, file),
        15 => file.resize(file.len() + rng.pick(&[1, 23, 24, 25, 48]), 0),
        16 => file.truncate(rng.below(9)),
        17 => swapped_records(rng, file),
        18 => huge_file(file),
        19 => file.clear(),
        20 => {
            let n = rng.below(80);
            *file = rng.bytes(n);
        }
        _ => junk_records(rng, file),
    }
}

// ── Files ────────────────────────────────────────────────────────────────────

pub fn tree_file(rng: &mut Rng) -> Vec<u8> {
    let (link, records) = if rng.one_in(8) {
        far_file(rng)
    } else if rng.one_in(16) {
        ladder_file(rng)
    } else if rng.one_in(40) {
        clash_file(rng)
    } else {
        plain_file(rng)
    };
    let mut file = header(link, records.len());
    file.extend(records.concat());
    if rng.one_in(10) {
        for _ in 0..rng.pick(&[1, 1, 2]) {
            damage(rng, &mut file);
        }
    }
    file
}

/// So many nots over Ip: deeper than any random file.
pub fn nots(link: u8, n: usize) -> Vec<u8> {
    let mut ip = record(10);
    ip[2] = 1;
    let mut file = header(link, n + 1);
    file.extend(vec![record(NOT); n].concat());
    file.extend(ip);
    file
}
