//! Files that are taken one after another, without a draw: headers, lengths,
//! the bytes of a record, and every two conditions joined.

use super::edges::file_of;
use super::*;

pub const LINKS: [u8; 3] = [ETHERNET, RAWIP, SLL];

pub fn with(kind: u8, bytes: &[(usize, u8)]) -> Record {
    let mut r = record(kind);
    for (at, value) in bytes {
        r[*at] = *value;
    }
    r
}

/// So many records that are one tree: Ip joined by and, under a not for an even number.
fn one_tree(n: usize) -> Vec<Record> {
    let ip = with(10, &[(2, 1)]);
    let joins = (n.max(1) - 1) / 2;
    let mut records = vec![record(NOT); (n + 1) % 2];
    records.extend(vec![record(AND); joins]);
    records.extend(vec![ip; joins + 1]);
    records.truncate(n);
    records
}

/// Every value of every byte of a header.
pub fn headers() -> impl Iterator<Item = Vec<u8>> {
    (0..8 * 256).map(|i| {
        let mut file = file_of(ETHERNET, &one_tree(3));
        file[i / 256] = i as u8;
        file
    })
}

/// Every length from 0 to 90 with every count from 0 to 4.
pub fn lengths() -> impl Iterator<Item = Vec<u8>> {
    (0..5).flat_map(|count| {
        (0..91).map(move |length| {
            let mut file = file_of(ETHERNET, &one_tree(count));
            file.resize(length, 0);
            file
        })
    })
}

/// Every count from 0 to 300, and the highest, with the length that belongs to it.
pub fn counts() -> impl Iterator<Item = Vec<u8>> {
    let all = (0..301).chain([4096, 65_535]);
    all.map(|n| file_of(LINKS[n % 3], &one_tree(n)))
}

pub const KINDS_AND_OTHERS: [u8; 24] = [
    0, 1, 2, 3, 4, 9, 10, 11, 12, 13, 14, 15, 16, 17, 18, 19, 20, 21, 22, 23, 24, 25, 128, 255,
];
const BYTE_VALUES: [u8; 12] = [0, 1, 2, 3, 4, 5, 12, 13, 127, 128, 129, 255];

/// One record of a kind and protocol, each of its bytes with each of a few values.
/// A join gets the parts that it needs.
pub fn record_bytes() -> impl Iterator<Item = Vec<u8>> {
    let kinds = KINDS_AND_OTHERS.into_iter();
    let bases = kinds.flat_map(|kind| [0, 1, 5, 11, 12].map(|p| with(kind, &[(2, p)])));
    bases.flat_map(|base| (0..RECORD * BYTE_VALUES.len()).map(move |i| spoiled(base, i)))
}

fn spoiled(base: Record, i: usize) -> Vec<u8> {
    let (at, value) = (i / BYTE_VALUES.len(), BYTE_VALUES[i % BYTE_VALUES.len()]);
    let mut records = vec![base];
    let parts = match base[0] {
        1 | 2 => 2,
        3 => 1,
        _ => 0,
    };
    records.extend(vec![record(20); parts]);
    records[0][at] = value;
    file_of(LINKS[i % 3], &records)
}

/// A condition of every kind, direction and protocol. Those with a protocol that
/// ports do not take are there in one direction.
pub fn conditions() -> Vec<Record> {
    let mut all: Vec<Record> = (1..=12)
        .map(|p| with(10, &[(2, p), (3, 6 * (p >= 11) as u8)]))
        .collect();
    for direction in 0..4 {
        let d = (1, direction);
        all.push(with(11, &[d, (8, 10), (11, 1)]));
        all.push(with(12, &[d, (8, 0x20), (23, 1)]));
        all.push(with(13, &[d, (8, 10), (11, 1), (12, 255)]));
        all.push(with(14, &[d, (3, 33), (8, 0x20), (12, 0xFF)]));
        all.push(with(17, &[d, (8, 2), (13, 0xAA)]));
        for protocol in PORT_PROTOCOLS {
            all.push(with(15, &[d, (2, protocol), (5, 53)]));
            all.push(with(16, &[d, (2, protocol), (5, 53), (7, 80)]));
        }
    }
    for protocol in BAD_PORT_PROTOCOLS {
        all.push(with(15 + protocol % 2, &[(2, protocol), (5, 53)]));
    }
    all.extend([(8, 0), (0x86, 0xDD), (8, 6)].map(|(high, low)| with(18, &[(4, high), (5, low)])));
    all.extend([19, 20, 21, 22].map(record));
    all.extend([(23, 6), (23, 17), (24, 6), (24, 58)].map(|(kind, p)| with(kind, &[(3, p)])));
    all
}

/// Each condition alone and under a not; every two joined by and, by or, each under
/// a not or not. On every link.
pub fn pairs() -> impl Iterator<Item = Vec<u8>> {
    let all = conditions();
    let n = all.len();
    let alone = all
        .clone()
        .into_iter()
        .flat_map(|c| [vec![c], vec![record(NOT), c]]);
    let joined = (0..n * n * 8).map(move |i| {
        let (left, right) = (all[i / 8 / n], all[i / 8 % n]);
        let mut records = vec![record([AND, OR][i % 2])];
        records.extend(vec![record(NOT); i / 2 % 2]);
        records.push(left);
        records.extend(vec![record(NOT); i / 4 % 2]);
        records.push(right);
        records
    });
    let trees = alone.chain(joined);
    trees.flat_map(|records| LINKS.map(|link| file_of(link, &records)))
}
