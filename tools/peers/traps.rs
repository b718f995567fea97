//! Frames that a word of pcap-filter takes in a wider sense than the condition it stands for
//! (docs/DIFFERENCES.md): words that forgot to shut the rest out are told apart by them.

use crate::tree::Record;
use crate::trees::Rng;
use crate::values::network;

const IP: u16 = 0x0800;
const IP6: u16 = 0x86dd;
const ARP: u16 = 0x0806;
/// A trap before it is set; all it has is zero.
const LENGTH: usize = 128;
/// IPv4 and IPv6 headers behind which another protocol is named: authentication, fragment.
const AUTHENTICATION: u8 = 51;
const NEXT_HEADERS: [u8; 3] = [44, 0, 60];
/// Where ARP has the addresses of sender and target.
const ARP_SIDES: [usize; 2] = [14, 24];
const SLL: u8 = 3;
/// Lengths that a cooked header's address may have besides six, some with a byte of that value.
const OTHER_LENGTHS: [u16; 7] = [0, 4, 5, 7, 8, 0x0106, 0x0600];

struct Trap {
    frame: Vec<u8>,
    link: u8,
}

impl Trap {
    /// On RawIp there is no place for a kind, and every frame is IPv4.
    fn kind(&mut self, kind: u16) {
        let n = network(self.link);
        if n > 0 {
            self.frame[n - 2..n].copy_from_slice(&kind.to_be_bytes());
        }
    }

    /// Bytes at a place behind the network header's start.
    fn put(&mut self, place: usize, bytes: &[u8]) {
        let at = network(self.link) + place;
        self.frame[at..at + bytes.len()].copy_from_slice(bytes);
    }

    /// The number in the other version, or behind another header (D-01, D-07, D-08).
    fn number(&mut self, rng: &mut Rng, number: u8) {
        match rng.below(4) {
            0 => {
                self.kind(IP);
                self.put(0, &[0x45]);
                self.put(9, &[rng.pick(&[number, AUTHENTICATION])]);
                self.put(20, &[number, 1]);
            }
            1 => {
                self.kind(IP6);
                self.put(6, &[number]);
            }
            _ => {
                self.kind(IP6);
                self.put(6, &[rng.pick(&NEXT_HEADERS)]);
                self.put(40, &[number]);
            }
        }
    }

    /// The address in ARP (D-04).
    fn arp(&mut self, address: &[u8]) {
        self.kind(ARP);
        for at in ARP_SIDES {
            self.put(at, address);
        }
    }

    /// The port on both sides: in SCTP, in a later fragment, behind another header (D-03, D-09).
    fn port(&mut self, rng: &mut Rng, port: &[u8]) {
        let fragment = rng.pick(&[[0, 0], [0, 1], [0x20, 0]]);
        let number = rng.pick(&[6, 17, 132]);
        if rng.below(2) == 0 {
            self.kind(IP);
            self.put(0, &[0x45]);
            self.put(6, &fragment);
            self.put(9, &[number]);
        } else {
            self.kind(IP6);
            self.put(6, &[rng.pick(&[number, 44])]);
            self.put(40, &[number]);
        }
        for at in [20, 22, 40, 42, 48, 50] {
            self.put(at, port);
        }
    }

    /// The type in 802.2 and in SNAP (D-13).
    fn ether_type(&mut self, rng: &mut Rng, kind: &[u8]) {
        self.kind(rng.pick(&[4, 8, 0x26]));
        let sap = [kind[1], kind[1], 3];
        let snap = [0xaa, 0xaa, 3, 0, 0, 0, kind[0], kind[1]];
        match rng.below(2) {
            0 => self.put(0, &sap),
            _ => self.put(0, &snap),
        }
    }

    /// A sender whose address begins so and has another length (D-18).
    fn sender(&mut self, rng: &mut Rng, address: &[u8]) {
        let length = rng.pick(&OTHER_LENGTHS).to_be_bytes();
        self.frame[4..6].copy_from_slice(&length);
        self.frame[6..12].copy_from_slice(address);
    }
}

/// The number of an IPv4 protocol or IPv6 next header that a protocol byte names.
fn number(r: &Record) -> u8 {
    match r[2] {
        5 => 6,
        6 => 17,
        7 => 1,
        8 => 58,
        9 => 2,
        10 => 132,
        _ => r[3],
    }
}

/// A trap for a condition.
pub fn trap(rng: &mut Rng, link: u8, r: &Record) -> Vec<u8> {
    let frame = vec![0; LENGTH];
    let mut trap = Trap { frame, link };
    match r[0] {
        10 | 23 | 24 => trap.number(rng, number(r)),
        11 | 13 => trap.arp(&r[8..12]),
        15 | 16 => trap.port(rng, &r[4..6]),
        17 if link == SLL => trap.sender(rng, &r[8..14]),
        18 => trap.ether_type(rng, &r[4..6]),
        _ => {
            trap.kind(IP);
            trap.put(16, &[0xf0]);
        }
    }
    trap.frame
}
