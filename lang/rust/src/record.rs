//! The records of a tree file.

use core::fmt;
use core::net::{Ipv4Addr, Ipv6Addr};

use crate::{Direction, Mac, Protocol};

/// The bytes of a record.
pub(crate) const RECORD: usize = 24;

/// The numbers of the kinds.
pub(crate) mod kind {
    pub const AND: u8 = 1;
    pub const OR: u8 = 2;
    pub const NOT: u8 = 3;
    pub const PROTOCOL: u8 = 10;
    pub const HOST: u8 = 11;
    pub const HOST6: u8 = 12;
    pub const NET: u8 = 13;
    pub const NET6: u8 = 14;
    pub const PORT: u8 = 15;
    pub const PORT_RANGE: u8 = 16;
    pub const ETHER_HOST: u8 = 17;
    pub const ETHER_PROTOCOL: u8 = 18;
    pub const ETHER_MULTICAST: u8 = 19;
    pub const IP_BROADCAST: u8 = 20;
    pub const IP_MULTICAST: u8 = 21;
    pub const IP6_MULTICAST: u8 = 22;
    pub const CHAIN: u8 = 23;
    pub const CHAIN6: u8 = 24;
}

/// One record of a tree file: a join or a single condition.
///
/// Its 24 bytes and it turn into each other without loss, whatever the bytes are.
///
/// ```
/// use dabberpearl::{Direction, Protocol, Record};
///
/// let record = Record::Port(Direction::Destination, Some(Protocol::Tcp), 80);
/// let bytes = <[u8; 24]>::from(record);
/// assert_eq!(bytes[..6], [15, 2, 5, 0, 0, 80]);
/// assert_eq!(Record::from(bytes), record);
/// assert_eq!(record.to_string(), "tcp dst port 80");
/// ```
#[derive(Clone, Copy, Debug, PartialEq, Eq, Hash)]
#[non_exhaustive]
pub enum Record {
    /// 1: the two parts that follow hold.
    And,
    /// 2: one of the two parts that follow holds, or both.
    Or,
    /// 3: the part that follows does not hold.
    Not,
    /// 10: the frame is of a protocol.
    Protocol(Protocol),
    /// 11: an IPv4 address.
    Host(Direction, Ipv4Addr),
    /// 12: an IPv6 address.
    Host6(Direction, Ipv6Addr),
    /// 13: an IPv4 address under a mask, which may be any.
    Net(Direction, Ipv4Addr, Ipv4Addr),
    /// 14: an IPv6 address under a prefix; over 128 counts as 128.
    Net6(Direction, Ipv6Addr, u8),
    /// 15: a port, over IPv4 or IPv6; of Tcp or Udp where no protocol is named.
    Port(Direction, Option<Protocol>, u16),
    /// 16: a port from the first number to the second, both included.
    PortRange(Direction, Option<Protocol>, u16, u16),
    /// 17: an Ethernet address; on LinuxSll the sender's, with its length.
    EtherHost(Direction, Mac),
    /// 18: an ethertype.
    EtherProtocol(u16),
    /// 19: the lowest bit of the frame's first byte, on Ethernet.
    EtherMulticast,
    /// 20: to 255.255.255.255.
    IpBroadcast,
    /// 21: to 224.0.0.0/4.
    IpMulticast,
    /// 22: to ff00::/8.
    Ip6Multicast,
    /// 23: a protocol chain for IPv4.
    Chain(u8),
    /// 24: a protocol chain for IPv6.
    Chain6(u8),
    /// A record that this crate does not know, as it stands in the file.
    Other([u8; 24]),
}

/// A record's bytes, all that is not set being zero.
struct Row([u8; RECORD]);

impl Row {
    fn new(kind: u8) -> Row {
        let mut bytes = [0; RECORD];
        bytes[0] = kind;
        Row(bytes)
    }

    fn direction(self, direction: Direction) -> Row {
        self.at(1, &[direction as u8])
    }

    fn protocol(self, protocol: Option<Protocol>) -> Row {
        self.at(2, &protocol.map_or([0, 0], Protocol::bytes))
    }

    fn small(self, number: u8) -> Row {
        self.at(3, &[number])
    }

    fn a(self, number: u16) -> Row {
        self.at(4, &number.to_be_bytes())
    }

    fn b(self, number: u16) -> Row {
        self.at(6, &number.to_be_bytes())
    }

    fn address(self, bytes: &[u8]) -> Row {
        self.at(8, bytes)
    }

    fn mask(self, mask: Ipv4Addr) -> Row {
        self.at(12, &mask.octets())
    }

    fn at(mut self, place: usize, bytes: &[u8]) -> Row {
        self.0[place..place + bytes.len()].copy_from_slice(bytes);
        self
    }
}

impl From<Record> for [u8; 24] {
    #[rustfmt::skip] // a line for each kind
    fn from(record: Record) -> [u8; 24] {
        use Record::*;
        let row = match record {
            And => Row::new(kind::AND),
            Or => Row::new(kind::OR),
            Not => Row::new(kind::NOT),
            Protocol(p) => Row::new(kind::PROTOCOL).protocol(Some(p)),
            Host(d, address) => Row::new(kind::HOST).direction(d).address(&address.octets()),
            Host6(d, address) => Row::new(kind::HOST6).direction(d).address(&address.octets()),
            Net(d, address, mask) => Row::new(kind::NET).direction(d).address(&address.octets()).mask(mask),
            Net6(d, address, prefix) => Row::new(kind::NET6).direction(d).small(prefix).address(&address.octets()),
            Port(d, p, port) => Row::new(kind::PORT).direction(d).protocol(p).a(port),
            PortRange(d, p, low, high) => Row::new(kind::PORT_RANGE).direction(d).protocol(p).a(low).b(high),
            EtherHost(d, address) => Row::new(kind::ETHER_HOST).direction(d).address(&address.0),
            EtherProtocol(ethertype) => Row::new(kind::ETHER_PROTOCOL).a(ethertype),
            EtherMulticast => Row::new(kind::ETHER_MULTICAST),
            IpBroadcast => Row::new(kind::IP_BROADCAST),
            IpMulticast => Row::new(kind::IP_MULTICAST),
            Ip6Multicast => Row::new(kind::IP6_MULTICAST),
            Chain(number) => Row::new(kind::CHAIN).small(number),
            Chain6(number) => Row::new(kind::CHAIN6).small(number),
            Other(bytes) => Row(bytes),
        };
        row.0
    }
}

/// So many bytes of a record from a place on.
fn bytes_at<const N: usize>(row: &[u8; RECORD], place: usize) -> [u8; N] {
    core::array::from_fn(|i| row[place + i])
}

/// None, or the protocol of a port.
fn port_protocol(row: &[u8; RECORD]) -> Option<Option<Protocol>> {
    match row[2] {
        0 => Some(None),
        byte => Protocol::of(byte, row[3]).map(Some),
    }
}

/// The record of a kind, a direction and a protocol that are known. Bytes that the kind does not
/// use are not looked at.
fn known(row: &[u8; RECORD]) -> Option<Record> {
    let d = Direction::of(row[1])?;
    let small = row[3];
    let a = u16::from_be_bytes(bytes_at(row, 4));
    let b = u16::from_be_bytes(bytes_at(row, 6));
    let address = Ipv4Addr::from(bytes_at(row, 8));
    let mask = Ipv4Addr::from(bytes_at(row, 12));
    let address6 = Ipv6Addr::from(bytes_at::<16>(row, 8));
    Some(match row[0] {
        kind::AND => Record::And,
        kind::OR => Record::Or,
        kind::NOT => Record::Not,
        kind::PROTOCOL => Record::Protocol(Protocol::of(row[2], small)?),
        kind::HOST => Record::Host(d, address),
        kind::HOST6 => Record::Host6(d, address6),
        kind::NET => Record::Net(d, address, mask),
        kind::NET6 => Record::Net6(d, address6, small),
        kind::PORT => Record::Port(d, port_protocol(row)?, a),
        kind::PORT_RANGE => Record::PortRange(d, port_protocol(row)?, a, b),
        kind::ETHER_HOST => Record::EtherHost(d, Mac(bytes_at(row, 8))),
        kind::ETHER_PROTOCOL => Record::EtherProtocol(a),
        kind::ETHER_MULTICAST => Record::EtherMulticast,
        kind::IP_BROADCAST => Record::IpBroadcast,
        kind::IP_MULTICAST => Record::IpMulticast,
        kind::IP6_MULTICAST => Record::Ip6Multicast,
        kind::CHAIN => Record::Chain(small),
        kind::CHAIN6 => Record::Chain6(small),
        _ => return None,
    })
}

impl From<[u8; 24]> for Record {
    fn from(bytes: [u8; 24]) -> Record {
        known(&bytes)
            .filter(|record| <[u8; 24]>::from(*record) == bytes)
            .unwrap_or(Record::Other(bytes))
    }
}

/// A mask: `/8` where it is a prefix, else ` mask 255.0.255.0`.
struct Mask(Ipv4Addr);

impl fmt::Display for Mask {
    fn fmt(&self, f: &mut fmt::Formatter<'_>) -> fmt::Result {
        let bits = u32::from(self.0);
        if bits.count_ones() == bits.leading_ones() {
            write!(f, "/{}", bits.leading_ones())
        } else {
            write!(f, " mask {}", self.0)
        }
    }
}

/// The words before `port`: its protocol, if one is named, and its direction.
struct PortWords(Option<Protocol>, Direction);

impl fmt::Display for PortWords {
    fn fmt(&self, f: &mut fmt::Formatter<'_>) -> fmt::Result {
        if let Some(protocol) = self.0 {
            write!(f, "{protocol} ")?;
        }
        f.write_str(self.1.words())
    }
}

/// The record in the words of pcap-filter, as `src host 10.0.0.1`.
impl fmt::Display for Record {
    fn fmt(&self, f: &mut fmt::Formatter<'_>) -> fmt::Result {
        use Record::*;
        match *self {
            And => f.write_str("and"),
            Or => f.write_str("or"),
            Not => f.write_str("not"),
            Protocol(p) => p.fmt(f),
            Host(d, address) => write!(f, "{}host {address}", d.words()),
            Host6(d, address) => write!(f, "{}host {address}", d.words()),
            Net(d, address, mask) => write!(f, "{}net {address}{}", d.words(), Mask(mask)),
            Net6(d, address, prefix) => write!(f, "{}net {address}/{prefix}", d.words()),
            Port(d, p, port) => write!(f, "{}port {port}", PortWords(p, d)),
            PortRange(d, p, low, high) => {
                write!(f, "{}portrange {low}-{high}", PortWords(p, d))
            }
            EtherHost(d, address) => write!(f, "ether {}host {address}", d.words()),
            EtherProtocol(ethertype) => write!(f, "ether proto {ethertype:#06x}"),
            EtherMulticast => f.write_str("ether multicast"),
            IpBroadcast => f.write_str("ip broadcast"),
            IpMulticast => f.write_str("ip multicast"),
            Ip6Multicast => f.write_str("ip6 multicast"),
            Chain(number) => write!(f, "ip protochain {number}"),
            Chain6(number) => write!(f, "ip6 protochain {number}"),
            Other(bytes) => write!(f, "kind {}", bytes[0]),
        }
    }
}
