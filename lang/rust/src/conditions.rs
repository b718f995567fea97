//! Single conditions, in words that are brought in all at once.
//!
//! ```
//! use dabberpearl::conditions::*;
//!
//! let condition = port(Destination, Tcp, 80).and(host(Source, [10, 0, 0, 1]).not());
//! assert_eq!(condition.to_string(), "tcp dst port 80 and not src host 10.0.0.1");
//! ```
//!
//! Addresses are those of [`core::net`] or their bytes. What holds of a frame is what document
//! 01's direct reading says: a [`protocol`] of [`Tcp`] is TCP over IPv4, a [`port`] is one over
//! IPv4 or IPv6.

use core::net::{IpAddr, Ipv4Addr};
use core::ops::RangeInclusive;

use crate::{Mac, Record};

pub use crate::Condition;
pub use crate::Direction::{self, *};
pub use crate::Protocol::{self, *};

/// The frame is of a protocol.
///
/// ```
/// use dabberpearl::conditions::*;
///
/// assert_eq!(protocol(Udp).to_string(), "udp");
/// assert_eq!(protocol(Num(47)).to_string(), "ip proto 47");
/// ```
pub fn protocol(protocol: Protocol) -> Condition {
    Condition::single(Record::Protocol(protocol))
}

/// An IPv4 or IPv6 address.
///
/// ```
/// use dabberpearl::conditions::*;
/// use std::net::IpAddr;
///
/// let drive: IpAddr = "2001:db8::5".parse()?;
/// assert_eq!(host(Either, drive).to_string(), "host 2001:db8::5");
/// assert_eq!(host(Source, [10, 20, 0, 5]).to_string(), "src host 10.20.0.5");
/// # Ok::<(), std::net::AddrParseError>(())
/// ```
pub fn host(direction: Direction, address: impl Into<IpAddr>) -> Condition {
    Condition::single(match address.into() {
        IpAddr::V4(address) => Record::Host(direction, address),
        IpAddr::V6(address) => Record::Host6(direction, address),
    })
}

/// An IPv4 or IPv6 address whose first bits are those of another. A prefix over 32 counts as 32
/// for IPv4, one over 128 as 128 for IPv6.
///
/// ```
/// use dabberpearl::conditions::*;
///
/// assert_eq!(net(Destination, [10, 20, 0, 0], 16).to_string(), "dst net 10.20.0.0/16");
/// ```
pub fn net(direction: Direction, address: impl Into<IpAddr>, prefix: u8) -> Condition {
    match address.into() {
        IpAddr::V4(address) => {
            let rest = 32 - u32::from(prefix).min(32);
            let mask = u32::MAX.checked_shl(rest).unwrap_or(0);
            net_mask(direction, address, mask)
        }
        IpAddr::V6(address) => Condition::single(Record::Net6(direction, address, prefix)),
    }
}

/// An IPv4 address that is another's under a mask, which may be any.
///
/// ```
/// use dabberpearl::conditions::*;
///
/// let third = net_mask(Source, [10, 0, 3, 0], [255, 0, 255, 0]);
/// assert_eq!(third.to_string(), "src net 10.0.3.0 mask 255.0.255.0");
/// ```
pub fn net_mask(
    direction: Direction,
    address: impl Into<Ipv4Addr>,
    mask: impl Into<Ipv4Addr>,
) -> Condition {
    Condition::single(Record::Net(direction, address.into(), mask.into()))
}

/// A port of a protocol, or with `None` of Tcp or Udp. A build takes Tcp, Udp and Sctp, and
/// refuses all others with [`PortProtocol`](crate::Refusal::PortProtocol).
///
/// ```
/// use dabberpearl::conditions::*;
///
/// assert_eq!(port(Either, None, 53).to_string(), "port 53");
/// assert_eq!(port(Destination, Tcp, 80).to_string(), "tcp dst port 80");
/// ```
pub fn port(direction: Direction, protocol: impl Into<Option<Protocol>>, number: u16) -> Condition {
    Condition::single(Record::Port(direction, protocol.into(), number))
}

/// A port in a range; the protocol is as for [`port`].
///
/// ```
/// use dabberpearl::conditions::*;
///
/// assert_eq!(ports(Source, Udp, 5000..=5010).to_string(), "udp src portrange 5000-5010");
/// ```
pub fn ports(
    direction: Direction,
    protocol: impl Into<Option<Protocol>>,
    numbers: RangeInclusive<u16>,
) -> Condition {
    let (low, high) = numbers.into_inner();
    Condition::single(Record::PortRange(direction, protocol.into(), low, high))
}

/// An Ethernet address. A build refuses it on [`RawIp`](crate::Link::RawIp) with
/// [`EtherOnRaw`](crate::Refusal::EtherOnRaw). On [`LinuxSll`](crate::Link::LinuxSll) it takes
/// [`Source`], the sender, whose address then has to be six bytes long, and refuses every other
/// direction with [`CookedAddress`](crate::Refusal::CookedAddress).
///
/// ```
/// use dabberpearl::conditions::*;
/// use dabberpearl::{Program, Refusal, Tree};
///
/// let drive = [0x02, 0, 0x5e, 0x10, 0, 1];
/// let sent = ether_host(Source, drive);
/// assert_eq!(sent.to_string(), "ether src host 02:00:5e:10:00:01");
/// assert_eq!(Program::from_tree(&Tree::linux_sll(sent)?)?.len(), 8);
/// let received = Tree::linux_sll(ether_host(Destination, drive))?;
/// assert_eq!(Program::from_tree(&received), Err(Refusal::CookedAddress.into()));
/// # Ok::<(), dabberpearl::Error>(())
/// ```
pub fn ether_host(direction: Direction, address: impl Into<Mac>) -> Condition {
    Condition::single(Record::EtherHost(direction, address.into()))
}

/// An ethertype.
///
/// ```
/// use dabberpearl::conditions::*;
///
/// assert_eq!(ether_protocol(0x88cc).to_string(), "ether proto 0x88cc");
/// ```
pub fn ether_protocol(ethertype: u16) -> Condition {
    Condition::single(Record::EtherProtocol(ethertype))
}

/// To a group of Ethernet addresses: the lowest bit of the frame's first byte. It is for
/// [`Ethernet`](crate::Link::Ethernet): a build refuses it on [`RawIp`](crate::Link::RawIp) with
/// [`EtherOnRaw`](crate::Refusal::EtherOnRaw), on [`LinuxSll`](crate::Link::LinuxSll) with
/// [`CookedAddress`](crate::Refusal::CookedAddress).
pub fn ether_multicast() -> Condition {
    Condition::single(Record::EtherMulticast)
}

/// To 255.255.255.255.
pub fn ip_broadcast() -> Condition {
    Condition::single(Record::IpBroadcast)
}

/// To 224.0.0.0/4.
pub fn ip_multicast() -> Condition {
    Condition::single(Record::IpMulticast)
}

/// To ff00::/8.
pub fn ip6_multicast() -> Condition {
    Condition::single(Record::Ip6Multicast)
}

/// A protocol chain for IPv4, which tests as [`Num`] does.
pub fn chain(number: u8) -> Condition {
    Condition::single(Record::Chain(number))
}

/// A protocol chain for IPv6, which tests as [`Ip6Proto`] does.
pub fn chain6(number: u8) -> Condition {
    Condition::single(Record::Chain6(number))
}
