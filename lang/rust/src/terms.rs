//! What a record is made of besides numbers and IP addresses.

use core::fmt;
use core::str::FromStr;

/// What a frame starts with. In the link field of a capture they are 1, 101 and 113.
#[derive(Clone, Copy, Debug, PartialEq, Eq, Hash)]
#[non_exhaustive]
pub enum Link {
    /// An Ethernet header of 14 bytes.
    Ethernet = 1,
    /// The IPv4 header itself.
    RawIp = 2,
    /// A Linux cooked header of 16 bytes, which has the sender's address and no other.
    LinuxSll = 3,
}

impl Link {
    pub(crate) fn of(byte: u8) -> Option<Link> {
        let mut known = [Link::Ethernet, Link::RawIp, Link::LinuxSll].into_iter();
        known.find(|link| *link as u8 == byte)
    }
}

/// Its name, as `Ethernet`.
impl fmt::Display for Link {
    fn fmt(&self, f: &mut fmt::Formatter<'_>) -> fmt::Result {
        fmt::Debug::fmt(self, f)
    }
}

/// Which of a frame's two addresses or ports is meant.
#[derive(Clone, Copy, Debug, PartialEq, Eq, Hash)]
pub enum Direction {
    /// One or the other, or both.
    Either = 0,
    /// The sender's.
    Source = 1,
    /// The receiver's.
    Destination = 2,
    /// Both at once.
    Both = 3,
}

impl Direction {
    pub(crate) fn of(byte: u8) -> Option<Direction> {
        use Direction::*;
        let mut known = [Either, Source, Destination, Both].into_iter();
        known.find(|direction| *direction as u8 == byte)
    }

    /// Its words before `host`, `net` or `port`, with a space after.
    pub(crate) const fn words(self) -> &'static str {
        match self {
            Direction::Either => "",
            Direction::Source => "src ",
            Direction::Destination => "dst ",
            Direction::Both => "src and dst ",
        }
    }
}

/// A protocol. All but the ethertypes tell IPv4 from IPv6: [`Tcp`](Protocol::Tcp) is TCP over
/// IPv4.
#[derive(Clone, Copy, Debug, PartialEq, Eq, Hash)]
#[non_exhaustive]
pub enum Protocol {
    /// Ethertype 0x0800.
    Ip,
    /// Ethertype 0x86dd.
    Ip6,
    /// Ethertype 0x0806.
    Arp,
    /// Ethertype 0x8035.
    Rarp,
    /// IPv4 protocol 6.
    Tcp,
    /// IPv4 protocol 17.
    Udp,
    /// IPv4 protocol 1.
    Icmp,
    /// IPv6 next header 58.
    Icmp6,
    /// IPv4 protocol 2.
    Igmp,
    /// IPv4 protocol 132.
    Sctp,
    /// An IPv4 protocol by its number.
    Num(u8),
    /// An IPv6 next header by its number.
    Ip6Proto(u8),
}

impl Protocol {
    /// Those without a number of their own, by byte from 1 on.
    const NAMED: [Protocol; 10] = [
        Protocol::Ip,
        Protocol::Ip6,
        Protocol::Arp,
        Protocol::Rarp,
        Protocol::Tcp,
        Protocol::Udp,
        Protocol::Icmp,
        Protocol::Icmp6,
        Protocol::Igmp,
        Protocol::Sctp,
    ];

    /// The protocol byte and the small number of a record.
    pub(crate) fn bytes(self) -> [u8; 2] {
        match self {
            Protocol::Num(number) => [11, number],
            Protocol::Ip6Proto(number) => [12, number],
            named => {
                let before = Protocol::NAMED.iter().take_while(|p| **p != named);
                [before.count() as u8 + 1, 0]
            }
        }
    }

    /// The protocol of a record's two bytes.
    pub(crate) fn of(byte: u8, number: u8) -> Option<Protocol> {
        match byte {
            11 => Some(Protocol::Num(number)),
            12 => Some(Protocol::Ip6Proto(number)),
            _ => {
                let place = usize::from(byte).checked_sub(1)?;
                Protocol::NAMED.get(place).copied()
            }
        }
    }
}

/// Its word, as `tcp`; a number's, as `ip proto 47` or `ip6 proto 58`.
impl fmt::Display for Protocol {
    fn fmt(&self, f: &mut fmt::Formatter<'_>) -> fmt::Result {
        f.write_str(match self {
            Protocol::Ip => "ip",
            Protocol::Ip6 => "ip6",
            Protocol::Arp => "arp",
            Protocol::Rarp => "rarp",
            Protocol::Tcp => "tcp",
            Protocol::Udp => "udp",
            Protocol::Icmp => "icmp",
            Protocol::Icmp6 => "icmp6",
            Protocol::Igmp => "igmp",
            Protocol::Sctp => "sctp",
            Protocol::Num(number) => return write!(f, "ip proto {number}"),
            Protocol::Ip6Proto(number) => return write!(f, "ip6 proto {number}"),
        })
    }
}

/// An Ethernet address.
///
/// ```
/// use dabberpearl::Mac;
///
/// let drive: Mac = "02:00:5e:10:00:01".parse()?;
/// assert_eq!(drive, Mac([0x02, 0x00, 0x5e, 0x10, 0x00, 0x01]));
/// assert_eq!(drive.to_string(), "02:00:5e:10:00:01");
/// assert!("02:00:5e:10:00".parse::<Mac>().is_err());
/// # Ok::<(), dabberpearl::NoMac>(())
/// ```
#[derive(Clone, Copy, Debug, PartialEq, Eq, Hash, PartialOrd, Ord)]
pub struct Mac(pub [u8; 6]);

impl From<[u8; 6]> for Mac {
    fn from(bytes: [u8; 6]) -> Mac {
        Mac(bytes)
    }
}

impl fmt::Display for Mac {
    fn fmt(&self, f: &mut fmt::Formatter<'_>) -> fmt::Result {
        let [a, b, c, d, e, g] = self.0;
        write!(f, "{a:02x}:{b:02x}:{c:02x}:{d:02x}:{e:02x}:{g:02x}")
    }
}

/// The error of a text that is no [`Mac`]: six pairs of hexadecimal digits with colons between.
#[derive(Clone, Copy, Debug, PartialEq, Eq)]
pub struct NoMac;

impl fmt::Display for NoMac {
    fn fmt(&self, f: &mut fmt::Formatter<'_>) -> fmt::Result {
        f.write_str("no Ethernet address")
    }
}

impl core::error::Error for NoMac {}

/// The byte of two hexadecimal digits.
fn pair(text: &str) -> Option<u8> {
    let digits = text.len() == 2 && text.bytes().all(|b| b.is_ascii_hexdigit());
    digits.then(|| u8::from_str_radix(text, 16).ok())?
}

impl FromStr for Mac {
    type Err = NoMac;

    fn from_str(text: &str) -> Result<Mac, NoMac> {
        let mut pairs = text.split(':');
        let mut bytes = [0; 6];
        for byte in &mut bytes {
            *byte = pairs.next().and_then(pair).ok_or(NoMac)?;
        }
        match pairs.next() {
            None => Ok(Mac(bytes)),
            Some(_) => Err(NoMac),
        }
    }
}

#[cfg(test)]
mod tests {
    use super::*;

    #[test]
    fn bytes_of_protocols() {
        for byte in 0..=255 {
            match Protocol::of(byte, 0) {
                Some(protocol) => assert_eq!(protocol.bytes(), [byte, 0]),
                None => assert!(byte == 0 || byte > 12),
            }
        }
        assert_eq!(Protocol::Tcp.bytes(), [5, 0]);
        assert_eq!(Protocol::Sctp.bytes(), [10, 0]);
        assert_eq!(Protocol::of(11, 47), Some(Protocol::Num(47)));
        assert_eq!(Protocol::Ip6Proto(58).bytes(), [12, 58]);
    }

    #[test]
    fn texts_that_are_no_mac() {
        for text in [
            "",
            "02:00:5e:10:00",
            "02:00:5e:10:00:01:02",
            "02:00:5e:10:00:1",
            "02:00:5e:10:00:+1",
            "02:00:5e:10:00:0g",
            "02-00-5e-10-00-01",
            " 02:00:5e:10:00:01",
        ] {
            assert_eq!(text.parse::<Mac>(), Err(NoMac), "{text}");
        }
        assert_eq!(
            "FF:ff:Ff:00:0a:A0".parse(),
            Ok(Mac([255, 255, 255, 0, 10, 160]))
        );
    }
}
