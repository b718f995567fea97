//! A typed line in pcap-filter's words of the same meaning, from text to text.
//!
//! Each condition is replaced, where it stands, by bracketed words of pcap-filter, and every other
//! word is kept. Nothing here knows what not, and, or and brackets do: libpcap's parser judges them.

/// Where pcap-filter's own word is wider, words that leave the rest out stand in its place:
/// D-01, D-03 and D-04 of docs/DIFFERENCES.md.
fn condition(words: &[&str]) -> Option<(usize, String)> {
    let found = match words {
        ["host", address, ..] => (2, format!("(ip host {address})")),
        [side @ ("src" | "dst"), "host", address, ..] => (3, format!("(ip {side} host {address})")),
        ["port", port, ..] => (2, format!("(tcp port {port} or udp port {port})")),
        [side @ ("src" | "dst"), "port", port, ..] => (
            3,
            format!("(tcp {side} port {port} or udp {side} port {port})"),
        ),
        [name @ ("tcp" | "udp" | "sctp"), "port", port, ..] => (3, format!("({name} port {port})")),
        [name @ ("tcp" | "udp" | "sctp"), side @ ("src" | "dst"), "port", port, ..] => {
            (4, format!("({name} {side} port {port})"))
        }
        ["tcp", ..] => (1, "(ip proto 6)".into()),
        ["udp", ..] => (1, "(ip proto 17)".into()),
        ["sctp", ..] => (1, "(ip proto 132)".into()),
        [name @ ("ip" | "ip6" | "arp" | "rarp" | "icmp"), ..] => (1, format!("({name})")),
        _ => return None,
    };
    Some(found)
}

/// The line in pcap-filter's words.
pub fn translated(line: &str) -> String {
    let words: Vec<&str> = line.split(' ').filter(|word| !word.is_empty()).collect();
    let (mut at, mut out) = (0, Vec::new());
    while at < words.len() {
        let (count, said) = condition(&words[at..]).unwrap_or((1, words[at].into()));
        out.push(said);
        at += count;
    }
    out.join(" ")
}
