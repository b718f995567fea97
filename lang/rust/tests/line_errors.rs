//! The errors of typed lines: what could follow, how a line is shown, and their use in Rust.

use dabberpearl::{Error, Link, Refusal, Tree, TypeError};

fn error_of(line: impl AsRef<[u8]>) -> TypeError {
    Tree::typed(Link::Ethernet, line).expect_err("a refused line")
}

// ---- what could follow

const PART: &str = "ip ip6 arp rarp icmp tcp udp sctp host port src dst ( not";

#[test]
fn what_could_follow() {
    for (line, wanted) in [
        ("", PART),
        ("prot", PART),
        ("ip and", PART),
        ("ip or 80", PART),
        ("not", PART),
        ("not )", PART),
        ("(", PART),
        ("ip ip", "and or, the end"),
        ("( ip", ") and or"),
        ("( ( ip ) prot", ") and or"),
        ("( ip ) prot", "and or, the end"),
        ("tcp prot", "port src dst and or, the end"),
        ("sctp prot", "port src dst and or, the end"),
        ("( udp prot", "port src dst ) and or"),
        ("tcp src prot", "port"),
        ("src prot", "host port"),
        ("dst", "host port"),
        ("host 80", "an address"),
        ("src host prot", "an address"),
        ("port", "a port number"),
        ("tcp dst port 10.0.0.1", "a port number"),
        ("port 80 443", "and or, the end"),
        ("icmp port", "and or, the end"),
    ] {
        let error = error_of(line);
        let told = error.to_string();
        let (_, follows) = told
            .split_once("; here could follow: ")
            .expect("what could follow");
        assert_eq!(follows, wanted, "{line}");
        let each: Vec<&str> = error.expected().collect();
        assert_eq!(each.join(" "), wanted.replace(',', ""), "{line}");
    }
}

/// What could follow does not depend on how large a line has become.
#[test]
fn behind_large_starts() {
    let large = vec!["ip"; 65].join(" and ");
    let error = error_of(format!("{large} prot"));
    assert!(error.expected().eq(["and", "or", "the end"]));
    let open = "( ".repeat(200);
    assert!(error_of(format!("{open}ip prot"))
        .expected()
        .eq([")", "and", "or"]));
}

/// Behind 4,096 bytes nothing is told.
#[test]
fn behind_long_starts() {
    for (length, told) in [(4_095, 3), (4_096, 3), (4_097, 0), (1 << 20, 0)] {
        let line = "ip".to_string() + &" ".repeat(length - 2) + "prot";
        let error = error_of(&line);
        assert_eq!(
            (error.place(), error.expected().count()),
            (Some(length), told)
        );
        let end = if told > 0 {
            "; here could follow: and or, the end"
        } else {
            ""
        };
        assert_eq!(
            error.to_string(),
            format!("refused 16, unknown word, at byte {length}{end}")
        );
    }
}

// ---- how an error is shown

/// The line and the mark that are shown.
fn shown(line: impl AsRef<[u8]>) -> (String, String) {
    let error = error_of(&line);
    let shown = error.show(&line).to_string();
    let lines: Vec<&str> = shown.split('\n').collect();
    let [line, mark, message] = lines[..] else {
        panic!("{shown}");
    };
    assert_eq!(message, error.to_string());
    (line.to_string(), mark.to_string())
}

fn shows(line: impl AsRef<[u8]>, text: &str, mark: usize) {
    let wanted = (text.to_string(), " ".repeat(mark) + "^");
    assert_eq!(shown(line), wanted);
}

#[test]
fn short_lines() {
    shows("", "", 0);
    shows("  ", "  ", 2);
    shows("ip and", "ip and", 6);
    shows("tcp and prot 80", "tcp and prot 80", 8);
}

#[test]
fn lines_of_other_bytes() {
    shows(b"ip and\tip", "ip and?ip", 3);
    shows(b"ip \x1b[31m \x07\x7f", "ip ?[31m ??", 3);
    shows("ip \u{9b}31m", "ip ?31m", 3);
    shows("ip ü and €", "ip ü and €", 3);
    shows("ip and ip €\n", "ip and ip €?", 10);
    shows(b"ip and ( \xe2\x82 \xff\x80", "ip and ( ?? ??", 9);
    shows(b"ip \0\xc3", "ip ??", 3);
}

#[test]
fn marks_count_characters() {
    for start in ["( ", "not ", "not ( not ( "] {
        shows(format!("{start}ü"), &format!("{start}ü"), start.len());
    }
    // A word before the place can have no such character, but show takes any line.
    let error = error_of("ip and prot");
    let text = error.show("üü und prot").to_string();
    assert_eq!(text.split('\n').nth(1), Some("     ^"));
}

#[test]
fn long_lines() {
    let ands = |count: usize| "ip and ".repeat(count); // 7 bytes each
    let exact = ands(9) + "ip or xyz";
    assert_eq!(exact.len(), 72);
    shows(&exact, &exact, 69);
    shows(ands(11), &format!("...{}", &ands(11)[5..]), 3 + 72);
    let middle = ands(20) + "prot " + &ands(20);
    shows(
        &middle,
        &format!("...{}...", &middle[140 - 36..140 + 36]),
        3 + 36,
    );
    let early = "prot ".to_string() + &ands(20);
    shows(&early, &format!("{}...", &early[..72]), 0);
    let late = ands(20) + "prot";
    shows(&late, &format!("...{}", &late[144 - 72..]), 3 + 68);
}

// ---- as Rust

#[test]
fn anything_that_is_bytes() {
    let tree = Tree::typed(Link::Ethernet, "tcp").expect("a tree");
    let string = String::from("tcp");
    assert_eq!(Tree::typed(Link::Ethernet, &string), Ok(tree.clone()));
    assert_eq!(Tree::typed(Link::Ethernet, string), Ok(tree.clone()));
    assert_eq!(Tree::typed(Link::Ethernet, b"tcp"), Ok(tree.clone()));
    assert_eq!(
        Tree::typed(Link::Ethernet, vec![b't', b'c', b'p']),
        Ok(tree.clone())
    );
    assert_eq!(Tree::typed(Link::Ethernet, &b"tcp port"[..3]), Ok(tree));
}

#[test]
fn errors() {
    let error = error_of("ip and");
    assert_eq!(Error::from(error), Error::Refused(Refusal::Unfinished));
    assert_eq!(error.error(), Refusal::Unfinished.into());
    let boxed: Box<dyn std::error::Error + Send + Sync> = Box::new(error);
    assert!(boxed
        .to_string()
        .starts_with("refused 17, unfinished, at byte 6; "));
    fn read(line: &str) -> Result<Tree, Error> {
        Ok(Tree::typed(Link::Ethernet, line)?)
    }
    assert_eq!(read("ip and"), Err(Refusal::Unfinished.into()));
}
