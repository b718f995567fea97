//! The commissioning sheet of document 01, line by line.

mod common;

use common::*;
use dabberpearl::{Error, Instruction, Outcome, Program, Refusal, Verdict};

fn program(link: u8, records: Vec<Record>) -> Program {
    Program::from_tree(&file(link, records)).expect("an accepted tree")
}

fn refusal(link: u8, records: Vec<Record>) -> Refusal {
    match Program::from_tree(&file(link, records)) {
        Err(Error::Refused(refusal)) => refusal,
        other => panic!("{other:?}"),
    }
}

fn at(program: &Program, i: usize) -> Instruction {
    program.instructions().nth(i).expect("an instruction")
}

fn jfs(program: &Program, places: &[usize]) -> Vec<u8> {
    places.iter().map(|&i| at(program, i).jf).collect()
}

fn ja(k: u32) -> Instruction {
    Instruction {
        code: 5,
        jt: 0,
        jf: 0,
        k,
    }
}

fn ret(k: u32) -> Instruction {
    Instruction {
        code: 6,
        jt: 0,
        jf: 0,
        k,
    }
}

#[test]
fn raw_ip() {
    let p = program(RAW_IP, protocol(IP));
    assert_eq!(
        p.instructions().collect::<Vec<_>>(),
        [ret(0xffff_ffff), ret(0)]
    );
}

#[test]
fn ethernet_ip() {
    let p = program(ETHERNET, protocol(IP));
    assert_eq!(p.len(), 4);
    assert_eq!(at(&p, 1).jf, 1);
    let short = Outcome {
        verdict: Verdict::Short,
        steps: 1,
    };
    assert_eq!(p.run(&[0; 13]), Ok(short));
    let mut frame = [0; 14];
    frame[12..].copy_from_slice(&[0x08, 0x00]);
    let accepted = Outcome {
        verdict: Verdict::Accepted,
        steps: 3,
    };
    assert_eq!(p.run(&frame), Ok(accepted));
}

#[test]
fn tcp_or_udp() {
    let p = program(ETHERNET, or(protocol(TCP), protocol(UDP)));
    assert_eq!(p.len(), 9);
    assert_eq!(jfs(&p, &[1, 3, 6]), [6, 1, 1]);
    assert_eq!(at(&p, 4), ja(2));
}

#[test]
fn tcp_and_port_80() {
    let p = program(ETHERNET, and(protocol(TCP), port(DESTINATION, TCP, 80)));
    assert_eq!(p.len(), 11);
    assert_eq!(jfs(&p, &[1, 3, 8]), [8, 6, 1]);
    assert_eq!(at(&p, 5).jt, 4);
}

#[test]
fn port_53() {
    let p = program(ETHERNET, port(EITHER, NONE, 53));
    assert_eq!(p.len(), 20);
    assert_eq!(at(&p, 1).jt, 8);
}

#[test]
fn net_of_prefix_0() {
    assert_eq!(program(ETHERNET, net6(0)).len(), 5);
}

#[test]
fn listing_of_not_ip() {
    let p = program(ETHERNET, not(protocol(IP)));
    let lines: Vec<String> = p.instructions().map(|i| i.to_string()).collect();
    assert_eq!(
        lines,
        [
            "40 0 0 12",
            "21 0 1 2048",
            "5 0 0 1",
            "6 0 0 4294967295",
            "6 0 0 0"
        ]
    );
}

#[test]
fn refusals() {
    assert_eq!(refusal(RAW_IP, protocol(IP6)), Refusal::KindOnRaw);
    assert_eq!(
        refusal(ETHERNET, port(EITHER, ICMP, 53)),
        Refusal::PortProtocol
    );
    let clash = or(
        and(port(EITHER, ICMP, 53), protocol(ICMP6)),
        protocol(ICMP6),
    );
    assert_eq!(refusal(RAW_IP, clash), Refusal::KindOnRaw);
    assert_eq!(refusal(RAW_IP, ether_multicast()), Refusal::EtherOnRaw);
}

#[test]
fn distances() {
    let p = Program::from_tree(&far(BOTH)).expect("an accepted tree");
    let longest = p.instructions().map(|i| i.jt.max(i.jf)).max();
    assert_eq!(longest, Some(255));
    assert_eq!(
        Program::from_tree(&far(EITHER)),
        Err(Refusal::FarJump.into())
    );
}
