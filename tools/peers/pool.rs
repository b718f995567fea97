//! Frames that were not made for a tree: the samples, and captures.

use std::fs;
use std::path::{Path, PathBuf};

use crate::libpcap;
use crate::trees::Rng;
use crate::values::network;

const ETHERNET: u8 = 1;
const RAWIP: u8 = 2;
const SLL: u8 = 3;
const FOLDERS: [(&str, u8); 3] = [("ethernet", 1), ("rawip", 2), ("linuxsll", 3)];
/// How long the sender's address is by the cooked headers that frames are given, in turn.
const LENGTHS: [u16; 10] = [6, 6, 8, 6, 6, 0, 6, 4, 6, 0x0106];
/// How many frames a tree or a line is compared on.
const DRAWN: usize = 256;
/// Of so many frames that are not IPv4 one is taken as RawIp.
const OTHERS: usize = 8;
/// Of captures in a folder.
const ENDINGS: [&str; 3] = ["pcap", "pcapng", "cap"];
/// The longest frame that is run.
const LONGEST: usize = 65_535;

/// libpcap's numbers for the links of captures that are ours: RAW and its two numbers in files are
/// taken as RawIp too.
fn our_link(link: i32) -> Option<u8> {
    match link {
        1 => Some(1),
        12 | 14 | 101 | 228 => Some(2),
        113 => Some(3),
        _ => None,
    }
}

/// By link byte.
#[derive(Default)]
pub struct Pool {
    frames: [Vec<Vec<u8>>; 4],
    captures: usize,
    /// Captures with a link that is not ours.
    other_links: usize,
    /// Files of a folder that libpcap cannot read.
    unreadable: usize,
}

impl Pool {
    pub fn of(&self, link: u8) -> &[Vec<u8>] {
        &self.frames[link as usize]
    }

    /// So many frames as are compared at once, or all.
    pub fn drawn(&self, rng: &mut Rng, link: u8) -> Vec<&[u8]> {
        let all = self.of(link);
        let count = all.len().min(DRAWN);
        let mut places: Vec<usize> = (0..all.len()).collect();
        for at in 0..count {
            let other = rng.between(at, all.len() - 1);
            places.swap(at, other);
        }
        places[..count].iter().map(|&at| &*all[at]).collect()
    }

    fn push(&mut self, link: u8, frame: Vec<u8>) {
        if frame.len() <= LONGEST {
            self.frames[link as usize].push(frame);
        }
    }

    /// A frame, and those of Ethernet also without their header and with a cooked one. RawIp gets
    /// what the ethertype calls IPv4, and some of the others.
    fn add(&mut self, link: u8, frame: Vec<u8>) {
        if link == ETHERNET && frame.len() >= network(ETHERNET) {
            let (kind, packet) = (&frame[12..14], &frame[14..]);
            if kind == [8, 0] || self.of(ETHERNET).len() % OTHERS == 0 {
                self.push(RAWIP, packet.to_vec());
            }
            let length = LENGTHS[self.of(SLL).len() % LENGTHS.len()];
            self.push(SLL, cooked(&frame, length));
        }
        self.push(link, frame);
    }

    pub fn add_samples(&mut self, samples: &Path) -> Result<(), String> {
        for (name, link) in FOLDERS {
            for path in files(&samples.join(name), &["frame"])? {
                let frame = fs::read(&path).map_err(|e| format!("{}: {e}", path.display()))?;
                self.add(link, frame);
            }
        }
        Ok(())
    }

    /// A capture, or the captures of a folder.
    pub fn add_capture(&mut self, path: &Path) -> Result<(), String> {
        if path.is_dir() {
            for file in captures(path)? {
                self.unreadable += self.add_capture(&file).is_err() as usize;
            }
            return Ok(());
        }
        let read = libpcap::read_file(path);
        let capture = read.map_err(|e| format!("{}: {e}", path.display()))?;
        match our_link(capture.link) {
            None => self.other_links += 1,
            Some(link) => {
                self.captures += 1;
                let frames = capture.frames.into_iter();
                frames.for_each(|f| self.add(link, f));
            }
        }
        Ok(())
    }

    pub fn print(&self) {
        let [_, ethernet, raw, sll] = [0, 1, 2, 3].map(|link| self.frames[link].len());
        println!("frames at hand: {ethernet} of Ethernet, {raw} of RawIp, {sll} of LinuxSll");
        println!(
            "  from the samples and {} captures; {} of other links and {} that libpcap cannot read left out",
            self.captures, self.other_links, self.unreadable
        );
    }
}

/// A frame of Ethernet with a cooked header: to us, from Ethernet, the sender's address and how long
/// it is, of eight bytes the last two zero, and the ethertype.
fn cooked(frame: &[u8], length: u16) -> Vec<u8> {
    let (start, length) = ([0, 0, 0, 1], length.to_be_bytes());
    let (sender, rest) = (&frame[6..12], &frame[12..]);
    [&start, &length[..], sender, &[0, 0], rest].concat()
}

/// A capture, or the captures of a folder.
pub fn captures(path: &Path) -> Result<Vec<PathBuf>, String> {
    match path.is_dir() {
        true => files(path, &ENDINGS),
        false => Ok(vec![path.into()]),
    }
}

/// A folder's files with one of these endings, by name.
pub fn files(folder: &Path, endings: &[&str]) -> Result<Vec<PathBuf>, String> {
    let told = |e: std::io::Error| format!("{}: {e}", folder.display());
    let mut paths = Vec::new();
    for entry in fs::read_dir(folder).map_err(told)? {
        let path = entry.map_err(told)?.path();
        let ending = path.extension().unwrap_or_default().to_string_lossy();
        if endings.contains(&&*ending) {
            paths.push(path);
        }
    }
    paths.sort();
    Ok(paths)
}
