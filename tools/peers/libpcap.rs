//! libpcap: its check and machine for programs, its compiler for words, its reader for captures.

use std::ffi::{c_char, c_int, c_long, c_void, CStr, CString};
use std::path::Path;
use std::ptr::null_mut;

use dabberpearl::Instruction;

/// libpcap's `struct bpf_insn` and Linux's `struct sock_filter`.
#[repr(C)]
#[derive(Clone, Copy, Default, PartialEq, Eq)]
pub struct Insn {
    pub code: u16,
    pub jt: u8,
    pub jf: u8,
    pub k: u32,
}

impl From<Instruction> for Insn {
    fn from(i: Instruction) -> Insn {
        Insn {
            code: i.code,
            jt: i.jt,
            jf: i.jf,
            k: i.k,
        }
    }
}

impl From<Insn> for Instruction {
    fn from(i: Insn) -> Instruction {
        Instruction {
            code: i.code,
            jt: i.jt,
            jf: i.jf,
            k: i.k,
        }
    }
}

/// `pcap_t`, of which only the address is known here.
#[repr(C)]
struct Pcap {
    _private: [u8; 0],
}

/// C's `FILE`.
#[repr(C)]
struct Stream {
    _private: [u8; 0],
}

/// `struct bpf_program`.
#[repr(C)]
struct Code {
    count: u32,
    first: *mut Insn,
}

/// `struct pcap_pkthdr`.
#[repr(C)]
struct Header {
    seconds: c_long,
    parts: c_long,
    at_hand: u32,
    on_the_wire: u32,
}

#[link(name = "pcap")]
extern "C" {
    fn bpf_validate(program: *const Insn, count: c_int) -> c_int;
    fn bpf_filter(program: *const Insn, frame: *const u8, on_the_wire: u32, at_hand: u32) -> u32;
    fn pcap_lib_version() -> *const c_char;
    fn pcap_open_dead(link: c_int, length: c_int) -> *mut Pcap;
    fn pcap_open_offline(path: *const c_char, error: *mut c_char) -> *mut Pcap;
    fn pcap_fopen_offline(file: *mut Stream, error: *mut c_char) -> *mut Pcap;
    fn pcap_close(pcap: *mut Pcap);
    fn pcap_geterr(pcap: *mut Pcap) -> *const c_char;
    fn pcap_compile(p: *mut Pcap, c: *mut Code, words: *const c_char, o: c_int, mask: u32)
        -> c_int;
    fn pcap_freecode(code: *mut Code);
    fn pcap_datalink(pcap: *mut Pcap) -> c_int;
    fn pcap_next_ex(p: *mut Pcap, header: *mut *const Header, data: *mut *const u8) -> c_int;
}

extern "C" {
    fn fmemopen(bytes: *mut c_void, size: usize, mode: *const c_char) -> *mut Stream;
    fn fclose(file: *mut Stream) -> c_int;
}

/// A string of libpcap's.
fn text(words: *const c_char) -> String {
    // SAFETY: libpcap's strings end in 0 and live until the next call on their handle.
    unsafe { CStr::from_ptr(words) }
        .to_string_lossy()
        .into_owned()
}

pub fn version() -> String {
    // SAFETY: it takes nothing and answers a string of its own.
    text(unsafe { pcap_lib_version() })
}

// ── Programs ─────────────────────────────────────────────────────────────────

/// Whether `bpf_validate` takes a program.
pub fn validates(program: &[Insn]) -> bool {
    // SAFETY: the pointer and the count are those of a slice.
    unsafe { bpf_validate(program.as_ptr(), program.len() as c_int) != 0 }
}

/// What `bpf_filter` returns for a program that `bpf_validate` takes.
pub fn filter(program: &[Insn], frame: &[u8]) -> u32 {
    let length = frame.len() as u32;
    // SAFETY: the program was validated, so its jumps stay inside and it returns; the frame's
    // pointer and length are those of a slice.
    unsafe { bpf_filter(program.as_ptr(), frame.as_ptr(), length, length) }
}

// ── Words ────────────────────────────────────────────────────────────────────

/// By our link byte: EN10MB, IPV4, LINUX_SLL.
const LINKS: [c_int; 3] = [1, 228, 113];
/// The length of frames that a compiled program accepts.
const SNAPSHOT: c_int = 262_144;
const NETMASK_UNKNOWN: u32 = 0xffff_ffff;
/// What `pcap_compile` says where its optimizer finds that no frame is accepted.
const NEVER: &str = "expression rejects all packets";

/// `pcap_compile` for each of our links.
pub struct Compiler {
    handles: [*mut Pcap; 3],
}

impl Compiler {
    pub fn new() -> Compiler {
        // SAFETY: it takes two numbers and answers a handle, or null without memory.
        let handles = LINKS.map(|link| unsafe { pcap_open_dead(link, SNAPSHOT) });
        assert!(
            handles.iter().all(|h| !h.is_null()),
            "no memory for libpcap"
        );
        Compiler { handles }
    }

    /// The program for the words on a link, or what libpcap says. Of words that no frame satisfies
    /// it is one drop.
    pub fn compile(&self, link: u8, words: &str, optimize: bool) -> Result<Vec<Insn>, String> {
        let pcap = self.handles[link as usize - 1];
        let words = CString::new(words).expect("words have no 0");
        let mut code = Code {
            count: 0,
            first: null_mut(),
        };
        let o = optimize as c_int;
        // SAFETY: the handle is open, the words end in 0, and the code is room for the answer.
        let status = unsafe { pcap_compile(pcap, &mut code, words.as_ptr(), o, NETMASK_UNKNOWN) };
        if status != 0 {
            // SAFETY: the handle is open.
            return match text(unsafe { pcap_geterr(pcap) }) {
                said if said == NEVER => Ok(vec![Insn {
                    code: 6,
                    ..Insn::default()
                }]),
                said => Err(said),
            };
        }
        // SAFETY: the answer has so many instructions; they are copied before they are freed.
        let program = unsafe {
            let program = std::slice::from_raw_parts(code.first, code.count as usize).to_vec();
            pcap_freecode(&mut code);
            program
        };
        match validates(&program) {
            true => Ok(program),
            false => Err("bpf_validate turns it down".into()),
        }
    }
}

impl Drop for Compiler {
    fn drop(&mut self) {
        for handle in self.handles {
            // SAFETY: it is open and not used again.
            unsafe { pcap_close(handle) }
        }
    }
}

// ── Captures ─────────────────────────────────────────────────────────────────

/// The room that libpcap asks for its messages.
const ERROR_SIZE: usize = 256;
/// What `pcap_next_ex` answers for a frame, and at the end of a file.
const FRAME: c_int = 1;
const END: c_int = -2;

/// A capture as libpcap reads it: its link in libpcap's numbers, its frames, and whether an error
/// came before the end of the file.
pub struct Capture {
    pub link: c_int,
    pub frames: Vec<Vec<u8>>,
    pub cut: bool,
}

/// A capture's link and frames, or what libpcap says where it does not open it.
pub fn read_file(path: &Path) -> Result<Capture, String> {
    let name = CString::new(path.to_string_lossy().as_bytes()).map_err(|e| e.to_string())?;
    let mut error = [0; ERROR_SIZE];
    // SAFETY: the name ends in 0, and libpcap writes at most so many characters of error.
    let pcap = unsafe { pcap_open_offline(name.as_ptr(), error.as_mut_ptr()) };
    match pcap.is_null() {
        true => Err(text(error.as_ptr())),
        false => Ok(read_all(pcap)),
    }
}

/// The same of a file's bytes.
pub fn read_bytes(file: &[u8]) -> Result<Capture, String> {
    let mut error = [0; ERROR_SIZE];
    // SAFETY: the stream is only read and lives no longer than the bytes; libpcap closes it with
    // its handle, and where there is none it is closed here.
    unsafe {
        let stream = fmemopen(file.as_ptr() as *mut c_void, file.len(), c"rb".as_ptr());
        assert!(!stream.is_null(), "no memory for a stream");
        let pcap = pcap_fopen_offline(stream, error.as_mut_ptr());
        if pcap.is_null() {
            fclose(stream);
            return Err(text(error.as_ptr()));
        }
        Ok(read_all(pcap))
    }
}

/// Reads an open capture to its end or to an error, and closes it.
fn read_all(pcap: *mut Pcap) -> Capture {
    let mut frames = Vec::new();
    let (mut header, mut data) = (std::ptr::null(), std::ptr::null());
    // SAFETY: the handle is open until it is closed here; with 1 the header and its bytes at hand
    // are there until the next call.
    unsafe {
        let link = pcap_datalink(pcap);
        let last = loop {
            match pcap_next_ex(pcap, &mut header, &mut data) {
                FRAME => {
                    let size = (*header).at_hand as usize;
                    frames.push(std::slice::from_raw_parts(data, size).to_vec());
                }
                last => break last,
            }
        };
        pcap_close(pcap);
        Capture {
            link,
            frames,
            cut: last != END,
        }
    }
}
