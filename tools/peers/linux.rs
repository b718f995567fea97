//! Linux's socket filter.

use std::ffi::{c_int, c_void};
use std::io::{Error, ErrorKind};
use std::os::fd::AsRawFd;
use std::os::unix::net::UnixDatagram;

use crate::libpcap::Insn;

const SOL_SOCKET: c_int = 1;
/// To get, it is SO_GET_FILTER.
const SO_ATTACH_FILTER: c_int = 26;
const SO_DETACH_FILTER: c_int = 27;

extern "C" {
    fn setsockopt(
        socket: c_int,
        level: c_int,
        name: c_int,
        value: *const c_void,
        size: u32,
    ) -> c_int;
    fn getsockopt(
        socket: c_int,
        level: c_int,
        name: c_int,
        value: *mut c_void,
        size: *mut u32,
    ) -> c_int;
}

#[repr(C)]
struct Fprog {
    count: u16,
    program: *const Insn,
}

/// A pair of local datagram sockets. The filter of the receiving one runs when a datagram is sent,
/// over its bytes; what it drops is not queued.
pub struct Linux {
    sender: UnixDatagram,
    receiver: UnixDatagram,
    received: Vec<u8>,
}

impl Linux {
    pub fn new() -> Result<Linux, Error> {
        let (sender, receiver) = UnixDatagram::pair()?;
        sender.set_nonblocking(true)?;
        receiver.set_nonblocking(true)?;
        Ok(Linux {
            sender,
            receiver,
            received: vec![0; 1 << 17],
        })
    }

    pub fn attach(&self, program: &[Insn]) -> Result<(), Error> {
        let fprog = Fprog {
            count: program.len() as u16,
            program: program.as_ptr(),
        };
        let size = std::mem::size_of::<Fprog>() as u32;
        let value: *const Fprog = &fprog;
        // SAFETY: the value is a struct sock_fprog, whose program is a slice of so many.
        let status = unsafe {
            setsockopt(
                self.receiver.as_raw_fd(),
                SOL_SOCKET,
                SO_ATTACH_FILTER,
                value.cast(),
                size,
            )
        };
        if status == 0 {
            Ok(())
        } else {
            Err(Error::last_os_error())
        }
    }

    /// The program that is attached, as it was handed over.
    pub fn attached(&self) -> Result<Vec<Insn>, Error> {
        let mut program = vec![Insn::default(); 4096];
        let mut count = program.len() as u32;
        // SAFETY: room for so many instructions, in which this option counts.
        let status = unsafe {
            let value = program.as_mut_ptr().cast();
            getsockopt(
                self.receiver.as_raw_fd(),
                SOL_SOCKET,
                SO_ATTACH_FILTER,
                value,
                &mut count,
            )
        };
        program.truncate(count as usize);
        if status == 0 {
            Ok(program)
        } else {
            Err(Error::last_os_error())
        }
    }

    pub fn detach(&self) -> Result<(), Error> {
        let value: c_int = 0;
        let pointer: *const c_int = &value;
        // SAFETY: the value is an int, which the option does not read.
        let status = unsafe {
            setsockopt(
                self.receiver.as_raw_fd(),
                SOL_SOCKET,
                SO_DETACH_FILTER,
                pointer.cast(),
                4,
            )
        };
        if status == 0 {
            Ok(())
        } else {
            Err(Error::last_os_error())
        }
    }

    /// What the filter lets through of a frame; None where it drops it.
    pub fn receive(&mut self, frame: &[u8]) -> Result<Option<&[u8]>, Error> {
        let sent = self.sender.send(frame)?;
        if sent != frame.len() {
            return Err(Error::new(
                ErrorKind::Other,
                "a datagram was cut by its sender",
            ));
        }
        match self.receiver.recv(&mut self.received) {
            Ok(length) => Ok(Some(&self.received[..length])),
            Err(error) if error.kind() == ErrorKind::WouldBlock => Ok(None),
            Err(error) => Err(error),
        }
    }
}
