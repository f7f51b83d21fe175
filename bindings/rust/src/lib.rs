//! The proved transmitting AFDX end system (ARINC 664 Part 7), over the C library that
//! `bash install/install.sh PREFIX` installs.
//!
//! ```no_run
//! # fn main() -> Result<(), afdx::Error> {
//! let mut it = afdx::EndSystem::open(&std::fs::read("plan.toml").expect("a plan"))?;
//! let mut port = it.port(10)?;
//! port.send(b"hello")?;
//! it.poll(0)?;
//! it.each_frame(afdx::Network::A, |frame| println!("{frame:02x?}"))?;
//! # Ok(())
//! # }
//! ```
//!
//! An end system and each port may be used by a thread of its own. Times are in microseconds and don't go back. Frames run
//! from the destination MAC address to the sequence number, without the frame check sequence. `afdx.h` says what each call
//! does. Judging recordings isn't here: use the program `afdx_bench`, C or Python.
#![warn(missing_docs)]
#![deny(unsafe_op_in_unsafe_fn)]

mod error;
pub mod raw;

pub use error::{Error, Misuse, PlanFault, SendFault};
pub use raw::{Counts, Released};

use error::{want, Call};
use raw::Handle;
use std::ptr::null_mut;

/// The greatest frame in bytes.
pub const GREATEST_FRAME: usize = 1514;
/// The most ports of a plan.
pub const MOST_PORTS: usize = 256;

/// A network.
#[derive(Clone, Copy, Debug, PartialEq, Eq)]
#[repr(u8)]
pub enum Network {
    /// Network A.
    A = 0,
    /// Network B.
    B = 1,
}

/// Which networks are up.
#[derive(Clone, Copy, Debug, PartialEq, Eq)]
pub struct Up {
    /// Whether network A is.
    pub a: bool,
    /// Whether network B is.
    pub b: bool,
}

fn empty() -> Handle {
    Handle { at: null_mut(), held: 0, mark: 0 }
}

/// Returns the faults of a plan's text, in lines; "no faults" if there is none.
pub fn explain(text: &[u8]) -> Result<String, Error> {
    let (mut told, mut length) = (Vec::new(), 0);
    loop {
        // SAFETY: both pointers lead to as many bytes as is said, and lie apart.
        let answer = unsafe { raw::afdx_explain(text.as_ptr(), text.len(), told.as_mut_ptr(), told.len(), &mut length) };
        if answer != Misuse::SmallBuffer as u8 {
            want(answer, Call::Other)?;
            return Ok(String::from_utf8_lossy(&told).into_owned());
        }
        told.resize(length, 0);
    }
}

/// Returns the bytes that opening an end system from the table of a plan takes.
pub fn memory(table: &[u8]) -> Result<usize, Error> {
    let mut bytes = 0;
    // SAFETY: the table has as many bytes, and the number lies apart.
    want(unsafe { raw::afdx_memory(table.as_ptr(), table.len(), &mut bytes) }, Call::Open)?;
    Ok(bytes)
}

/// Returns the version of the library: 10,000 times its first number, 100 times its second, and its third.
pub fn library_version() -> u32 {
    // SAFETY: the call takes nothing.
    unsafe { raw::afdx_version_number() }
}

/// A port of an end system, which sends. Its accepted messages are still transmitted after it is dropped, but its end
/// system can't gather then: give it back instead.
#[derive(Debug)]
pub struct Port(Handle);

// SAFETY: a handle moves between threads as any data does, and each call takes it alone (`&mut`) or reads it.
unsafe impl Send for Port {}

impl Port {
    /// Copies a message in.
    pub fn send(&mut self, message: &[u8]) -> Result<(), Error> {
        // SAFETY: the handle is this port's alone, and the message has as many bytes.
        want(unsafe { raw::afdx_send(&mut self.0, message.as_ptr(), message.len()) }, Call::Send)
    }

    /// Returns the number of accepted messages.
    pub fn accepted(&self) -> Result<u64, Error> {
        let mut count = 0;
        // SAFETY: the handle is this port's alone.
        want(unsafe { raw::afdx_accepted(&self.0, &mut count) }, Call::Other)?;
        Ok(count)
    }
}

impl Drop for Port {
    fn drop(&mut self) {
        // SAFETY: the handle isn't used again. That of a port that was given back is empty, which the call refuses.
        unsafe { raw::afdx_free_port(&mut self.0) };
    }
}

/// An end system of a plan.
#[derive(Debug)]
pub struct EndSystem(Handle);

// SAFETY: as of a port.
unsafe impl Send for EndSystem {}

impl EndSystem {
    /// Opens an end system from the text of a plan.
    pub fn open(text: &[u8]) -> Result<EndSystem, Error> {
        let mut it = EndSystem(empty());
        // SAFETY: the handle is empty, and the text has as many bytes.
        match want(unsafe { raw::afdx_open(&mut it.0, text.as_ptr(), text.len()) }, Call::Open) {
            Err(Error::Plan(fault, _)) => Err(Error::Plan(fault, explain(text).unwrap_or_default())),
            done => done.map(|()| it),
        }
    }

    /// Opens an end system from the table of a plan, which `afdx_bench compile` writes.
    pub fn open_table(table: &[u8]) -> Result<EndSystem, Error> {
        let mut it = EndSystem(empty());
        // SAFETY: the handle is empty, and the table has as many bytes.
        want(unsafe { raw::afdx_open_table(&mut it.0, table.as_ptr(), table.len()) }, Call::Open)?;
        Ok(it)
    }

    /// Takes the port with an identifier, once. It may be moved to a thread of its own.
    pub fn port(&mut self, id: u16) -> Result<Port, Error> {
        let mut port = Port(empty());
        // SAFETY: the port's handle is empty, and another one.
        want(unsafe { raw::afdx_port_of(&mut self.0, id, &mut port.0) }, Call::Other)?;
        Ok(port)
    }

    /// Gives each virtual link its turn, and returns which networks are up afterwards.
    pub fn poll(&mut self, now: u64) -> Result<Up, Error> {
        let mut up = 0;
        // SAFETY: the handle is this end system's alone.
        want(unsafe { raw::afdx_poll(&mut self.0, now, &mut up) }, Call::Poll)?;
        Ok(Up { a: up & 1 != 0, b: up & 2 != 0 })
    }

    /// Returns the first time after the last poll at which a virtual link becomes due that wasn't due then, if there is
    /// one: a poller may sleep until it, or until a port has sent.
    pub fn next_due(&self) -> Result<Option<u64>, Error> {
        let mut at = 0;
        // SAFETY: the handle is this end system's alone.
        want(unsafe { raw::afdx_next_due(&self.0, &mut at) }, Call::Other)?;
        Ok((at != u64::MAX).then_some(at))
    }

    /// Returns the number of frames that the last poll made for a network.
    pub fn frames(&self, network: Network) -> Result<usize, Error> {
        let mut count = 0;
        // SAFETY: the handle is this end system's alone.
        want(unsafe { raw::afdx_frames(&self.0, network as u8, &mut count) }, Call::Other)?;
        Ok(count)
    }

    /// Copies frame `k`, from 0, of the last poll into a buffer, and returns its length.
    pub fn frame(&self, network: Network, k: usize, buffer: &mut [u8]) -> Result<usize, Error> {
        let (mut length, size) = (0, buffer.len());
        // SAFETY: the buffer has as many bytes, and the length lies apart.
        want(unsafe { raw::afdx_frame(&self.0, network as u8, k, buffer.as_mut_ptr(), size, &mut length) }, Call::Other)?;
        Ok(length)
    }

    /// Calls `sink` with each frame that the last poll made for a network.
    pub fn each_frame(&self, network: Network, mut sink: impl FnMut(&[u8])) -> Result<(), Error> {
        let mut buffer = [0; GREATEST_FRAME];
        for k in 0..self.frames(network)? {
            let length = self.frame(network, k, &mut buffer)?;
            sink(&buffer[..length]);
        }
        Ok(())
    }

    /// Returns what frame `k`, from 0, of the last poll carries.
    pub fn released(&self, network: Network, k: usize) -> Result<Released, Error> {
        let mut released = Released::default();
        // SAFETY: the handle is this end system's alone.
        want(unsafe { raw::afdx_release(&self.0, network as u8, k, &mut released) }, Call::Other)?;
        Ok(released)
    }

    /// Returns the identifiers of all ports, whether or not a port is out, in the order of the plan.
    pub fn ports(&self) -> Result<Vec<u16>, Error> {
        self.listed(raw::afdx_ports)
    }

    /// Returns the identifiers of all virtual links, in the order of the plan.
    pub fn links(&self) -> Result<Vec<u16>, Error> {
        self.listed(raw::afdx_links)
    }

    fn listed(&self, call: unsafe extern "C" fn(*const Handle, *mut u16, usize, *mut usize) -> u8) -> Result<Vec<u16>, Error> {
        let (mut ids, mut count) = (vec![0; MOST_PORTS], 0);
        // SAFETY: the list has as much room, and the count lies apart.
        want(unsafe { call(&self.0, ids.as_mut_ptr(), MOST_PORTS, &mut count) }, Call::Other)?;
        ids.truncate(count);
        Ok(ids)
    }

    /// Makes a network fail: its next frame fails, and it gets none afterwards.
    pub fn fail(&mut self, network: Network) -> Result<(), Error> {
        // SAFETY: the handle is this end system's alone.
        want(unsafe { raw::afdx_fail(&mut self.0, network as u8) }, Call::Other)
    }

    /// Closes a sub-VL, and returns the number of its accepted messages.
    pub fn close(&mut self, vl: u16, sub: u8) -> Result<u64, Error> {
        let mut total = 0;
        // SAFETY: the handle is this end system's alone.
        want(unsafe { raw::afdx_close(&mut self.0, vl, sub, &mut total) }, Call::Other)?;
        Ok(total)
    }

    /// Returns the counts of a virtual link so far.
    pub fn counts(&self, vl: u16) -> Result<Counts, Error> {
        let mut counts = Counts::default();
        // SAFETY: the handle is this end system's alone.
        want(unsafe { raw::afdx_link_counts(&self.0, vl, &mut counts) }, Call::Other)?;
        Ok(counts)
    }

    /// Takes back a port of this end system. One of another end system is returned.
    pub fn give_back(&mut self, mut port: Port) -> Result<(), (Error, Port)> {
        // SAFETY: the two handles are different ones.
        want(unsafe { raw::afdx_give_back(&mut self.0, &mut port.0) }, Call::Other).map_err(|error| (error, port))
    }

    /// Starts draining, once each port was given back or never taken.
    pub fn gather(&mut self) -> Result<(), Error> {
        // SAFETY: the handle is this end system's alone.
        want(unsafe { raw::afdx_gather(&mut self.0) }, Call::Other)
    }

    /// Returns whether all accepted messages were transmitted, once it has gathered.
    pub fn is_done(&self) -> Result<bool, Error> {
        let mut done = 0;
        // SAFETY: the handle is this end system's alone.
        want(unsafe { raw::afdx_is_done(&self.0, &mut done) }, Call::Other)?;
        Ok(done != 0)
    }
}

impl Drop for EndSystem {
    fn drop(&mut self) {
        // SAFETY: the handle isn't used again. An empty one is refused.
        unsafe { raw::afdx_free(&mut self.0) };
    }
}
