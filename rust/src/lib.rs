//! A model of the Linux bridge with switchdev offload: transcripts of scenarios, whole or line by line, and checks of them.
//!
//! Texts are as docs/FORMATS.md of the repository has them. What `c/switchbr.h` says of each call holds here, too: it asks of its caller only
//! that pointers and sizes are those of slices, and that a session is moved, not copied, and stays in its thread, which this crate sees to.

use std::error::Error;
use std::ffi::c_void;
use std::fmt;
use std::ptr::null_mut;

const OK: u8 = 0;
const DIFFERS: u8 = 1;
const USAGE: u8 = 2;
const BAD_LINE: u8 = 3;
const TOO_LONG: u8 = 7;
const NO_ROOM: u8 = 16;
const CLOSED: u8 = 17;

const ABI: u32 = 3;

#[repr(C)]
struct Handle {
    at: *mut c_void,
    is_open: bool,
}

extern "C" {
    fn switchbr_abi() -> u32;
    fn switchbr_replay(scenario: *const u8, size: usize, out: *mut u8, room: usize, len: *mut usize) -> u8;
    fn switchbr_follow(messages: *const u8, size: usize, out: *mut u8, room: usize, len: *mut usize) -> u8;
    fn switchbr_generate(number: u64, count: u32, out: *mut u8, room: usize, len: *mut usize) -> u8;
    fn switchbr_show(table: u8, scenario: *const u8, size: usize, out: *mut u8, room: usize, len: *mut usize) -> u8;
    fn switchbr_check(scenario: *const u8, size: usize, transcript: *const u8, transcript_size: usize, line: *mut u32) -> u8;
    fn switchbr_open(session: *mut Handle) -> u8;
    fn switchbr_line(session: *mut Handle, line: *const u8, size: usize, out: *mut u8, room: usize, len: *mut usize) -> u8;
    fn switchbr_try(session: *mut Handle, line: *const u8, size: usize, out: *mut u8, room: usize, len: *mut usize) -> u8;
    fn switchbr_shown(session: *mut Handle, table: u8, out: *mut u8, room: usize, len: *mut usize) -> u8;
    fn switchbr_section(session: *mut Handle, section: *const u8, size: usize, out: *mut u8, room: usize, len: *mut usize) -> u8;
    fn switchbr_text(session: *mut Handle, out: *mut u8, room: usize, len: *mut usize) -> u8;
    fn switchbr_end(session: *mut Handle) -> u8;
}

/// Why there is no answer.
#[derive(Debug, Clone, PartialEq, Eq)]
#[non_exhaustive]
pub enum Fault {
    /// This line of the input is bad, counted from 1, and this is told up to it and of it, in a session since the line before; of `check`
    /// nothing.
    BadLine { line: u32, text: String },
    /// The input is longer than 2^28 bytes, or more than 100,000 frames are asked for.
    TooLong,
    /// In a session the scenario has ended, or there was no memory before.
    Closed,
    /// A session's line has a line feed, or a section is wanted; no section is wanted, or one of another length.
    Misplaced,
    NoMemory,
    /// The library that was linked is of another version than this crate: its header says another `SWITCHBR_ABI`.
    Version,
}

impl fmt::Display for Fault {
    fn fmt(&self, to: &mut fmt::Formatter<'_>) -> fmt::Result {
        match self {
            Fault::BadLine { line, text } => match text.lines().last() {
                Some(last) => to.write_str(last),
                None => write!(to, "bad {line}"),
            },
            Fault::TooLong => to.write_str("too long"),
            Fault::Closed => to.write_str("closed"),
            Fault::Misplaced => to.write_str("misplaced"),
            Fault::NoMemory => to.write_str("no memory"),
            Fault::Version => to.write_str("the linked library is of another version"),
        }
    }
}

impl Error for Fault {}

fn fault(status: u8) -> Fault {
    match status {
        TOO_LONG => Fault::TooLong,
        CLOSED => Fault::Closed,
        USAGE => Fault::Misplaced,
        _ => Fault::NoMemory,
    }
}

/// What a call has written.
fn given(status: u8, out: Vec<u8>) -> Result<String, Fault> {
    if status != OK && status != BAD_LINE {
        return Err(fault(status));
    }
    let text = String::from_utf8(out).expect("texts are ASCII");
    if status == OK {
        return Ok(text);
    }
    let line = text.lines().last().and_then(|last| last.split(' ').nth(1)?.parse().ok());
    Err(Fault::BadLine { line: line.expect("the last line is the bad one"), text })
}

fn same_version() -> Result<(), Fault> {
    if unsafe { switchbr_abi() } == ABI { Ok(()) } else { Err(Fault::Version) }
}

fn told(first_room: usize, call: impl Fn(*mut u8, usize, *mut usize) -> u8) -> Result<String, Fault> {
    same_version()?;
    let mut len = first_room;
    let mut out = Vec::new();
    let status = loop {
        out.resize(len, 0);
        match call(out.as_mut_ptr(), out.len(), &mut len) {
            NO_ROOM => continue,
            status => break status,
        }
    };
    out.truncate(len);
    given(status, out)
}

/// The transcript of a scenario, as `switchbr replay` writes it.
///
/// ```
/// let told = switchbr::replay(b"scenario 1\nport 1 p1 soft\ncmd port up p1\nend\n")?;
/// assert_eq!(told, "transcript 1\nok 1 3\nend 1 3 0 0\n");
/// # Ok::<(), switchbr::Fault>(())
/// ```
pub fn replay(scenario: &[u8]) -> Result<String, Fault> {
    let (at, size) = (scenario.as_ptr(), scenario.len());
    told(4 * size + 4096, |out, room, len| unsafe { switchbr_replay(at, size, out, room, len) })
}

/// The table that lines of messages give, as `switchbr follow` writes it.
pub fn follow(messages: &[u8]) -> Result<String, Fault> {
    let (at, size) = (messages.as_ptr(), messages.len());
    told(size + 4096, |out, room, len| unsafe { switchbr_follow(at, size, out, room, len) })
}

/// A table of a bridge.
#[derive(Debug, Clone, Copy, PartialEq, Eq)]
pub enum Table {
    /// Address entries.
    Fdb = 0,
    /// The members of VLANs.
    Vlan = 1,
    /// The members of groups.
    Mdb = 2,
}

/// A table at the end of a scenario, as `switchbr show` writes it.
///
/// ```
/// let members = switchbr::show(switchbr::Table::Vlan, b"scenario 1\nport 1 p1 soft\ncmd port up p1\nend\n")?;
/// assert_eq!(members, "host 1 untagged\np1 1 pvid untagged\nend\n");
/// # Ok::<(), switchbr::Fault>(())
/// ```
pub fn show(table: Table, scenario: &[u8]) -> Result<String, Fault> {
    let (at, size) = (scenario.as_ptr(), scenario.len());
    told(size + 4096, |out, room, len| unsafe { switchbr_show(table as u8, at, size, out, room, len) })
}

/// A scenario of so many frames, as `switchbr gen` writes it.
pub fn generate(number: u64, count: u32) -> Result<String, Fault> {
    let first_room = 256 * count.min(100_000) as usize + 4096;
    told(first_room, |out, room, len| unsafe { switchbr_generate(number, count, out, room, len) })
}

/// The number of the first line in which the transcript isn't the scenario's, counted from 1; `None` where it is.
pub fn check(scenario: &[u8], transcript: &[u8]) -> Result<Option<u32>, Fault> {
    same_version()?;
    let mut line = 0;
    let status = unsafe { switchbr_check(scenario.as_ptr(), scenario.len(), transcript.as_ptr(), transcript.len(), &mut line) };
    match status {
        OK => Ok(None),
        DIFFERS => Ok(Some(line)),
        BAD_LINE => Err(Fault::BadLine { line, text: String::new() }),
        _ => Err(fault(status)),
    }
}

/// A scenario line by line. Each call gives the lines of the transcript that it tells, the first one also `transcript 1`. Behind a bad line the
/// scenario has ended, as behind its line `end`.
///
/// ```
/// let mut session = switchbr::Session::open()?;
/// for line in ["scenario 1", "port 1 p1 soft", "port 2 p2 soft", "cmd port up p1", "cmd port up p2", "publish"] {
///     session.line(line.as_bytes())?;
/// }
/// session.line(b"rx 1 02000000000b02000000000a88b50102")?;
/// let told = session.line(b"serve")?;
/// assert_eq!(told.lines().next(), Some("soft 1 at 6"));
/// # Ok::<(), switchbr::Fault>(())
/// ```
pub struct Session {
    handle: Handle,
    room: Vec<u8>,
}

impl Session {
    /// Opens one, before the first line of a scenario.
    pub fn open() -> Result<Session, Fault> {
        same_version()?;
        let mut session = Session { handle: Handle { at: null_mut(), is_open: false }, room: vec![0; 4096] };
        match unsafe { switchbr_open(&mut session.handle) } {
            OK => Ok(session),
            status => Err(fault(status)),
        }
    }

    fn told(&mut self, call: impl Fn(*mut Handle, *mut u8, usize, *mut usize) -> u8) -> Result<String, Fault> {
        let mut len = 0;
        let mut status = call(&mut self.handle, self.room.as_mut_ptr(), self.room.len(), &mut len);
        if status == NO_ROOM {
            self.room.resize(len, 0);
            status = unsafe { switchbr_text(&mut self.handle, self.room.as_mut_ptr(), self.room.len(), &mut len) };
        }
        given(status, self.room[..len].to_vec())
    }

    /// Takes the next line, without its line feed.
    pub fn line(&mut self, line: &[u8]) -> Result<String, Fault> {
        let (at, size) = (line.as_ptr(), line.len());
        self.told(|handle, out, room, len| unsafe { switchbr_line(handle, at, size, out, room, len) })
    }

    /// What `line` would answer of the line: `Fault::BadLine`, of which the text is `bad N WHY`, or another fault. The session is as before, after
    /// want of memory, too.
    ///
    /// ```
    /// let mut session = switchbr::Session::open()?;
    /// session.line(b"scenario 1")?;
    /// let typo = session.try_line(b"prot 1 p1 soft").unwrap_err();
    /// assert_eq!(typo.to_string(), "bad 2 word");
    /// session.line(b"port 1 p1 soft")?;
    /// # Ok::<(), switchbr::Fault>(())
    /// ```
    pub fn try_line(&mut self, line: &[u8]) -> Result<(), Fault> {
        let (mut out, mut len) = (vec![0; 64], 0);
        let status = unsafe { switchbr_try(&mut self.handle, line.as_ptr(), line.len(), out.as_mut_ptr(), out.len(), &mut len) };
        out.truncate(len);
        given(status, out).map(|_| ())
    }

    /// A table of all that was taken, wherever the scenario stands. The session is as before.
    pub fn show(&mut self, table: Table) -> Result<String, Fault> {
        let handle: *mut Handle = &mut self.handle;
        told(4096, |out, room, len| unsafe { switchbr_shown(handle, table as u8, out, room, len) })
    }

    /// Takes the whole section of the line `capture LENGTH` before.
    pub fn section(&mut self, section: &[u8]) -> Result<String, Fault> {
        let (at, size) = (section.as_ptr(), section.len());
        self.told(|handle, out, room, len| unsafe { switchbr_section(handle, at, size, out, room, len) })
    }
}

impl fmt::Debug for Session {
    fn fmt(&self, to: &mut fmt::Formatter<'_>) -> fmt::Result {
        to.debug_struct("Session").field("is_open", &self.handle.is_open).finish_non_exhaustive()
    }
}

impl Drop for Session {
    fn drop(&mut self) {
        unsafe { switchbr_end(&mut self.handle) };
    }
}
