//! A client of the daemon `iovad serve`, over its Unix socket. `libiova` isn't called.
//!
//! [`Session::alloc`] and its like ask one request and wait for its answer. Up to [`IN_FLIGHT`] requests may be in flight, which costs one
//! write and mostly one read for all of them: [`Session::ask_alloc`] and its like ask and don't wait, and [`Session::take_alloc`] and its
//! like take the answers, in the order of the requests.
//!
//! ```no_run
//! use std::time::Duration;
//! use iova::service::Session;
//!
//! # fn main() -> Result<(), iova::service::Error> {
//! let mut session = Session::open("/tmp/iovad.socket", 0, iova::Reach::Dac, Some(Duration::from_secs(2)))?;
//! let buffer = session.alloc(3, u64::MAX)?; // 3 frames, 4 are given
//! session.free(buffer.lo)?; // they wait for a flush
//! session.bye()?;
//! # Ok(())
//! # }
//! ```
//!
//! After [`Error::Broken`], [`Error::Ended`], [`Error::Malformed`] and [`Error::TimedOut`] the session is lost: each further call answers
//! the same at once. An answer that came too late would be taken for that to the next request, so open anew; the daemon takes back what a
//! lost session held, as it does where a session is dropped. A session has at most 65,536 requests, where the daemon says nothing else.

use std::collections::VecDeque;
use std::ffi::CString;
use std::fmt;
use std::io::{self, Read};
use std::mem;
use std::os::raw::{c_int, c_long, c_void};
use std::os::unix::ffi::OsStrExt;
use std::os::unix::io::{AsRawFd, FromRawFd, RawFd};
use std::os::unix::net::UnixStream;
use std::path::Path;
use std::time::{Duration, Instant};

use crate::{Frames, Reach, Refusal};

/// Requests in flight at most: those that were asked and whose answer wasn't taken.
pub const IN_FLIGHT: usize = 16;

/// The longest line of an answer, in bytes; the daemon's have at most 128.
const MAX_LINE: usize = 4096;

/// Why there is no answer, or a refusal for one.
#[derive(Debug)]
#[non_exhaustive]
pub enum Error {
    /// The daemon's refusal. The session goes on, but for `BadLine` and `TooMany`.
    Refused(Refusal),
    /// The path is none that a Unix socket may have.
    BadPath,
    /// Nobody listens there, or no socket can be made.
    NoDaemon(io::Error),
    /// A read or a write failed.
    Broken(io::Error),
    /// The stream ended before the answer, or in it.
    Ended,
    /// What came is no answer to what was asked.
    Malformed,
    /// [`IN_FLIGHT`] requests are in flight: take an answer first.
    Full,
    /// A call that waits, while requests are in flight: take their answers first.
    Busy,
    /// No such request is the next whose answer comes.
    NotAsked,
    /// No connection, or no answer, within the time.
    TimedOut,
}

impl fmt::Display for Error {
    fn fmt(&self, f: &mut fmt::Formatter<'_>) -> fmt::Result {
        match self {
            Error::Refused(refusal) => write!(f, "the daemon refused: {refusal}"),
            Error::BadPath => f.write_str("no path that a Unix socket may have"),
            Error::NoDaemon(why) => write!(f, "no daemon: {why}"),
            Error::Broken(why) => write!(f, "the session broke: {why}"),
            Error::Ended => f.write_str("the daemon ended the session"),
            Error::Malformed => f.write_str("what came is no answer to what was asked"),
            Error::Full => f.write_str("16 requests are in flight"),
            Error::Busy => f.write_str("requests are in flight"),
            Error::NotAsked => f.write_str("no such request is the next whose answer comes"),
            Error::TimedOut => f.write_str("no answer within the time"),
        }
    }
}

impl std::error::Error for Error {
    fn source(&self) -> Option<&(dyn std::error::Error + 'static)> {
        match self {
            Error::Refused(refusal) => Some(refusal),
            Error::NoDaemon(why) | Error::Broken(why) => Some(why),
            _ => None,
        }
    }
}

/// The answer to a free: the range, and what became of it.
#[derive(Clone, Copy, Debug, PartialEq, Eq)]
pub struct Freed {
    /// The first frame.
    pub lo: u64,
    /// How many frames there are.
    pub len: u64,
    /// Whether a strict domain has flushed it already, so that it may be given again; else it waits for a flush.
    pub is_flushed: bool,
}

/// The answer to a flush.
#[derive(Clone, Copy, Debug, PartialEq, Eq)]
pub struct Flushed {
    /// The flush's number.
    pub number: u64,
    /// How many ranges it drained.
    pub ranges: u64,
}

/// How many frames of the domain are where, and how many flushes have begun and are accounted for.
#[derive(Clone, Copy, Debug, PartialEq, Eq)]
pub struct Stat {
    /// Frames that are nobody's.
    pub free: u64,
    /// Frames of windows.
    pub reserved: u64,
    /// Frames that clients hold.
    pub client: u64,
    /// Frames in magazines.
    pub magazine: u64,
    /// Frames in the depot.
    pub depot: u64,
    /// Frames in rings, where they wait for a flush.
    pub ring: u64,
    /// How many flushes have begun.
    pub start: u64,
    /// How many are accounted for.
    pub finish: u64,
}

#[derive(Clone, Copy, PartialEq, Eq)]
enum Kind {
    Hello,
    Alloc,
    Free,
    List,
    Flush,
    Stat,
    Bye,
}

/// By what a session is lost.
#[derive(Clone, Copy)]
enum Lost {
    Broken(io::ErrorKind),
    Ended,
    Malformed,
    TimedOut,
}

impl From<Lost> for Error {
    fn from(lost: Lost) -> Error {
        match lost {
            Lost::Broken(kind) => Error::Broken(kind.into()),
            Lost::Ended => Error::Ended,
            Lost::Malformed => Error::Malformed,
            Lost::TimedOut => Error::TimedOut,
        }
    }
}

/// A session of the daemon: one of its clients. It is used by one thread at a time.
pub struct Session {
    stream: UnixStream,
    within: Option<Duration>,
    until: Option<Instant>,
    is_opening: bool,
    is_bound: bool,
    lost: Option<Lost>,
    number: u64,
    asked: VecDeque<Kind>,
    unsent: Vec<u8>,
    sent: usize,
    read: Vec<u8>,
    at: usize,
}

impl Session {
    /// Connects to the daemon at the path, and opens a client of the domain with this number, both together within the time, which each
    /// later answer has too. `None` is as long as it takes: long where the daemon serves as many clients as it may.
    pub fn open(path: impl AsRef<Path>, domain: u64, reach: Reach, within: Option<Duration>) -> Result<Session, Error> {
        let until = within.map(|within| Instant::now() + within);
        let mut session = Session {
            stream: connect(path.as_ref(), until)?,
            within,
            until,
            is_opening: true,
            is_bound: until.is_some(),
            lost: None,
            number: 0,
            asked: VecDeque::with_capacity(IN_FLIGHT),
            unsent: Vec::with_capacity(IN_FLIGHT * 48),
            sent: 0,
            read: Vec::with_capacity(MAX_LINE),
            at: 0,
        };
        let reach = if reach == Reach::Sac { "sac" } else { "dac" };
        session.ask(Kind::Hello, format_args!("hello iova1 {domain} {reach}"))?;
        let [number] = session.take(Kind::Hello, "opened")?;
        session.number = number;
        Ok(session)
    }

    /// The client's number.
    pub fn number(&self) -> u64 {
        self.number
    }

    /// From now on each call waits at most so long for its answer; `None` is as long as it takes. A flush, and a free in a strict domain
    /// or at a full ring, may take as long as the daemon's `--sink-timeout`.
    pub fn set_within(&mut self, within: Option<Duration>) {
        self.within = within;
    }

    /// How many requests were asked whose answers weren't taken.
    pub fn in_flight(&self) -> usize {
        self.asked.len()
    }

    /// So many frames, none above frame `limit`.
    pub fn alloc(&mut self, frames: u64, limit: u64) -> Result<Frames, Error> {
        self.idle()?;
        self.ask_alloc(frames, limit)?;
        self.take_alloc()
    }

    /// The device has stopped using the range that begins at frame `lo`.
    pub fn free(&mut self, lo: u64) -> Result<Freed, Error> {
        self.idle()?;
        self.ask_free(lo)?;
        self.take_free()
    }

    /// The ranges that the client holds, rising by first frame.
    pub fn list(&mut self) -> Result<Vec<Frames>, Error> {
        self.idle()?;
        self.ask_list()?;
        self.take_list()
    }

    /// A flush now.
    pub fn flush(&mut self) -> Result<Flushed, Error> {
        self.idle()?;
        self.ask_flush()?;
        self.take_flush()
    }

    /// How many frames are where.
    pub fn stat(&mut self) -> Result<Stat, Error> {
        self.idle()?;
        self.ask_stat()?;
        self.take_stat()
    }

    /// Ends the session in good order.
    pub fn bye(mut self) -> Result<(), Error> {
        self.idle()?;
        self.ask(Kind::Bye, format_args!("bye"))?;
        let [] = self.take(Kind::Bye, "bye")?;
        Ok(())
    }

    /// Asks for frames without waiting: [`Session::take_alloc`] takes the answer.
    pub fn ask_alloc(&mut self, frames: u64, limit: u64) -> Result<(), Error> {
        self.ask(Kind::Alloc, format_args!("alloc {frames} {limit}"))
    }

    /// Gives a range up without waiting.
    pub fn ask_free(&mut self, lo: u64) -> Result<(), Error> {
        self.ask(Kind::Free, format_args!("free {lo}"))
    }

    /// Asks for the client's ranges without waiting.
    pub fn ask_list(&mut self) -> Result<(), Error> {
        self.ask(Kind::List, format_args!("list"))
    }

    /// Asks for a flush without waiting.
    pub fn ask_flush(&mut self) -> Result<(), Error> {
        self.ask(Kind::Flush, format_args!("flush"))
    }

    /// Asks how many frames are where, without waiting.
    pub fn ask_stat(&mut self) -> Result<(), Error> {
        self.ask(Kind::Stat, format_args!("stat"))
    }

    /// The answer to [`Session::ask_alloc`], where that is the next.
    pub fn take_alloc(&mut self) -> Result<Frames, Error> {
        let [lo, len] = self.take(Kind::Alloc, "given")?;
        Ok(Frames { lo, len })
    }

    /// The answer to [`Session::ask_free`], where that is the next.
    pub fn take_free(&mut self) -> Result<Freed, Error> {
        let (word, [lo, len]) = self.take_either(Kind::Free, ["queued", "freed"])?;
        Ok(Freed { lo, len, is_flushed: word == 1 })
    }

    /// The answer to [`Session::ask_list`], where that is the next.
    pub fn take_list(&mut self) -> Result<Vec<Frames>, Error> {
        let [count] = self.take(Kind::List, "held")?;
        let mut held = Vec::new();
        for _ in 0..count {
            let range = self.line(|line| numbers(line))?;
            let [lo, len] = range.ok_or_else(|| self.lose(Lost::Malformed))?;
            held.push(Frames { lo, len });
        }
        Ok(held)
    }

    /// The answer to [`Session::ask_flush`], where that is the next.
    pub fn take_flush(&mut self) -> Result<Flushed, Error> {
        let [number, ranges] = self.take(Kind::Flush, "flushed")?;
        Ok(Flushed { number, ranges })
    }

    /// The answer to [`Session::ask_stat`], where that is the next.
    pub fn take_stat(&mut self) -> Result<Stat, Error> {
        let [free, reserved, client, magazine, depot, ring, start, finish] = self.take(Kind::Stat, "stat")?;
        Ok(Stat { free, reserved, client, magazine, depot, ring, start, finish })
    }

    /// Sends what was asked and not sent; a take that has to wait does so too.
    pub fn send(&mut self) -> Result<(), Error> {
        self.whole()?;
        self.begin();
        self.send_all()
    }

    fn whole(&self) -> Result<(), Error> {
        self.lost.map_or(Ok(()), |lost| Err(lost.into()))
    }

    fn idle(&self) -> Result<(), Error> {
        self.whole()?;
        if self.asked.is_empty() {
            Ok(())
        } else {
            Err(Error::Busy)
        }
    }

    fn lose(&mut self, lost: Lost) -> Error {
        self.lost = Some(lost);
        lost.into()
    }

    fn fault(&mut self, why: io::Error) -> Error {
        match why.kind() {
            io::ErrorKind::WouldBlock | io::ErrorKind::TimedOut => self.lose(Lost::TimedOut),
            kind => {
                self.lost = Some(Lost::Broken(kind));
                Error::Broken(why)
            }
        }
    }

    fn ask(&mut self, kind: Kind, line: fmt::Arguments<'_>) -> Result<(), Error> {
        self.whole()?;
        if self.asked.len() == IN_FLIGHT {
            return Err(Error::Full);
        }
        // a Vec takes whatever is written
        let _ = io::Write::write_fmt(&mut self.unsent, line);
        self.unsent.push(b'\n');
        self.asked.push_back(kind);
        Ok(())
    }

    /// The time of a call that waits begins; that of the first one has begun with the connection.
    fn begin(&mut self) {
        if !mem::take(&mut self.is_opening) {
            self.until = self.within.map(|within| Instant::now() + within);
        }
    }

    /// What is left of the time: `None` without an end.
    fn left(&mut self) -> Result<Option<Duration>, Error> {
        match self.until {
            None => Ok(None),
            Some(until) => match until.checked_duration_since(Instant::now()) {
                Some(left) if left > Duration::ZERO => Ok(Some(left)),
                _ => Err(self.lose(Lost::TimedOut)),
            },
        }
    }

    /// Bounds the next read and write by what is left; nothing is asked of the system where no time was ever said.
    fn bound(&mut self) -> Result<(), Error> {
        let left = self.left()?;
        if left.is_some() || self.is_bound {
            self.is_bound = left.is_some();
            let told = self.stream.set_read_timeout(left).and_then(|()| self.stream.set_write_timeout(left));
            return told.map_err(|why| self.fault(why));
        }
        Ok(())
    }

    fn send_all(&mut self) -> Result<(), Error> {
        let mut sent = 0;
        while sent < self.unsent.len() {
            self.bound()?;
            match send(self.stream.as_raw_fd(), &self.unsent[sent..]) {
                Ok(count) => sent += count,
                Err(why) if why.kind() == io::ErrorKind::Interrupted => {}
                Err(why) => return Err(self.fault(why)),
            }
        }
        self.unsent.clear();
        self.sent = self.asked.len();
        Ok(())
    }

    /// What is read of the next line, which is waited for.
    fn line<T>(&mut self, of: impl FnOnce(&[u8]) -> T) -> Result<T, Error> {
        let mut seen = self.at;
        loop {
            if let Some(length) = self.read[seen..].iter().position(|byte| *byte == b'\n') {
                let end = seen + length;
                let told = of(&self.read[self.at..end]);
                self.at = end + 1;
                if self.at == self.read.len() {
                    self.read.clear();
                    self.at = 0;
                }
                return Ok(told);
            }
            seen = self.read.len();
            if seen - self.at >= MAX_LINE {
                return Err(self.lose(Lost::Malformed));
            }
            self.bound()?;
            let mut bytes = [0; MAX_LINE];
            match self.stream.read(&mut bytes) {
                Ok(0) => return Err(self.lose(Lost::Ended)),
                Ok(count) => {
                    self.read.drain(..self.at);
                    seen -= self.at;
                    self.at = 0;
                    self.read.extend_from_slice(&bytes[..count]);
                }
                Err(why) if why.kind() == io::ErrorKind::Interrupted => {}
                Err(why) => return Err(self.fault(why)),
            }
        }
    }

    fn take<const N: usize>(&mut self, kind: Kind, word: &str) -> Result<[u64; N], Error> {
        self.take_either(kind, [word, word]).map(|(_, numbers)| numbers)
    }

    /// The answer to a request of the kind: which of the words it has, and its numbers.
    fn take_either<const N: usize>(&mut self, kind: Kind, words: [&str; 2]) -> Result<(usize, [u64; N]), Error> {
        self.whole()?;
        if self.asked.front() != Some(&kind) {
            return Err(Error::NotAsked);
        }
        self.begin();
        let answer = if self.sent == 0 { self.send_all() } else { Ok(()) }.and_then(|()| self.line(|line| answer(line, words)));
        let answer = answer?;
        self.asked.pop_front();
        self.sent -= 1;
        match answer {
            Some(Ok(told)) => Ok(told),
            Some(Err(refusal)) => Err(Error::Refused(refusal)),
            None => Err(self.lose(Lost::Malformed)),
        }
    }
}

impl fmt::Debug for Session {
    fn fmt(&self, f: &mut fmt::Formatter<'_>) -> fmt::Result {
        f.debug_struct("Session").field("number", &self.number).field("in_flight", &self.asked.len()).finish()
    }
}

/// An answer: which word and its numbers, or a refusal; none where it is neither.
fn answer<const N: usize>(line: &[u8], words: [&str; 2]) -> Option<Result<(usize, [u64; N]), Refusal>> {
    if let Some(rest) = line.strip_prefix(b"no ") {
        let space = rest.iter().position(|byte| *byte == b' ')?;
        let name = &rest[space + 1..];
        let number = number(&rest[..space]).filter(|number| (1..100).contains(number))?;
        let is_word = !name.is_empty() && name.iter().all(u8::is_ascii_alphabetic);
        return is_word.then(|| Refusal::of(number)).flatten().map(Err);
    }
    let which = words.iter().position(|word| {
        line.strip_prefix(word.as_bytes()).map_or(false, |rest| rest.is_empty() || rest[0] == b' ')
    })?;
    let rest = &line[words[which].len()..];
    let told = if N == 0 { rest.is_empty().then(|| [0; N]) } else { numbers(rest.strip_prefix(b" ")?) };
    told.map(|told| Ok((which, told)))
}

/// So many numbers with one space between two.
fn numbers<const N: usize>(line: &[u8]) -> Option<[u64; N]> {
    let mut told = [0; N];
    let mut words = line.split(|byte| *byte == b' ');
    for one in &mut told {
        *one = number(words.next()?)?;
    }
    words.next().is_none().then(|| told)
}

/// A number in its one spelling, below 2^64.
fn number(word: &[u8]) -> Option<u64> {
    if word.is_empty() || word.len() > 1 && word[0] == b'0' {
        return None;
    }
    word.iter().try_fold(0u64, |value, byte| {
        let digit = byte.is_ascii_digit().then(|| u64::from(byte - b'0'))?;
        value.checked_mul(10)?.checked_add(digit)
    })
}

// The standard library connects without a bound, and writes with a signal.

const AF_UNIX: c_int = 1;
const SOCK_STREAM: c_int = 1;
const SOCK_CLOEXEC: c_int = 0o2_000_000;
const SOL_SOCKET: c_int = 1;
const SO_SNDTIMEO: c_int = 21;
const MSG_NOSIGNAL: c_int = 0x4000;

#[repr(C)]
struct Address {
    family: u16,
    path: [u8; 108],
}

#[repr(C)]
struct Time {
    seconds: c_long,
    microseconds: c_long,
}

extern "C" {
    fn socket(domain: c_int, kind: c_int, protocol: c_int) -> c_int;
    #[link_name = "connect"]
    fn connect_to(socket: c_int, address: *const Address, length: u32) -> c_int;
    fn setsockopt(socket: c_int, level: c_int, name: c_int, value: *const c_void, length: u32) -> c_int;
    #[link_name = "send"]
    fn send_to(socket: c_int, bytes: *const c_void, length: usize, flags: c_int) -> isize;
}

fn send(socket: RawFd, bytes: &[u8]) -> io::Result<usize> {
    // SAFETY: the bytes are there for the call.
    let count = unsafe { send_to(socket, bytes.as_ptr().cast(), bytes.len(), MSG_NOSIGNAL) };
    match usize::try_from(count) {
        Ok(0) => Err(io::ErrorKind::WriteZero.into()),
        Ok(count) => Ok(count),
        Err(_) => Err(io::Error::last_os_error()),
    }
}

/// A connection, waited for until then where the daemon's queue is full.
fn connect(path: &Path, until: Option<Instant>) -> Result<UnixStream, Error> {
    let path = CString::new(path.as_os_str().as_bytes()).map_err(|_| Error::BadPath)?;
    let mut address = Address { family: AF_UNIX as u16, path: [0; 108] };
    let bytes = path.as_bytes_with_nul();
    if bytes.len() < 2 || bytes.len() > address.path.len() {
        return Err(Error::BadPath);
    }
    address.path[..bytes.len()].copy_from_slice(bytes);
    // SAFETY: it takes numbers alone.
    let made = unsafe { socket(AF_UNIX, SOCK_STREAM | SOCK_CLOEXEC, 0) };
    if made < 0 {
        return Err(Error::NoDaemon(io::Error::last_os_error()));
    }
    // SAFETY: the descriptor is new, and nobody else's.
    let stream = unsafe { UnixStream::from_raw_fd(made) };
    loop {
        if let Some(until) = until {
            // how long a full queue is waited for is the time of a send, of which 0 is no end
            let left = until.saturating_duration_since(Instant::now()).max(Duration::from_micros(1));
            let time = Time { seconds: left.as_secs() as c_long, microseconds: c_long::from(left.subsec_micros() as i32) };
            // SAFETY: the time is there for the call.
            unsafe {
                setsockopt(made, SOL_SOCKET, SO_SNDTIMEO, (&time as *const Time).cast(), mem::size_of::<Time>() as u32);
            }
        }
        // SAFETY: the address is there for the call.
        if unsafe { connect_to(made, &address, mem::size_of::<Address>() as u32) } == 0 {
            return Ok(stream);
        }
        let why = io::Error::last_os_error();
        match why.kind() {
            io::ErrorKind::Interrupted => {}
            io::ErrorKind::WouldBlock if until.is_some() => return Err(Error::TimedOut),
            _ => return Err(Error::NoDaemon(why)),
        }
    }
}
