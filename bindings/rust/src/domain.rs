//! A domain, by the steps of the library, whose clients and flushes are numbers.

use std::cell::{RefCell, UnsafeCell};
use std::fmt;

use crate::refusal::told;
use crate::{sys, Client, Refusal};

/// The version of the header that this crate is written for: 0.2.0.
const VERSION: u64 = 2000;

/// Frames in a row.
#[derive(Clone, Copy, Debug, PartialEq, Eq, Hash)]
pub struct Frames {
    /// The first frame.
    pub lo: u64,
    /// How many frames there are.
    pub len: u64,
}

/// Bytes in a row, of which nothing is given up when the value goes.
#[derive(Clone, Copy, Debug, PartialEq, Eq, Hash)]
pub struct Mapping {
    /// The address of the first byte, a multiple of the domain's granule.
    pub address: u64,
    /// How many bytes there are, a multiple of it too.
    pub bytes: u64,
}

/// How many frames are at each kind of place, together all frames of the bounds.
#[repr(C)]
#[derive(Clone, Copy, Debug, PartialEq, Eq)]
pub struct Counts {
    /// Frames that are nobody's.
    pub free: u64,
    /// Frames of windows.
    pub reserved: u64,
    /// Frames that clients hold, closing ones too.
    pub client: u64,
    /// Frames in magazines of workers.
    pub magazine: u64,
    /// Frames in the depot.
    pub depot: u64,
    /// Frames in rings, where they wait for a flush.
    pub ring: u64,
    /// How many clients there are, closing ones too.
    pub clients: u64,
    /// How many windows there are.
    pub windows: u64,
}

/// What some clients hold.
#[repr(C)]
#[derive(Clone, Copy, Debug, PartialEq, Eq)]
pub struct Totals {
    /// How many ranges.
    pub count: u64,
    /// How many frames these have.
    pub frames: u64,
    /// The sum of their first frames.
    pub sum_lo: u64,
}

/// The numbers of the flushes.
#[repr(C)]
#[derive(Clone, Copy, Debug, PartialEq, Eq)]
pub struct Flushes {
    /// How many have begun.
    pub start: u64,
    /// How many are accounted for.
    pub finish: u64,
    /// The failed ones for which the next one to begin makes up.
    pub owed: u64,
    /// The greatest number of one that ended well.
    pub newest: u64,
    /// How many ended well.
    pub good: u64,
    /// How many are in flight.
    pub in_flight: u64,
}

/// What a domain was made with.
#[derive(Clone, Copy, Debug, PartialEq, Eq)]
pub struct Bounds {
    /// The first frame.
    pub start: u64,
    /// The last frame.
    pub last: u64,
    /// The entries of a magazine: 128, or 127 in the second profile.
    pub magazine: u64,
    /// The most magazines of a size in the depot.
    pub depot: u64,
    /// The workers.
    pub workers: u64,
}

/// Where a frame is.
#[derive(Clone, Copy, Debug, PartialEq, Eq)]
pub enum Place {
    /// Not inside the bounds.
    Outside,
    /// Nobody's.
    Free,
    /// In a window.
    Reserved,
    /// In a holding of the client with this number, a closing client's too.
    Client(u64),
    /// In a magazine of this worker.
    Magazine(u64),
    /// In the depot.
    Depot,
    /// In the ring of this worker, where it waits for a flush.
    Ring(u64),
}

/// How far a client's device reaches.
#[derive(Clone, Copy, Debug, PartialEq, Eq)]
pub enum Reach {
    /// Single address cycle: a place below 4 GiB is tried first, in frames of 4,096 bytes.
    Sac,
    /// Dual address cycle: any place.
    Dac,
}

/// What a drop couldn't do, since a ring was full.
#[derive(Clone, Copy)]
enum Owed {
    Unmap { worker: u64, client: u64, address: u64 },
    Close { worker: u64, client: u64 },
}

/// The address space of one device.
///
/// It may go to another thread, but one call at a time works on it: it is [`Send`] and not [`Sync`].
///
/// ```
/// fn is_send<T: Send>() {}
/// is_send::<iova::Domain>();
/// ```
///
/// ```compile_fail
/// fn is_sync<T: Sync>() {}
/// is_sync::<iova::Domain>();
/// ```
///
/// What a client holds stays inside the domain's life:
///
/// ```compile_fail
/// let domain = iova::Domain::new(1, 1023, 1).unwrap();
/// let client = domain.client(0).unwrap();
/// drop(domain);
/// client.map(4096, u64::MAX).unwrap();
/// ```
///
/// The calls that take numbers are the steps of `iova.h`, and numbers of clients are those that [`Domain::open`] answers. Mostly a
/// program has a [`Client`] and its [`Range`](crate::Range)s in their place.
pub struct Domain {
    room: Box<UnsafeCell<sys::Room>>,
    workers: u64,
    granule: u64,
    owed: RefCell<Vec<Owed>>,
}

impl Domain {
    fn made(workers: u64, granule: u64, make: impl FnOnce(*mut sys::Room) -> u64) -> Result<Domain, Refusal> {
        // SAFETY: neither takes anything.
        let (version, bytes) = unsafe { (sys::iova_version(), sys::iova_domain_size()) };
        if version / 1_000_000 != VERSION / 1_000_000 || version < VERSION || bytes > std::mem::size_of::<sys::Room>() {
            return Err(Refusal::OtherVersion);
        }
        let room = Box::new(UnsafeCell::new(sys::Room::new()));
        let domain = Domain { room, workers, granule, owed: RefCell::new(Vec::new()) };
        // SAFETY: the room is large enough, aligned to 8, and no other call was made on it.
        unsafe { sys::iova_domain_init(domain.at()) };
        let refused = make(domain.at());
        told(refused, domain)
    }

    /// A domain of the frames `start` to `last`, `1 <= start <= last <= 2^36 - 1`, with 1 to 16 workers, which stand for processors.
    ///
    /// Refused by `BadWindow`, `NoWorker`, `NoMemory`, the first that applies; before them by `OtherVersion`, where the library doesn't
    /// serve this crate.
    pub fn new(start: u64, last: u64, workers: u64) -> Result<Domain, Refusal> {
        Domain::with_granule(start, last, workers, 4096)
    }

    /// The same of frames that have `granule` bytes, a power of two from 4,096 to 2,097,152, as the page size of the machine or of the
    /// IOMMU's large pages. Calls in bytes round by it, and all numbers of frames are as ever. `BadProfile`, where it is no such power,
    /// comes before the other refusals of the library.
    pub fn with_granule(start: u64, last: u64, workers: u64, granule: u64) -> Result<Domain, Refusal> {
        // SAFETY: the room was made ready.
        let make = |room| unsafe { sys::iova_domain_make_granule(room, start, last, workers, granule) };
        Domain::made(workers, granule, make)
    }

    /// A domain of the second profile: frames up to 2^40 - 1, magazines of 127 entries, a depot of at most `depot` magazines for each
    /// size, 0 to 32. `BadProfile` comes before the other refusals of the library.
    pub fn second(start: u64, last: u64, workers: u64, depot: u64) -> Result<Domain, Refusal> {
        Domain::second_with_granule(start, last, workers, depot, 4096)
    }

    /// The same of frames that have `granule` bytes, as by [`Domain::with_granule`].
    pub fn second_with_granule(start: u64, last: u64, workers: u64, depot: u64, granule: u64) -> Result<Domain, Refusal> {
        // SAFETY: the room was made ready.
        let make = |room| unsafe { sys::iova_domain_make_second_granule(room, start, last, workers, depot, granule) };
        Domain::made(workers, granule, make)
    }

    /// How many bytes a frame has.
    #[inline]
    pub fn granule(&self) -> u64 {
        self.granule
    }

    /// The room, for one call of the library. A domain isn't `Sync`, and no call of the library calls back, so there is no other call
    /// on it meanwhile.
    #[inline(always)]
    pub(crate) fn at(&self) -> *mut sys::Room {
        self.room.get()
    }

    /// A client of the worker, whose device reaches any address. Refused as [`Domain::open`] is.
    pub fn client(&self, worker: u64) -> Result<Client<'_>, Refusal> {
        self.client_of(worker, Reach::Dac)
    }

    /// A client of the worker whose device reaches so far. Refused as [`Domain::open`] is.
    pub fn client_of(&self, worker: u64, reach: Reach) -> Result<Client<'_>, Refusal> {
        Ok(Client::new(self, worker, self.open(worker, reach)?))
    }

    /// A flush of the IOTLB: `invalidate` is called once it has begun, and answers whether the invalidation was done; a panic in it is a
    /// flush that failed. Then each ring is drained into its own worker's magazines, and what is [owed](Domain::owed) is given up.
    /// Answers how many ranges left the rings. Refused by `FlightsFull`, `Worn`.
    pub fn flush(&self, invalidate: impl FnOnce() -> bool) -> Result<u64, Refusal> {
        struct Begun<'d> {
            domain: &'d Domain,
            number: u64,
        }
        impl Drop for Begun<'_> {
            fn drop(&mut self) {
                let _ = self.domain.end(self.number, false);
            }
        }
        let begun = Begun { domain: self, number: self.begin()? };
        let is_done = invalidate();
        let number = begun.number;
        std::mem::forget(begun);
        self.end(number, is_done)?;
        let mut left = 0;
        for worker in 0..self.workers {
            left += self.drain(worker, worker)?;
        }
        self.pay();
        Ok(left)
    }

    /// How many ranges and clients that were dropped are still to be given up, since their worker's ring was full.
    pub fn owed(&self) -> usize {
        self.owed.borrow().len()
    }

    #[cold]
    pub(crate) fn owe_unmap(&self, worker: u64, client: u64, address: u64) {
        self.owed.borrow_mut().push(Owed::Unmap { worker, client, address });
    }

    /// Closes the client as far as the ring has room; the rest is owed.
    pub(crate) fn close_or_owe(&self, worker: u64, client: u64) {
        if !self.closes(worker, client) {
            self.owed.borrow_mut().push(Owed::Close { worker, client });
        }
    }

    fn closes(&self, worker: u64, client: u64) -> bool {
        loop {
            match self.close_one(worker, client) {
                Ok(Some(_)) => {}
                Err(Refusal::RingFull) => return false,
                _ => return true,
            }
        }
    }

    pub(crate) fn pay(&self) {
        self.owed.borrow_mut().retain(|owed| match *owed {
            Owed::Unmap { worker, client, address } => {
                self.unmap_bytes(worker, client, address) == Err(Refusal::RingFull)
            }
            Owed::Close { worker, client } => !self.closes(worker, client),
        });
    }

    /// Gives the client a range for so many bytes, whose every byte has an address up to `dma_mask`, as `u32::MAX` for a device of 32
    /// bits. The bytes are rounded up to frames, and as [`Domain::alloc`] says. Refused as that is; for 0 bytes by `Zero`, for more than
    /// 1,048,576 frames (4 GiB of 4,096 bytes) by `TooBig`, and for a mask in which two frames don't end (below 8,191) by `NoSpace`.
    #[inline]
    pub fn map(&self, worker: u64, client: u64, bytes: u64, dma_mask: u64) -> Result<Mapping, Refusal> {
        // SAFETY: there is a domain in the room.
        let given = unsafe { sys::iova_map(self.at(), worker, client, bytes, dma_mask) };
        told(given.refused, Mapping { address: given.address, bytes: given.bytes })
    }

    /// Gives up the range in whose first frame the address is, and answers the whole of it. Refused as [`Domain::unmap`] is.
    #[inline]
    pub fn unmap_bytes(&self, worker: u64, client: u64, address: u64) -> Result<Mapping, Refusal> {
        // SAFETY: there is a domain in the room.
        let gone = unsafe { sys::iova_unmap_bytes(self.at(), worker, client, address) };
        told(gone.refused, Mapping { address: gone.address, bytes: gone.bytes })
    }

    /// Makes one window of the frames `lo` to `hi` and of all windows that overlap them: frames that nobody is given. Answers the window.
    /// Refused by `BadWindow`, `Taken`, `WindowsFull`, `NoMemory`.
    pub fn reserve(&self, lo: u64, hi: u64) -> Result<Frames, Refusal> {
        // SAFETY: there is a domain in the room.
        of_range(unsafe { sys::iova_reserve(self.at(), lo, hi) })
    }

    /// Opens a client of the worker, and answers its number. Refused by `NoWorker`, `Worn`, `ClientsFull`, `NoMemory`; by `BadProfile`
    /// where the reach is [`Reach::Sac`] and the granule isn't 4,096.
    pub fn open(&self, worker: u64, reach: Reach) -> Result<u64, Refusal> {
        // SAFETY: there is a domain in the room.
        of_number(unsafe { sys::iova_open(self.at(), worker, (reach == Reach::Sac).into()) })
    }

    /// Gives the client the highest range that fits, none of its frames above frame `limit`. Fewer than 32 frames are rounded up to a
    /// power of two, and the range begins at a multiple of the least power of two that isn't below its length. Refused by `NoWorker`,
    /// `Zero`, `TooBig`, `NoClient`, `Closing`, `HoldingsFull`, `NoMemory`, `NoSpace`. `NoSpace` has emptied all caches, and `NoMemory`
    /// may have.
    #[inline]
    pub fn alloc(&self, worker: u64, client: u64, frames: u64, limit: u64) -> Result<Frames, Refusal> {
        // SAFETY: there is a domain in the room.
        of_range(unsafe { sys::iova_alloc(self.at(), worker, client, frames, limit) })
    }

    /// Puts the client's holding that begins at frame `lo` into the worker's ring, where it waits for a flush, and answers it. Refused
    /// by `NoWorker`, `NoClient`, `Closing`, `NotHeld`, `RingFull`.
    #[inline]
    pub fn unmap(&self, worker: u64, client: u64, lo: u64) -> Result<Frames, Refusal> {
        // SAFETY: there is a domain in the room.
        of_range(unsafe { sys::iova_unmap(self.at(), worker, client, lo) })
    }

    /// Begins a flush, and answers its number: now invalidate the IOTLB. Several may be in flight, and end in any order. Refused by
    /// `FlightsFull`, `Worn`.
    pub fn begin(&self) -> Result<u64, Refusal> {
        // SAFETY: there is a domain in the room.
        of_number(unsafe { sys::iova_begin(self.at()) })
    }

    /// Ends the flush of this number: `ok` says that the invalidation was done. A failed flush frees nothing. Refused by `NoFlight`.
    pub fn end(&self, number: u64, ok: bool) -> Result<(), Refusal> {
        // SAFETY: there is a domain in the room.
        told(unsafe { sys::iova_end(self.at(), number, ok.into()) }, ())
    }

    /// Takes what flushes have covered out of the ring of worker `ring` into the magazines of worker `by`, and answers how many ranges.
    /// Refused by `NoWorker`.
    pub fn drain(&self, ring: u64, by: u64) -> Result<u64, Refusal> {
        // SAFETY: there is a domain in the room.
        of_number(unsafe { sys::iova_drain(self.at(), ring, by) })
    }

    /// Marks the client closing: it is given nothing more. Answers how many ranges it holds. Refused by `NoWorker`, `NoClient`.
    pub fn close(&self, worker: u64, client: u64) -> Result<u64, Refusal> {
        // SAFETY: there is a domain in the room.
        of_number(unsafe { sys::iova_close(self.at(), worker, client) })
    }

    /// Marks the client closing, and puts its lowest holding into the worker's ring; answers it, or none where it has none, and then it
    /// is gone. Refused by `NoWorker`, `NoClient`; by `RingFull`, and then the client is marked.
    pub fn close_one(&self, worker: u64, client: u64) -> Result<Option<Frames>, Refusal> {
        // SAFETY: there is a domain in the room.
        let left = of_range(unsafe { sys::iova_close_one(self.at(), worker, client) })?;
        Ok(if left.len == 0 { None } else { Some(left) })
    }

    /// Where the frame is.
    pub fn place(&self, frame: u64) -> Place {
        // SAFETY: there is a domain in the room.
        let place = unsafe { sys::iova_place_of(self.at(), frame) };
        match place.kind {
            1 => Place::Free,
            2 => Place::Reserved,
            3 => Place::Client(place.number),
            4 => Place::Magazine(place.number),
            5 => Place::Depot,
            6 => Place::Ring(place.number),
            _ => Place::Outside,
        }
    }

    /// How many frames are where, without a walk over them.
    pub fn counts(&self) -> Counts {
        // SAFETY: there is a domain in the room.
        unsafe { sys::iova_counts_of(self.at()) }.told
    }

    /// What all clients hold.
    pub fn totals(&self) -> Totals {
        // SAFETY: there is a domain in the room.
        unsafe { sys::iova_totals_of(self.at()) }.told
    }

    /// What the clients of the worker hold. Refused by `NoWorker`.
    pub fn share(&self, worker: u64) -> Result<Totals, Refusal> {
        // SAFETY: there is a domain in the room.
        let share = unsafe { sys::iova_share_of(self.at(), worker) };
        told(share.refused, share.told)
    }

    /// The bounds, the sizes of the caches and the workers.
    pub fn bounds(&self) -> Bounds {
        // SAFETY: there is a domain in the room.
        let bounds = unsafe { sys::iova_bounds_of(self.at()) };
        Bounds {
            start: bounds.start,
            last: bounds.last,
            magazine: bounds.magazine,
            depot: bounds.depot,
            workers: bounds.workers,
        }
    }

    /// The numbers of the flushes.
    pub fn flushes(&self) -> Flushes {
        // SAFETY: there is a domain in the room.
        unsafe { sys::iova_flushes_of(self.at()) }.told
    }

    /// The ranges that the client holds, rising by first frame. Refused by `NoClient`.
    pub fn holdings(&self, client: u64) -> Result<Vec<Frames>, Refusal> {
        // SAFETY: there is a domain in the room, and the list has as much room as is said.
        self.listed(|list, room| unsafe { sys::iova_holdings_of(self.at(), client, list, room) })
    }

    /// The windows, rising, of which there are at most 64.
    pub fn windows(&self) -> Vec<Frames> {
        // SAFETY: there is a domain in the room, and the list has as much room as is said.
        self.listed(|list, room| unsafe { sys::iova_windows_of(self.at(), list, room) }).unwrap_or_default()
    }

    fn listed(&self, ask: impl Fn(*mut sys::Listed, usize) -> sys::Number) -> Result<Vec<Frames>, Refusal> {
        let mut list = vec![sys::Listed { lo: 0, len: 0 }; 64];
        let count = of_number(ask(list.as_mut_ptr(), list.len()))? as usize;
        if count > list.len() {
            list.resize(count, sys::Listed { lo: 0, len: 0 });
            of_number(ask(list.as_mut_ptr(), list.len()))?;
        }
        Ok(list[..count].iter().map(|one| Frames { lo: one.lo, len: one.len }).collect())
    }
}

#[inline(always)]
fn of_range(answer: sys::Range) -> Result<Frames, Refusal> {
    told(answer.refused, Frames { lo: answer.lo, len: answer.len })
}

#[inline(always)]
pub(crate) fn of_number(answer: sys::Number) -> Result<u64, Refusal> {
    told(answer.refused, answer.number)
}

impl Drop for Domain {
    fn drop(&mut self) {
        // SAFETY: the room was made ready, and no call is made on it after this one.
        unsafe { sys::iova_domain_clear(self.at()) }
    }
}

impl fmt::Debug for Domain {
    fn fmt(&self, f: &mut fmt::Formatter<'_>) -> fmt::Result {
        f.debug_struct("Domain").field("bounds", &self.bounds()).field("counts", &self.counts()).finish()
    }
}
