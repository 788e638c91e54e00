//! A domain that threads share, and a cache for each thread: what `iova_shared.h` is in C.
//!
//! What keeps an address from being given again too early, where the library can't see it, is marked by the names that
//! `iova_shared.h` has for it: G1 to G4.

use std::cell::{Cell, RefCell, UnsafeCell};
use std::fmt;
use std::mem;
use std::sync::atomic::{fence, AtomicBool, AtomicU64, Ordering};
use std::sync::{Arc, Mutex, MutexGuard, PoisonError};
use std::thread;

use crate::domain::{of_number, Counts, Flushes, Frames, Reach, Totals};
use crate::refusal::{refusal, told};
use crate::{sys, Domain, Refusal};

const ORDERS: u64 = 6;
const MAGAZINE: u64 = 256;
const RING: u64 = 255;
/// How many ranges a cache takes from the domain, or gives back, in one hold of the lock.
const EXCHANGED: u64 = 64;

/// A number that lies in a line of the processor's own.
#[repr(align(128))]
struct Apart(AtomicU64);

/// A number that no other thread has meanwhile. Against `thread::current`, which takes memory, and isn't there at a thread's end.
fn this_thread() -> usize {
    thread_local! {
        static PLACE: u8 = const { 0 };
    }
    PLACE.with(|place| place as *const u8 as usize)
}

/// What is done under the lock.
struct Held {
    domain: Domain,
    /// Of each cache that is open, whether it is to give back what nobody uses.
    wanted: Vec<Arc<AtomicBool>>,
    /// The threads that flush, as [`this_thread`] has them: each is in `invalidate`.
    flushing: Vec<usize>,
}

/// A domain that threads share, each by a [`Cache`] of its own.
///
/// Most of what a thread maps and gives up it does in its cache, without a lock. The domain's lock is taken for 64 ranges at a time, for
/// ranges of more than 32 frames, and twice for a flush.
///
/// ```
/// # fn main() -> Result<(), iova::Refusal> {
/// let domain = iova::Domain::new(1, (1 << 20) - 1, 4)?;
/// let shared = iova::Shared::new(domain, || {
///     // invalidate the whole IOTLB here
///     true
/// });
/// std::thread::scope(|scope| {
///     for worker in 0..4 {
///         let shared = &shared;
///         scope.spawn(move || {
///             let cache = shared.cache(worker)?;
///             for _ in 0..10_000 {
///                 let buffer = cache.map(65536, u32::MAX.into())?;
///                 // map it, let the device use it, clear its mapping
///                 drop(buffer);
///             }
///             Ok::<(), iova::Refusal>(())
///         });
///     }
/// });
/// assert_eq!(shared.counts().client, 0);
/// # Ok(())
/// # }
/// ```
pub struct Shared {
    held: Mutex<Held>,
    invalidate: Box<dyn Fn() -> bool + Send + Sync>,
    granule: u64,
    workers: u64,
    /// The last flush that has begun.
    begun: Apart,
    /// The greatest number of a flush that ended well.
    ended: Apart,
}

/// How many ranges of a cache are where.
#[derive(Clone, Copy, Debug, PartialEq, Eq)]
pub struct CacheCounts {
    /// With the user.
    pub held: u64,
    /// Given up, and waiting for a flush.
    pub waiting: u64,
    /// In magazines, where nobody has them.
    pub cached: u64,
}

impl Shared {
    /// Shares the domain. `invalidate` invalidates the IOTLB of the whole domain, and answers whether it did; a panic in it is a flush that
    /// failed. It is called without a lock by whichever thread flushes: one whose cache has 255 ranges that wait, one that finds no space,
    /// and by [`Shared::flush`]; by several at once. It makes no flush itself: there [`Shared::flush`] is refused by `FlightsFull`, and a
    /// call of a cache that needs a flush by `RingFull` or `NoSpace`.
    pub fn new(domain: Domain, invalidate: impl Fn() -> bool + Send + Sync + 'static) -> Shared {
        let flushes = domain.flushes();
        Shared {
            granule: domain.granule(),
            workers: domain.bounds().workers,
            begun: Apart(AtomicU64::new(flushes.start)),
            ended: Apart(AtomicU64::new(flushes.newest)),
            invalidate: Box::new(invalidate),
            held: Mutex::new(Held { domain, wanted: Vec::new(), flushing: Vec::new() }),
        }
    }

    /// The domain, shared no more.
    pub fn into_domain(self) -> Domain {
        self.held.into_inner().unwrap_or_else(PoisonError::into_inner).domain
    }

    fn lock(&self) -> MutexGuard<'_, Held> {
        self.held.lock().unwrap_or_else(PoisonError::into_inner)
    }

    /// A cache for a thread, of a new client of the worker, whose device reaches any address. Several caches may be of one worker. Refused as
    /// [`Domain::open`] is.
    pub fn cache(&self, worker: u64) -> Result<Cache<'_>, Refusal> {
        self.cache_of(worker, Reach::Dac)
    }

    /// The same of a device that reaches so far. Refused as [`Domain::open`] is.
    pub fn cache_of(&self, worker: u64, reach: Reach) -> Result<Cache<'_>, Refusal> {
        // SAFETY: it takes nothing.
        if unsafe { sys::iova_cache_size() } > mem::size_of::<sys::CacheRoom>() {
            return Err(Refusal::OtherVersion);
        }
        let room = Box::new(UnsafeCell::new(sys::CacheRoom::new()));
        let wanted = Arc::new(AtomicBool::new(false));
        let mut held = self.lock();
        // SAFETY: the room is large enough, aligned to 8, and no other call was made on it.
        unsafe { sys::iova_cache_init(room.get()) };
        // SAFETY: there is a domain in its room, and the lock is held (G4).
        let made = unsafe { sys::iova_cache_make(held.domain.at(), room.get(), worker, (reach == Reach::Sac).into()) };
        let client = of_number(made)?;
        held.wanted.push(Arc::clone(&wanted));
        drop(held);
        Ok(Cache { shared: self, room, worker, client, wanted, clean: Cell::new(0), owed: RefCell::new(Vec::new()) })
    }

    /// A flush of the whole domain now, and then what a cache couldn't give up when it was dropped. Waits where 32 are in flight. Refused by
    /// `SinkFault` where the invalidation failed, by `FlightsFull` in an `invalidate` of this thread, and by `Worn`.
    pub fn flush(&self) -> Result<(), Refusal> {
        self.flush_now()?;
        self.lock().domain.pay();
        Ok(())
    }

    fn flush_now(&self) -> Result<(), Refusal> {
        struct Begun<'s> {
            shared: &'s Shared,
            number: u64,
            went_well: bool,
        }
        impl Drop for Begun<'_> {
            fn drop(&mut self) {
                let mut held = self.shared.lock();
                let me = this_thread();
                held.flushing.retain(|other| *other != me);
                let _ = held.domain.end(self.number, self.went_well);
                // G3: `newest` and not `finish`, which would wait for flushes in flight that began before. Of one that failed it's an
                // older number, which frees nothing.
                self.shared.ended.0.store(held.domain.flushes().newest, Ordering::Release);
            }
        }
        let me = this_thread();
        let number = loop {
            let mut held = self.lock();
            if held.flushing.contains(&me) {
                return Err(Refusal::FlightsFull);
            }
            match held.domain.begin() {
                Ok(number) => {
                    held.flushing.push(me);
                    // G1: in this hold, so that it rises
                    self.begun.0.store(number, Ordering::SeqCst);
                    break number;
                }
                Err(Refusal::FlightsFull) => drop(held),
                Err(other) => return Err(other),
            }
            thread::yield_now();
        };
        // G1: behind this, whatever a device finds in the page table is without the entries that were cleared before an older number
        // was loaded, and only then are translations taken away.
        fence(Ordering::SeqCst);
        let mut begun = Begun { shared: self, number, went_well: false };
        begun.went_well = (self.invalidate)();
        let went_well = begun.went_well;
        drop(begun);
        if went_well {
            Ok(())
        } else {
            Err(Refusal::SinkFault)
        }
    }

    /// All that was given back to the domain, by whomever, is to be had again.
    #[cold]
    fn recover(&self) {
        if self.lock().domain.counts().ring == 0 || self.flush_now().is_err() {
            return;
        }
        for worker in 0..self.workers {
            let _ = self.lock().domain.drain(worker, worker);
        }
    }

    /// How many bytes a frame has.
    pub fn granule(&self) -> u64 {
        self.granule
    }

    /// [`Domain::reserve`], with its refusals.
    pub fn reserve(&self, lo: u64, hi: u64) -> Result<Frames, Refusal> {
        self.lock().domain.reserve(lo, hi)
    }

    /// [`Domain::counts`]: all that a cache has is its client's.
    pub fn counts(&self) -> Counts {
        self.lock().domain.counts()
    }

    /// [`Domain::totals`].
    pub fn totals(&self) -> Totals {
        self.lock().domain.totals()
    }

    /// [`Domain::flushes`].
    pub fn flushes(&self) -> Flushes {
        self.lock().domain.flushes()
    }

    /// [`Domain::windows`].
    pub fn windows(&self) -> Vec<Frames> {
        self.lock().domain.windows()
    }

    /// [`Domain::owed`]: how many caches that were dropped have a client that is still to be closed, since no flush went well.
    pub fn owed(&self) -> usize {
        self.lock().domain.owed()
    }
}

impl fmt::Debug for Shared {
    fn fmt(&self, f: &mut fmt::Formatter<'_>) -> fmt::Result {
        f.debug_struct("Shared").field("domain", &self.lock().domain).finish()
    }
}

/// A thread's cache of a [`Shared`] domain, of which it is one client. It may go to another thread, and one thread at a time uses it: it is
/// [`Send`] and not [`Sync`]. Dropped, it ends and its client is closed.
///
/// ```
/// fn is_shared<T: Send + Sync>() {}
/// is_shared::<iova::Shared>();
/// fn is_send<T: Send>() {}
/// is_send::<iova::Cache>();
/// ```
///
/// ```compile_fail
/// fn is_sync<T: Sync>() {}
/// is_sync::<iova::Cache>();
/// ```
///
/// What it gave is given up on its own thread:
///
/// ```compile_fail
/// fn is_send<T: Send>() {}
/// is_send::<iova::Cached>();
/// ```
///
/// What is in a cache nobody else finds: up to 256 ranges of each of 1, 2, 4, 8, 16 and 32 frames that nobody uses, and 255 that wait. A
/// thread that finds no space flushes, gives back what it has itself, and asks once more; where it is refused by `NoSpace` even so, all
/// other caches give back what is clean at their next call. So ask again later, and let a thread that will be idle call
/// [`Cache::give_back`].
pub struct Cache<'s> {
    shared: &'s Shared,
    room: Box<UnsafeCell<sys::CacheRoom>>,
    worker: u64,
    client: u64,
    wanted: Arc<AtomicBool>,
    /// At least so many of the oldest in the ring were covered by a flush.
    clean: Cell<u64>,
    /// First frames that a drop couldn't give up.
    owed: RefCell<Vec<u64>>,
}

fn is_unmet(refused: u64) -> bool {
    let is = |why: Refusal| refused == why.number();
    is(Refusal::Dry) || is(Refusal::Miss) || is(Refusal::NoOrder)
}

fn refused(number: u64) -> sys::Range {
    sys::Range { refused: number, lo: 0, len: 0 }
}

impl<'s> Cache<'s> {
    /// The room, for one call of the library. A cache isn't `Sync`, and no call of the library calls back, so there is no other call on it
    /// meanwhile.
    #[inline(always)]
    fn at(&self) -> *mut sys::CacheRoom {
        self.room.get()
    }

    /// The number of its client.
    pub fn number(&self) -> u64 {
        self.client
    }

    /// Its worker.
    pub fn worker(&self) -> u64 {
        self.worker
    }

    /// The domain that it is a cache of.
    pub fn shared(&self) -> &'s Shared {
        self.shared
    }

    /// A range for so many bytes, none above the address `dma_mask`, which is given up when it is dropped. The bytes are rounded up to frames
    /// of the domain's granule, up to 32 of them to a power of two. Refused as [`Domain::map`] is; by `HoldingsFull` the user itself has 4,096
    /// ranges that it holds or that wait.
    #[inline]
    pub fn map(&self, bytes: u64, dma_mask: u64) -> Result<Cached<'_>, Refusal> {
        let shift = self.shared.granule.trailing_zeros();
        // the mask ends a frame where its last byte is in it
        let below = self.shared.granule - 1;
        let frames = (bytes >> shift) + u64::from(bytes & below != 0);
        self.alloc(frames, dma_mask.saturating_sub(below) >> shift)
    }

    /// The same for so many frames, none above frame `limit`. Up to 32 need not be the highest that fit.
    #[inline]
    pub fn alloc(&self, frames: u64, limit: u64) -> Result<Cached<'_>, Refusal> {
        if !self.is_called() && self.owed.borrow().is_empty() {
            let range = self.alloc_here(frames, limit);
            if range.refused == 0 {
                return Ok(Cached { cache: self, lo: range.lo, len: range.len });
            }
        }
        let range = self.request(frames, limit);
        if range.refused != 0 {
            return Err(refusal(range.refused));
        }
        Ok(Cached { cache: self, lo: range.lo, len: range.len })
    }

    /// Gives up the range in whose first frame the address is: one that [`Cached::into_address`] let go of. The device no longer uses it, and
    /// its mapping is cleared. Refused by `NotHeld`; by `RingFull` where 255 wait and no flush goes well, and then it stays.
    pub fn unmap(&self, address: u64) -> Result<(), Refusal> {
        told(self.give_up_at(address / self.shared.granule).refused, ())
    }

    /// Gives back to the domain what nobody uses and what waits for no flush: for a thread that makes no call for long.
    pub fn give_back(&self) {
        self.pay();
        self.answer();
        self.give_back_all();
    }

    /// How many ranges were dropped while 255 waited and no flush went well: they are given up at a later call.
    pub fn owed(&self) -> usize {
        self.owed.borrow().len()
    }

    /// How many ranges are where. It walks over what the user holds.
    pub fn counts(&self) -> CacheCounts {
        let counts = self.counts_here();
        CacheCounts { held: counts.held, waiting: counts.waiting, cached: counts.magazines.iter().sum() }
    }

    fn counts_here(&self) -> sys::CacheCounts {
        // SAFETY: the room was made ready.
        unsafe { sys::iova_cache_counts_of(self.at()) }
    }

    /// Whether something is to be done before a call, which then goes the long way.
    #[inline(always)]
    fn is_called(&self) -> bool {
        self.wanted.load(Ordering::Relaxed)
    }

    #[inline(always)]
    fn alloc_here(&self, frames: u64, limit: u64) -> sys::Range {
        // SAFETY: the room was made ready.
        unsafe { sys::iova_cache_alloc(self.at(), frames, limit) }
    }

    /// G2: the device's mapping was cleared before, by stores of this thread. Without the fence the processor may load first, and so find an
    /// old number, which a flush answers for whose invalidation the device survived.
    #[inline(always)]
    fn unmap_here(&self, lo: u64) -> sys::Range {
        fence(Ordering::SeqCst);
        let start = self.shared.begun.0.load(Ordering::SeqCst);
        // SAFETY: the room was made ready.
        unsafe { sys::iova_cache_unmap(self.at(), lo, start) }
    }

    /// What flushes have covered leaves the ring (G3). Answers how many ranges.
    fn settle(&self) -> u64 {
        let ended = self.shared.ended.0.load(Ordering::Acquire);
        // SAFETY: the room was made ready.
        let count = unsafe { sys::iova_cache_settle(self.at(), ended) }.number;
        self.clean.set(self.clean.get().saturating_sub(count));
        count
    }

    /// A flush for what waits in the ring, so many ranges, all of which it covers. Answers how many left it.
    #[cold]
    fn flush_for(&self, waiting: u64) -> u64 {
        if waiting != 0 && self.shared.flush_now().is_ok() {
            self.clean.set(waiting);
        }
        self.settle()
    }

    /// Gives ranges of an order back to the domain, the newest first, up to so many: 64 in each hold. Where the domain's own ring is full it
    /// is flushed. Answers how many.
    #[cold]
    fn spill(&self, order: u64, most: u64) -> u64 {
        let (mut spilled, mut flushes) = (0, 0);
        while spilled < most {
            let held = self.shared.lock();
            // SAFETY: both rooms were made ready, and the lock is held (G4).
            let gone = unsafe { sys::iova_cache_spill(held.domain.at(), self.at(), order, most - spilled) };
            drop(held);
            spilled += gone.number;
            if gone.number != 0 {
                flushes = 0;
                continue;
            }
            // one flush isn't enough where an older one is in flight: the domain's ring goes by `finish`
            flushes += 1;
            if gone.refused != Refusal::RingFull.number() || flushes > 4 || self.shared.flush_now().is_err() {
                break;
            }
        }
        spilled
    }

    #[cold]
    fn give_back_all(&self) {
        loop {
            self.settle();
            if (0..ORDERS).map(|order| self.spill(order, u64::MAX)).sum::<u64>() == 0 {
                return;
            }
        }
    }

    /// Calls all other caches, since there is no space.
    #[cold]
    fn want(&self) {
        for other in &self.shared.lock().wanted {
            if !Arc::ptr_eq(other, &self.wanted) {
                other.store(true, Ordering::Release);
            }
        }
    }

    /// Makes room in the ring, which is full, and says whether there is some.
    #[cold]
    fn make_room(&self) -> bool {
        if self.settle() != 0 || (self.clean.get() == 0 && self.flush_for(RING) != 0) {
            return true;
        }
        if self.clean.get() == 0 {
            return false; // the flush failed
        }
        // the oldest is clean, and its magazines are full
        let counts = self.counts_here();
        for (order, count) in (0..).zip(counts.magazines) {
            if count >= MAGAZINE {
                self.spill(order, EXCHANGED);
            }
        }
        self.settle() != 0
    }

    /// The range goes into the domain's ring: it is of more than 32 frames.
    #[cold]
    fn unmap_by(&self, lo: u64) -> sys::Range {
        let mut flushes = 0;
        loop {
            let held = self.shared.lock();
            // SAFETY: both rooms were made ready, and the lock is held (G4).
            let range = unsafe { sys::iova_cache_unmap_by(held.domain.at(), self.at(), lo) };
            drop(held);
            flushes += 1;
            if range.refused != Refusal::RingFull.number() || flushes > 4 || self.shared.flush_now().is_err() {
                return range;
            }
        }
    }

    #[cold]
    fn give_up(&self, lo: u64) -> sys::Range {
        let range = self.unmap_here(lo);
        if range.refused == Refusal::NoOrder.number() {
            return self.unmap_by(lo);
        }
        if range.refused == Refusal::RingFull.number() && self.make_room() {
            return self.unmap_here(lo);
        }
        range
    }

    #[inline]
    fn give_up_at(&self, lo: u64) -> sys::Range {
        if !self.is_called() {
            let range = self.unmap_here(lo);
            if range.refused == 0 {
                return range;
            }
        }
        self.answer();
        self.give_up(lo)
    }

    /// Gives up a range that is dropped. The cache owes it where that is refused by `RingFull`, and where `invalidate` panics. While the
    /// thread unwinds no flush is made, in which a second panic would end the program.
    #[cold]
    fn give_up_or_owe(&self, lo: u64) {
        struct Owes<'o> {
            owed: &'o RefCell<Vec<u64>>,
            lo: u64,
        }
        impl Drop for Owes<'_> {
            fn drop(&mut self) {
                self.owed.borrow_mut().push(self.lo);
            }
        }
        let owes = Owes { owed: &self.owed, lo };
        let range = if thread::panicking() {
            self.unmap_here(lo)
        } else {
            self.give_up_at(lo)
        };
        let is_held = range.refused == Refusal::RingFull.number() || range.refused == Refusal::NoOrder.number();
        if !is_held {
            mem::forget(owes);
        }
    }

    /// Does what others have called for.
    fn answer(&self) {
        if self.is_called() && self.wanted.swap(false, Ordering::AcqRel) {
            self.give_back_all();
        }
    }

    /// Gives up what is owed, the newest first, up to the first that is refused: behind a flush that failed no other is made. A range
    /// leaves the list once it is given up, so a panic of `invalidate` loses none.
    #[cold]
    fn pay(&self) {
        while let Some(lo) = self.next_owed() {
            if self.give_up_at(lo).refused == Refusal::RingFull.number() {
                return;
            }
            self.owed.borrow_mut().retain(|other| *other != lo);
        }
    }

    fn next_owed(&self) -> Option<u64> {
        self.owed.borrow().last().copied()
    }

    /// A range of the magazines, once what is clean is in them.
    fn take(&self, frames: u64, limit: u64) -> sys::Range {
        let range = self.alloc_here(frames, limit);
        let is_short = range.refused == Refusal::Dry.number() || range.refused == Refusal::Miss.number();
        if is_short && self.settle() != 0 {
            return self.alloc_here(frames, limit);
        }
        range
    }

    /// A range of the domain. `why` is what the magazines answered: where they are empty they get `most` by the way.
    #[cold]
    fn ask(&self, frames: u64, limit: u64, mut why: u64, most: u64) -> sys::Range {
        let mut range = refused(why);
        let held = self.shared.lock();
        if why == Refusal::Dry.number() {
            // SAFETY: both rooms were made ready, and the lock is held (G4).
            let got = unsafe { sys::iova_cache_refill(held.domain.at(), self.at(), frames, limit, most) };
            range = if got.refused != 0 { refused(got.refused) } else { self.alloc_here(frames, limit) };
            // `Miss` where there was none below 4 GiB for a cache that reaches no further
            why = range.refused;
        }
        if why == Refusal::Miss.number() || why == Refusal::NoOrder.number() {
            // SAFETY: both rooms were made ready, and the lock is held (G4).
            range = unsafe { sys::iova_cache_alloc_by(held.domain.at(), self.at(), frames, limit) };
        }
        range
    }

    /// The long way of a request.
    #[cold]
    fn request(&self, frames: u64, limit: u64) -> sys::Range {
        if !self.owed.borrow().is_empty() {
            self.pay();
        }
        self.answer();
        let mut tries = 0;
        let range = loop {
            let range = self.take(frames, limit);
            if !is_unmet(range.refused) {
                return range;
            }
            let range = self.ask(frames, limit, range.refused, if tries != 0 { 1 } else { EXCHANGED });
            let is_full = range.refused == Refusal::NoSpace.number() || range.refused == Refusal::HoldingsFull.number();
            if !is_full || tries == 2 {
                break range;
            }
            if tries == 0 && self.flush_for(self.counts_here().waiting) != 0 {
                tries = 1; // what waited here may do
                continue;
            }
            self.give_back_all();
            self.shared.recover();
            tries = 2;
        };
        if range.refused == Refusal::NoSpace.number() {
            self.want();
        }
        range
    }

    /// Ends the cache, and closes its client as far as there is room in the domain's ring; the rest the domain owes, and all of it where
    /// `invalidate` panics. While the thread unwinds no flush is made.
    fn close(&mut self) {
        struct Owes<'o> {
            shared: &'o Shared,
            worker: u64,
            client: u64,
        }
        impl Drop for Owes<'_> {
            fn drop(&mut self) {
                self.shared.lock().domain.close_or_owe(self.worker, self.client);
            }
        }
        let mut held = self.shared.lock();
        // SAFETY: both rooms were made ready, and the lock is held (G4).
        unsafe { sys::iova_cache_end(held.domain.at(), self.at()) };
        held.wanted.retain(|other| !Arc::ptr_eq(other, &self.wanted));
        drop(held);
        let owes = Owes { shared: self.shared, worker: self.worker, client: self.client };
        let may_flush = !thread::panicking();
        let mut flushes = 0;
        loop {
            let held = self.shared.lock();
            let mut gone = 0;
            let left = loop {
                match held.domain.close_one(self.worker, self.client) {
                    Ok(Some(_)) if gone < EXCHANGED => gone += 1,
                    Ok(Some(_)) => break Ok(true),
                    Ok(None) => break Ok(false),
                    Err(why) => break Err(why),
                }
            };
            drop(held);
            flushes = if gone != 0 { 0 } else { flushes + 1 };
            match left {
                Ok(true) => {}
                Err(Refusal::RingFull) if may_flush && flushes <= 4 && self.shared.flush_now().is_ok() => {}
                Err(Refusal::RingFull) => return drop(owes),
                _ => return mem::forget(owes),
            }
        }
    }
}

impl Drop for Cache<'_> {
    fn drop(&mut self) {
        self.close();
    }
}

impl fmt::Debug for Cache<'_> {
    fn fmt(&self, f: &mut fmt::Formatter<'_>) -> fmt::Result {
        let mut told = f.debug_struct("Cache");
        told.field("worker", &self.worker).field("number", &self.client).field("counts", &self.counts());
        told.finish()
    }
}

/// Bytes in a row of a [`Cache`] that a device may use, as long as the value lives. Dropped, they are given up, and wait in the cache for a
/// flush that begins later. So drop it once the device no longer uses them and their mapping is cleared.
///
/// Where 255 wait and no flush goes well, or `invalidate` panics, the cache [owes](Cache::owed) it, and does it at a later call.
#[must_use = "a range that is dropped is given up at once"]
pub struct Cached<'c> {
    cache: &'c Cache<'c>,
    lo: u64,
    len: u64,
}

impl Cached<'_> {
    /// The address of the first byte, a multiple of the domain's granule.
    #[inline]
    pub fn address(&self) -> u64 {
        self.lo * self.cache.shared.granule
    }

    /// How many bytes there are, a multiple of it too.
    #[inline]
    pub fn bytes(&self) -> u64 {
        self.len * self.cache.shared.granule
    }

    /// The same in frames.
    pub fn frames(&self) -> Frames {
        Frames { lo: self.lo, len: self.len }
    }

    /// Gives it up, and says why that is refused, with the range: by `RingFull` where 255 wait and no flush goes well. Where `invalidate`
    /// panics, the cache [owes](Cache::owed) it.
    pub fn unmap(self) -> Result<(), (Refusal, Self)> {
        match self.cache.give_up_at(self.lo).refused {
            0 => {
                mem::forget(self);
                Ok(())
            }
            why => Err((refusal(why), self)),
        }
    }

    /// Its address, which is given up by [`Cache::unmap`] from now on, or with the cache.
    pub fn into_address(self) -> u64 {
        let address = self.address();
        mem::forget(self);
        address
    }
}

impl Drop for Cached<'_> {
    #[inline]
    fn drop(&mut self) {
        if self.cache.is_called() || self.cache.unmap_here(self.lo).refused != 0 {
            self.cache.give_up_or_owe(self.lo);
        }
    }
}

impl fmt::Debug for Cached<'_> {
    fn fmt(&self, f: &mut fmt::Formatter<'_>) -> fmt::Result {
        write!(f, "Cached({:#x}, {} bytes)", self.address(), self.bytes())
    }
}
