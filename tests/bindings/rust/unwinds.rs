//! Caches of the crate whose `invalidate` panics, flushes or fails.

use std::panic::{catch_unwind, resume_unwind, AssertUnwindSafe};
use std::sync::atomic::{AtomicU64, AtomicUsize, Ordering::SeqCst};
use std::sync::{Arc, Mutex, Weak};
use std::time::Duration;
use std::{process, thread};

use iova::{Cache, Cached, Domain, Refusal, Shared};

const ANY: u64 = u64::MAX;

#[derive(Clone, Copy)]
enum What {
    GoesWell,
    Fails,
    Panics,
    Flushes,
}

struct Device {
    does: Mutex<What>,
    invalidations: AtomicU64,
    shared: Mutex<Weak<Shared>>,
    nested: AtomicUsize,
}

impl Device {
    fn invalidate(&self) -> bool {
        self.invalidations.fetch_add(1, SeqCst);
        let does = *self.does.lock().unwrap();
        match does {
            What::GoesWell => true,
            What::Fails => false,
            What::Panics => resume_unwind(Box::new("no device")),
            What::Flushes => {
                let shared = self.shared.lock().unwrap().upgrade().unwrap();
                assert_eq!(shared.flush(), Err(Refusal::FlightsFull));
                self.nested.fetch_add(1, SeqCst);
                true
            }
        }
    }

    fn does(&self, what: What) {
        *self.does.lock().unwrap() = what;
        self.invalidations.store(0, SeqCst);
    }
}

fn new() -> (Arc<Device>, Arc<Shared>) {
    let device = Arc::new(Device {
        does: Mutex::new(What::GoesWell),
        invalidations: AtomicU64::new(0),
        shared: Mutex::new(Weak::new()),
        nested: AtomicUsize::new(0),
    });
    let its = Arc::clone(&device);
    let shared = Arc::new(Shared::new(Domain::new(1, 100_000, 1).unwrap(), move || its.invalidate()));
    *device.shared.lock().unwrap() = Arc::downgrade(&shared);
    (device, shared)
}

fn panics(call: impl FnOnce()) -> bool {
    catch_unwind(AssertUnwindSafe(call)).is_err()
}

/// 255 ranges wait, and so many more are held.
fn fill_ring<'c>(cache: &'c Cache<'_>, more: usize) -> Vec<Cached<'c>> {
    let many: Vec<Cached<'c>> = (0..255).map(|_| cache.map(4096, ANY).unwrap()).collect();
    let more = (0..more).map(|_| cache.map(4096, ANY).unwrap()).collect();
    drop(many);
    assert_eq!(cache.counts().waiting, 255);
    more
}

/// A range that is dropped while `invalidate` panics is owed, however it is dropped, and given up later.
fn panics_in_a_drop() {
    let (device, shared) = new();
    let cache = shared.cache(0).unwrap();
    let mut held = fill_ring(&cache, 8);
    device.does(What::Panics);
    for owed in 1..=3 {
        let one = held.pop();
        assert!(panics(|| drop(one)) && cache.owed() == owed);
    }
    let one = held.pop().unwrap();
    assert!(panics(|| drop(one.unmap())) && cache.owed() == 4);
    // while a thread unwinds for another reason, no flush is made
    let two = (held.pop(), held.pop());
    device.does(What::Panics);
    assert!(panics(move || {
        let _two = two;
        resume_unwind(Box::new("else"));
    }));
    assert!(cache.owed() == 6 && device.invalidations.load(SeqCst) == 0);
    // and what is owed stays so where it is tried again
    assert!(panics(|| drop(cache.map(4096, ANY))) && cache.owed() == 6);
    assert!(panics(|| cache.give_back()) && cache.owed() == 6 && cache.counts().held == 8);
    device.does(What::GoesWell);
    drop(cache.map(4096, ANY).unwrap());
    assert!(cache.owed() == 0 && cache.counts().held == 2);
    drop(held);
    drop(cache);
    assert!(shared.owed() == 0 && shared.counts().client == 0);
}

/// Where flushes fail, what is owed costs one of them in a call.
fn much_is_owed() {
    let (device, shared) = new();
    let cache = shared.cache(0).unwrap();
    let held = fill_ring(&cache, 40);
    device.does(What::Fails);
    drop(held);
    assert_eq!(cache.owed(), 40);
    device.does(What::Fails);
    let one = cache.map(4096, ANY).unwrap();
    assert!(device.invalidations.load(SeqCst) == 1 && cache.owed() == 40);
    device.does(What::GoesWell);
    drop(cache.map(4096, ANY).unwrap());
    assert!(cache.owed() == 0 && cache.counts().held == 1);
    drop(one);
}

fn invalidate_flushes() {
    let (device, shared) = new();
    device.does(What::Flushes);
    assert_eq!(shared.flush(), Ok(()));
    let cache = shared.cache(0).unwrap();
    let more = fill_ring(&cache, 1);
    drop(more);
    assert!(device.nested.load(SeqCst) == 2 && cache.owed() == 0 && shared.flushes().in_flight == 0);
}

/// A cache that is dropped while `invalidate` panics leaves its client to the domain, which closes it behind the next flush.
fn cache_is_dropped() {
    let (device, shared) = new();
    for may_catch in [true, false] {
        let cache = shared.cache(0).unwrap();
        for _ in 0..300 {
            let _address = cache.map(4096, ANY).unwrap().into_address();
        }
        device.does(What::Panics);
        if may_catch {
            assert!(panics(|| drop(cache)));
        } else {
            assert!(panics(move || {
                let _cache = cache;
                resume_unwind(Box::new("else"));
            }));
        }
        assert!(shared.owed() == 1 && shared.counts().clients == 1);
        device.does(What::GoesWell);
        while shared.owed() > 0 {
            shared.flush().unwrap();
        }
        assert!(shared.counts().clients == 0 && shared.flushes().in_flight == 0);
    }
}

fn main() {
    thread::spawn(|| {
        thread::sleep(Duration::from_secs(120));
        eprintln!("unwinds: it hangs");
        process::exit(9);
    });
    panics_in_a_drop();
    much_is_owed();
    invalidate_flushes();
    cache_is_dropped();
}
