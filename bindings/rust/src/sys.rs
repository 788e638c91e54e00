//! What of `iova.h` is used.

use crate::domain::{Counts, Flushes, Totals};

/// `iova_domain`: room for one, in which all is the library's.
#[repr(C)]
pub struct Room {
    opaque: [u64; 1536 / 8],
}

impl Room {
    pub const fn new() -> Self {
        Room { opaque: [0; 1536 / 8] }
    }
}

/// `iova_cache`: the same for a cache.
#[repr(C)]
pub struct CacheRoom {
    opaque: [u64; 512 / 8],
}

impl CacheRoom {
    pub const fn new() -> Self {
        CacheRoom { opaque: [0; 512 / 8] }
    }
}

/// `iova_range`.
#[repr(C)]
#[derive(Clone, Copy)]
pub struct Range {
    pub refused: u64,
    pub lo: u64,
    pub len: u64,
}

/// `iova_number`.
#[repr(C)]
#[derive(Clone, Copy)]
pub struct Number {
    pub refused: u64,
    pub number: u64,
}

/// `iova_mapping`.
#[repr(C)]
#[derive(Clone, Copy)]
pub struct Mapping {
    pub refused: u64,
    pub address: u64,
    pub bytes: u64,
}

/// `iova_place`.
#[repr(C)]
#[derive(Clone, Copy)]
pub struct Place {
    pub refused: u64,
    pub kind: u64,
    pub number: u64,
}

/// `iova_bounds`.
#[repr(C)]
#[derive(Clone, Copy)]
pub struct Bounds {
    pub refused: u64,
    pub start: u64,
    pub last: u64,
    pub magazine: u64,
    pub depot: u64,
    pub workers: u64,
}

/// An answer that has `refused` before all else.
#[repr(C)]
#[derive(Clone, Copy)]
pub struct Answer<T> {
    pub refused: u64,
    pub told: T,
}

/// `iova_listed`.
#[repr(C)]
#[derive(Clone, Copy)]
pub struct Listed {
    pub lo: u64,
    pub len: u64,
}

/// `iova_cache_counts`.
#[repr(C)]
#[derive(Clone, Copy)]
pub struct CacheCounts {
    pub refused: u64,
    pub held: u64,
    pub waiting: u64,
    pub magazines: [u64; 6],
}

extern "C" {
    pub fn iova_version() -> u64;
    pub fn iova_domain_size() -> usize;
    pub fn iova_domain_init(domain: *mut Room);
    pub fn iova_domain_make_granule(domain: *mut Room, start: u64, last: u64, workers: u64, granule: u64) -> u64;
    pub fn iova_domain_make_second_granule(
        domain: *mut Room,
        start: u64,
        last: u64,
        workers: u64,
        depot: u64,
        granule: u64,
    ) -> u64;
    pub fn iova_domain_clear(domain: *mut Room);
    pub fn iova_map(domain: *mut Room, worker: u64, client: u64, bytes: u64, dma_mask: u64) -> Mapping;
    pub fn iova_unmap_bytes(domain: *mut Room, worker: u64, client: u64, address: u64) -> Mapping;
    pub fn iova_reserve(domain: *mut Room, lo: u64, hi: u64) -> Range;
    pub fn iova_open(domain: *mut Room, worker: u64, sac: u64) -> Number;
    pub fn iova_alloc(domain: *mut Room, worker: u64, client: u64, frames: u64, limit: u64) -> Range;
    pub fn iova_unmap(domain: *mut Room, worker: u64, client: u64, lo: u64) -> Range;
    pub fn iova_begin(domain: *mut Room) -> Number;
    pub fn iova_end(domain: *mut Room, number: u64, ok: u64) -> u64;
    pub fn iova_drain(domain: *mut Room, ring: u64, by: u64) -> Number;
    pub fn iova_close(domain: *mut Room, worker: u64, client: u64) -> Number;
    pub fn iova_close_one(domain: *mut Room, worker: u64, client: u64) -> Range;
    pub fn iova_place_of(domain: *mut Room, frame: u64) -> Place;
    pub fn iova_counts_of(domain: *mut Room) -> Answer<Counts>;
    pub fn iova_totals_of(domain: *mut Room) -> Answer<Totals>;
    pub fn iova_share_of(domain: *mut Room, worker: u64) -> Answer<Totals>;
    pub fn iova_bounds_of(domain: *mut Room) -> Bounds;
    pub fn iova_flushes_of(domain: *mut Room) -> Answer<Flushes>;
    pub fn iova_holdings_of(domain: *mut Room, client: u64, list: *mut Listed, room: usize) -> Number;
    pub fn iova_windows_of(domain: *mut Room, list: *mut Listed, room: usize) -> Number;
    pub fn iova_cache_size() -> usize;
    pub fn iova_cache_init(cache: *mut CacheRoom);
    pub fn iova_cache_make(domain: *mut Room, cache: *mut CacheRoom, worker: u64, sac: u64) -> Number;
    pub fn iova_cache_alloc(cache: *mut CacheRoom, frames: u64, limit: u64) -> Range;
    pub fn iova_cache_unmap(cache: *mut CacheRoom, lo: u64, start: u64) -> Range;
    pub fn iova_cache_settle(cache: *mut CacheRoom, newest: u64) -> Number;
    pub fn iova_cache_refill(domain: *mut Room, cache: *mut CacheRoom, frames: u64, limit: u64, most: u64) -> Number;
    pub fn iova_cache_spill(domain: *mut Room, cache: *mut CacheRoom, order: u64, most: u64) -> Number;
    pub fn iova_cache_alloc_by(domain: *mut Room, cache: *mut CacheRoom, frames: u64, limit: u64) -> Range;
    pub fn iova_cache_unmap_by(domain: *mut Room, cache: *mut CacheRoom, lo: u64) -> Range;
    pub fn iova_cache_end(domain: *mut Room, cache: *mut CacheRoom) -> Number;
    pub fn iova_cache_counts_of(cache: *mut CacheRoom) -> CacheCounts;
}
