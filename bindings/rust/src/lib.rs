//! I/O virtual addresses (IOVAs) for a driver, a device emulator or a test: handed out in the process by `libiova`, or by the daemon
//! `iovad` ([`service`]).
//!
//! A [`Domain`] is the address space of one device, a [`Client`] what of it is one driver's, and a [`Range`] bytes that the device may
//! use. A range that is dropped waits in a queue, and is given again only after a flush of the IOTLB that began later and ended well.
//!
//! ```
//! fn main() -> Result<(), iova::Refusal> {
//!     let domain = iova::Domain::new(1, (1 << 20) - 1, 1)?;
//!     let client = domain.client(0)?;
//!     let buffer = client.map(65536, u32::MAX.into())?;
//!     println!("the device may use {} bytes from {:#x} on", buffer.bytes(), buffer.address());
//!     drop(buffer);
//!     domain.flush(|| {
//!         // invalidate the IOTLB here
//!         true
//!     })?;
//!     Ok(())
//! }
//! ```
//!
//! Threads share a domain by [`Shared`], each with a [`Cache`] of its own.
//!
//! Frames are pages of 4,096 bytes, or of the domain's [granule](Domain::with_granule), numbered by their address divided by it. A call
//! takes frames, not bytes, where its name has no `map` or `bytes` in it.
#![deny(missing_docs)]
#![deny(rustdoc::broken_intra_doc_links)]

mod cache;
mod client;
mod domain;
mod refusal;
pub mod service;
mod sys;

pub use cache::{Cache, CacheCounts, Cached, Shared};
pub use client::{Client, Range};
pub use domain::{Bounds, Counts, Domain, Flushes, Frames, Mapping, Place, Reach, Totals};
pub use refusal::Refusal;

/// The examples of the manual, which `cargo test` tries.
#[cfg(doctest)]
#[doc = include_str!("../README.md")]
struct Readme;

/// The version of the library that is linked: 1,000,000 times its first number, 1,000 times its second, and its third.
pub fn version() -> u64 {
    // SAFETY: it takes nothing.
    unsafe { sys::iova_version() }
}
