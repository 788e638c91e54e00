//! Clients and their ranges, each of which is given up when it is dropped.

use std::fmt;
use std::mem;

use crate::domain::{Domain, Frames};
use crate::refusal::{refusal, told};
use crate::{sys, Refusal};

/// A client of a worker. Dropped, it is closed, with all that it still has: that waits for a flush in the worker's ring.
pub struct Client<'d> {
    domain: &'d Domain,
    worker: u64,
    number: u64,
}

impl<'d> Client<'d> {
    pub(crate) fn new(domain: &'d Domain, worker: u64, number: u64) -> Self {
        Client { domain, worker, number }
    }

    /// Its number, for the calls of [`Domain`].
    pub fn number(&self) -> u64 {
        self.number
    }

    /// Its worker.
    pub fn worker(&self) -> u64 {
        self.worker
    }

    /// Its domain.
    pub fn domain(&self) -> &'d Domain {
        self.domain
    }

    /// A range for so many bytes, none above the address `dma_mask`, which is given up when it is dropped. It may outlive the client, and
    /// is nobody's then. Refused as [`Domain::map`] is. `NoSpace` has emptied all caches, and `NoMemory` may have.
    ///
    /// ```
    /// # fn main() -> Result<(), iova::Refusal> {
    /// let domain = iova::Domain::new(1, (1 << 20) - 1, 1)?;
    /// let client = domain.client(0)?;
    /// let buffer = client.map(10_000, u32::MAX.into())?;
    /// assert_eq!((buffer.address(), buffer.bytes()), (0xffff_c000, 16384));
    /// drop(buffer); // it waits for a flush
    /// domain.flush(|| true)?; // now it may be given again
    /// # Ok(())
    /// # }
    /// ```
    #[inline]
    pub fn map(&self, bytes: u64, dma_mask: u64) -> Result<Range<'d>, Refusal> {
        // SAFETY: there is a domain in the room.
        let given = unsafe { sys::iova_map(self.domain.at(), self.worker, self.number, bytes, dma_mask) };
        if given.refused != 0 {
            return Err(refusal(given.refused));
        }
        Ok(Range { domain: self.domain, worker: self.worker, client: self.number, address: given.address, bytes: given.bytes })
    }

    /// The same for so many frames, none above frame `limit`. Refused as [`Domain::alloc`] is.
    #[inline]
    pub fn alloc(&self, frames: u64, limit: u64) -> Result<Range<'d>, Refusal> {
        let given = self.domain.alloc(self.worker, self.number, frames, limit)?;
        Ok(Range {
            domain: self.domain,
            worker: self.worker,
            client: self.number,
            address: given.lo * self.domain.granule(),
            bytes: given.len * self.domain.granule(),
        })
    }

    /// Gives up the range in whose first frame the address is: one that [`Range::into_address`] let go of. Refused as
    /// [`Domain::unmap`] is.
    pub fn unmap(&self, address: u64) -> Result<(), Refusal> {
        self.domain.unmap_bytes(self.worker, self.number, address).map(|_| ())
    }

    /// The ranges that it holds, rising by first frame.
    pub fn holdings(&self) -> Vec<Frames> {
        self.domain.holdings(self.number).unwrap_or_default()
    }
}

impl Drop for Client<'_> {
    fn drop(&mut self) {
        self.domain.close_or_owe(self.worker, self.number);
    }
}

impl fmt::Debug for Client<'_> {
    fn fmt(&self, f: &mut fmt::Formatter<'_>) -> fmt::Result {
        f.debug_struct("Client").field("worker", &self.worker).field("number", &self.number).finish()
    }
}

/// Bytes in a row that a device may use, as long as the value lives. Dropped, they are unmapped into the queue: the ring of the
/// client's worker, where they wait for a flush that begins later. So drop it once the device no longer uses them.
///
/// Where the ring is full, the domain [owes](Domain::owed) it, and does it behind the next [`Domain::flush`].
#[must_use = "a range that is dropped is given up at once"]
pub struct Range<'d> {
    domain: &'d Domain,
    worker: u64,
    client: u64,
    address: u64,
    bytes: u64,
}

impl Range<'_> {
    /// The address of the first byte, a multiple of the domain's granule.
    #[inline]
    pub fn address(&self) -> u64 {
        self.address
    }

    /// How many bytes there are, a multiple of it too.
    #[inline]
    pub fn bytes(&self) -> u64 {
        self.bytes
    }

    /// The same in frames.
    pub fn frames(&self) -> Frames {
        let granule = self.domain.granule();
        Frames { lo: self.address / granule, len: self.bytes / granule }
    }

    /// Gives it up, and says why that is refused, with the range: by `RingFull`, or, where the client is gone, by `NoClient`.
    pub fn unmap(self) -> Result<(), (Refusal, Self)> {
        // SAFETY: there is a domain in the room.
        let gone = unsafe { sys::iova_unmap_bytes(self.domain.at(), self.worker, self.client, self.address) };
        match told(gone.refused, ()) {
            Ok(()) => {
                mem::forget(self);
                Ok(())
            }
            Err(refusal) => Err((refusal, self)),
        }
    }

    /// Its address, which is given up by [`Client::unmap`] from now on, or with the client.
    pub fn into_address(self) -> u64 {
        let address = self.address;
        mem::forget(self);
        address
    }
}

impl Drop for Range<'_> {
    #[inline]
    fn drop(&mut self) {
        // SAFETY: there is a domain in the room.
        let gone = unsafe { sys::iova_unmap_bytes(self.domain.at(), self.worker, self.client, self.address) };
        if gone.refused == Refusal::RingFull.number() {
            self.domain.owe_unmap(self.worker, self.client, self.address);
        }
    }
}

impl fmt::Debug for Range<'_> {
    fn fmt(&self, f: &mut fmt::Formatter<'_>) -> fmt::Result {
        write!(f, "Range({:#x}, {} bytes)", self.address, self.bytes)
    }
}
