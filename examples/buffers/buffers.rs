//! A driver's buffers by the crate `iova`: what was given up is given again only after a flush.

use iova::{Domain, Refusal};

fn invalidate_the_iotlb() -> bool {
    true
}

fn main() -> Result<(), Refusal> {
    let domain = Domain::new(1, 1048575, 1)?;
    let client = domain.client(0)?;

    let buffer = client.map(10000, u32::MAX.into())?;
    println!("{} bytes at {:#x}", buffer.bytes(), buffer.address());

    // the device no longer uses the buffer
    drop(buffer);
    let other = client.map(10000, u32::MAX.into())?;
    println!("before the flush {:#x}", other.address());
    drop(other);

    domain.flush(invalidate_the_iotlb)?;
    let again = client.map(10000, u32::MAX.into())?;
    println!("after it {:#x}", again.address());

    if let Err(refusal) = client.map(10000, 4095) {
        println!("below 4096: {refusal}");
    }
    Ok(())
}
