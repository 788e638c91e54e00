//! Pairs of a map and its unmap through the crate `iova`, with a flush behind each 200: the words are how many, and nothing else is
//! done. bench/bindings/run counts its instructions.

use iova::Domain;

fn main() {
    let count: u64 = std::env::args().nth(1).and_then(|text| text.parse().ok()).unwrap_or(0);
    let domain = Domain::new(1, (1 << 20) - 1, 1).expect("a domain");
    let client = domain.client(0).expect("a client");
    for pair in 0..count {
        drop(client.map(4096, u32::MAX.into()).expect("a range"));
        if pair % 200 == 199 {
            let number = domain.begin().expect("a flush");
            domain.end(number, true).expect("its end");
        }
    }
}
