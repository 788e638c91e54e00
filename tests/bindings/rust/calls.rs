//! The suite of tests/run_bindings over the crate `iova`: calls from standard input, a line each, and their answers.

use std::collections::HashMap;
use std::io::{self, BufRead, Write};
use std::panic::{self, AssertUnwindSafe};
use std::sync::atomic::{AtomicBool, AtomicU64, Ordering};
use std::sync::Arc;

use iova::{Cache, Cached, Client, Counts, Domain, Frames, Range, Reach, Refusal, Shared};

/// What a domain of the script has; it goes before the domain does.
#[derive(Default)]
struct Objects<'d> {
    ranges: HashMap<String, Range<'d>>,
    clients: HashMap<String, Client<'d>>,
}

fn number(word: &str) -> u64 {
    word.parse().expect("a number")
}

fn range(word: &str, frames: Frames) -> String {
    format!("{word} {} {}", frames.lo, frames.len)
}

fn reach(word: &str) -> Reach {
    if word == "sac" {
        Reach::Sac
    } else {
        Reach::Dac
    }
}

fn made(words: &[&str]) -> Result<Domain, Refusal> {
    let v: Vec<u64> = words[1..].iter().map(|word| number(word)).collect();
    match words[0] {
        "iovatrace" if v[0] == 1 => Domain::new(v[1], v[2], v[3]),
        "iovatrace" => Domain::second(v[1], v[2], v[3], v[4]),
        "domain" if v.len() == 4 => Domain::with_granule(v[0], v[1], v[2], v[3]),
        "domain" => Domain::new(v[0], v[1], v[2]),
        _ if v.len() == 5 => Domain::second_with_granule(v[0], v[1], v[2], v[3], v[4]),
        _ => Domain::second(v[0], v[1], v[2], v[3]),
    }
}

fn report(domain: &Domain) -> String {
    let (counts, flushes) = (domain.counts(), domain.flushes());
    let rows = [
        ("free", counts.free),
        ("reserved", counts.reserved),
        ("client", counts.client),
        ("magazine", counts.magazine),
        ("depot", counts.depot),
        ("ring", counts.ring),
        ("clients", counts.clients),
        ("holdings", domain.totals().count),
        ("start", flushes.start),
        ("finish", flushes.finish),
        ("owed", flushes.owed),
        ("flights", flushes.in_flight),
    ];
    let mut lines: Vec<String> = rows.iter().map(|(name, value)| format!("{name:<10}{value:>20}")).collect();
    for one in domain.windows() {
        lines.push(format!("{:<10}{:>20}{:>20}", "window", one.lo, one.lo + (one.len - 1)));
    }
    lines.join("\n")
}

fn step(domain: &Domain, words: &[&str]) -> Result<String, Refusal> {
    let v = |at: usize| number(words[at]);
    Ok(match words[0] {
        "reserve" => {
            let window = domain.reserve(v(1), v(2))?;
            format!("reserved {} {}", window.lo, window.lo + (window.len - 1))
        }
        "open" => format!("opened {}", domain.open(v(1), reach(words[2]))?),
        "alloc" => range("given", domain.alloc(v(1), v(2), v(3), v(4))?),
        "unmap" => range("queued", domain.unmap(v(1), v(2), v(3))?),
        "begin" => format!("begun {}", domain.begin()?),
        "end" => domain.end(v(1), words[2] == "ok").map(|()| "ended".to_string())?,
        "drain" => format!("drained {}", domain.drain(v(1), v(2))?),
        "close" => format!("marked {}", domain.close(v(1), v(2))?),
        "closeone" => domain.close_one(v(1), v(2))?.map_or("empty".to_string(), |left| range("queued", left)),
        word => panic!("no call {word}"),
    })
}

fn call<'d>(domain: &'d Domain, objects: &mut Objects<'d>, words: &[&str]) -> Result<String, Refusal> {
    let v = |at: usize| number(words[at]);
    Ok(match words[0] {
        "client" => {
            let client = domain.client_of(v(2), reach(words[3]))?;
            let told = format!("client {}", client.number());
            objects.clients.insert(words[1].to_string(), client);
            told
        }
        "map" => {
            let range = objects.clients[words[2]].map(v(3), v(4))?;
            let told = format!("mapped {} {}", range.address(), range.bytes());
            objects.ranges.insert(words[1].to_string(), range);
            told
        }
        "unmap_one" => match objects.ranges.remove(words[1]).expect("a range").unmap() {
            Ok(()) => "unmapped".to_string(),
            Err((refusal, range)) => {
                objects.ranges.insert(words[1].to_string(), range);
                return Err(refusal);
            }
        },
        "drop" => {
            let gone = (objects.ranges.remove(words[1]), objects.clients.remove(words[1]));
            assert!(gone.0.is_some() != gone.1.is_some());
            "dropped".to_string()
        }
        "flush" => {
            let flush = || domain.flush(|| if words[1] == "throw" { panic!("broken") } else { words[1] == "ok" });
            match panic::catch_unwind(AssertUnwindSafe(flush)) {
                Ok(left) => format!("flushed {}", left?),
                Err(_) => "threw".to_string(),
            }
        }
        "owed" => format!("owed {}", domain.owed()),
        "holdings" => {
            let held = objects.clients[words[1]].holdings();
            held.iter().fold("holdings".to_string(), |told, one| format!("{told} {}+{}", one.lo, one.len))
        }
        "name" => format!("name {}", Refusal::of(v(1)).map_or("", Refusal::name)),
        "counts" => counts(domain.counts()),
        "report" => report(domain),
        _ => step(domain, words)?,
    })
}

fn counts(c: Counts) -> String {
    let all = [c.free, c.reserved, c.client, c.magazine, c.depot, c.ring, c.clients, c.windows];
    all.iter().fold("counts".to_string(), |told, count| format!("{told} {count}"))
}

/// What a shared domain of the script has. The ranges go before the caches that they are of.
struct Caches<'s> {
    ranges: HashMap<String, Cached<'s>>,
    caches: HashMap<String, Box<Cache<'s>>>,
    shared: &'s Shared,
    iotlb: &'s Iotlb,
}

/// Whether the invalidation fails, and how many there were.
#[derive(Default)]
struct Iotlb {
    fails: AtomicBool,
    flushes: AtomicU64,
}

impl<'s> Caches<'s> {
    fn cache(&self, name: &str) -> &'s Cache<'s> {
        // SAFETY: it lies in a box, and is dropped behind all ranges that are of it: the script sees to that, as the borrow checker does
        // where the names are Rust's.
        unsafe { &*(&*self.caches[name] as *const Cache<'s>) }
    }

    fn call(&mut self, words: &[&str]) -> Result<String, Refusal> {
        let v = |at: usize| number(words[at]);
        Ok(match words[0] {
            "invalidates" => {
                self.iotlb.fails.store(words[1] != "ok", Ordering::Relaxed);
                "so".to_string()
            }
            "cache" => {
                let cache = self.shared.cache_of(v(2), reach(words[3]))?;
                let told = format!("cache {}", cache.number());
                self.caches.insert(words[1].to_string(), Box::new(cache));
                told
            }
            "cmap" => {
                let range = self.cache(words[2]).map(v(3), v(4))?;
                let told = format!("mapped {} {}", range.address(), range.bytes());
                self.ranges.insert(words[1].to_string(), range);
                told
            }
            "cunmap" => match self.ranges.remove(words[1]).expect("a range").unmap() {
                Ok(()) => "unmapped".to_string(),
                Err((refusal, range)) => {
                    self.ranges.insert(words[1].to_string(), range);
                    return Err(refusal);
                }
            },
            "cdrop" => {
                let gone = (self.ranges.remove(words[1]).is_some(), self.caches.remove(words[1]).is_some());
                assert!(gone.0 != gone.1);
                "dropped".to_string()
            }
            "ckeep" => {
                format!("kept {}", self.ranges.remove(words[1]).expect("a range").into_address())
            }
            "cfree" => self.cache(words[1]).unmap(v(2)).map(|()| "unmapped".to_string())?,
            "cflush" => self.shared.flush().map(|()| "flushed".to_string())?,
            "cback" => {
                self.cache(words[1]).give_back();
                "given back".to_string()
            }
            "ccounts" => {
                let c = self.cache(words[1]).counts();
                format!("counts {} {} {}", c.held, c.waiting, c.cached)
            }
            "cowed" => format!("owed {}", self.cache(words[1]).owed()),
            "scounts" => counts(self.shared.counts()),
            "sowed" => format!("owed {}", self.shared.owed()),
            word => panic!("no call {word}"),
        })
    }
}

fn is_new(line: &str) -> bool {
    ["iovatrace ", "domain ", "second "].iter().any(|word| line.starts_with(word))
}

fn main() -> io::Result<()> {
    panic::set_hook(Box::new(|_| {}));
    let lines: Vec<String> = io::stdin().lock().lines().collect::<Result<_, _>>()?;
    let out = io::stdout();
    let mut out = io::BufWriter::new(out.lock());
    let mut at = 0;
    while at < lines.len() {
        // a domain, and the calls up to the next one
        let words: Vec<&str> = lines[at].split_whitespace().collect();
        at += 1;
        if words.is_empty() || words[0].starts_with('#') {
            continue;
        }
        let domain = match made(&words) {
            Ok(domain) => domain,
            Err(refusal) => {
                writeln!(out, "no {} {refusal}", refusal.number())?;
                continue;
            }
        };
        if words[0] != "iovatrace" {
            writeln!(out, "made")?;
        }
        if at < lines.len() && lines[at] == "share" {
            at += 1;
            writeln!(out, "shared")?;
            let iotlb = Arc::new(Iotlb::default());
            let its = Arc::clone(&iotlb);
            let shared = Shared::new(domain, move || {
                its.flushes.fetch_add(1, Ordering::Relaxed);
                !its.fails.load(Ordering::Relaxed)
            });
            let mut its = Caches { ranges: HashMap::new(), caches: HashMap::new(), shared: &shared, iotlb: &iotlb };
            while at < lines.len() && !is_new(&lines[at]) {
                let words: Vec<&str> = lines[at].split_whitespace().collect();
                at += 1;
                if words.is_empty() || words[0].starts_with('#') {
                    continue;
                }
                match its.call(&words) {
                    Ok(told) => writeln!(out, "{told}")?,
                    Err(refusal) => writeln!(out, "no {} {refusal}", refusal.number())?,
                }
                writeln!(out, "flushes {}", iotlb.flushes.load(Ordering::Relaxed))?;
            }
            continue;
        }
        let mut objects = Objects::default();
        while at < lines.len() && !is_new(&lines[at]) {
            let words: Vec<&str> = lines[at].split_whitespace().collect();
            at += 1;
            if words.is_empty() || words[0].starts_with('#') {
                continue;
            }
            match call(&domain, &mut objects, &words) {
                Ok(told) => writeln!(out, "{told}")?,
                Err(refusal) => writeln!(out, "no {} {refusal}", refusal.number())?,
            }
        }
    }
    Ok(())
}
