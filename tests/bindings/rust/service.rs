//! The service's part of tests/run_bindings over the crate `iova`: requests from standard input, and the daemon's answers in its own
//! words. `batch N` puts the next N requests in flight together. The words are the socket, and milliseconds.

use std::io::{self, BufRead};
use std::time::Duration;

use iova::service::{Error, Session};
use iova::Reach;

fn ask(session: &mut Session, words: &[&str]) -> Result<(), Error> {
    let v = |at: usize| words[at].parse::<u64>().expect("a number");
    match words[0] {
        "alloc" => session.ask_alloc(v(1), v(2)),
        "free" => session.ask_free(v(1)),
        "list" => session.ask_list(),
        "flush" => session.ask_flush(),
        _ => session.ask_stat(),
    }
}

fn take(session: &mut Session, word: &str) -> Result<String, Error> {
    Ok(match word {
        "alloc" => session.take_alloc().map(|given| format!("given {} {}", given.lo, given.len))?,
        "free" => {
            let gone = session.take_free()?;
            format!("{} {} {}", if gone.is_flushed { "freed" } else { "queued" }, gone.lo, gone.len)
        }
        "list" => {
            let held = session.take_list()?;
            held.iter().fold(format!("held {}", held.len()), |told, one| format!("{told}\n{} {}", one.lo, one.len))
        }
        "flush" => session.take_flush().map(|flushed| format!("flushed {} {}", flushed.number, flushed.ranges))?,
        _ => {
            let s = session.take_stat()?;
            let all = [s.free, s.reserved, s.client, s.magazine, s.depot, s.ring, s.start, s.finish];
            all.iter().fold("stat".to_string(), |told, count| format!("{told} {count}"))
        }
    })
}

fn tell(told: Result<String, Error>) -> bool {
    match told {
        Ok(text) => println!("{text}"),
        Err(Error::Refused(refusal)) => println!("no {} {refusal}", refusal.number()),
        Err(error) => {
            println!("{}", lost(&error));
            return false;
        }
    }
    true
}

fn lost(error: &Error) -> &'static str {
    match error {
        Error::NoDaemon(_) => "NoDaemon",
        Error::BadPath => "BadPath",
        Error::Broken(_) => "Broken",
        Error::Ended => "Ended",
        Error::Malformed => "Malformed",
        Error::TimedOut => "TimedOut",
        Error::Full => "Full",
        _ => "another",
    }
}

fn main() {
    let words: Vec<String> = std::env::args().collect();
    let within = words.get(2).map(|text| Duration::from_millis(text.parse().expect("a number")));
    let mut session = match Session::open(&words[1], 0, Reach::Dac, within) {
        Ok(session) => session,
        Err(Error::Refused(refusal)) => return println!("no {} {refusal}", refusal.number()),
        Err(error) => return println!("{}", lost(&error)),
    };
    println!("opened {}", session.number());
    let lines: Vec<String> = io::stdin().lock().lines().collect::<Result<_, _>>().expect("lines");
    let mut at = 0;
    while at < lines.len() {
        let count = lines[at].strip_prefix("batch ").map_or(1, |text| text.parse().expect("a number"));
        at += usize::from(lines[at].starts_with("batch "));
        let run: Vec<Vec<&str>> = lines[at..at + count].iter().map(|line| line.split(' ').collect()).collect();
        at += count;
        let mut next = 0;
        for (which, request) in run.iter().enumerate() {
            let mut asked = ask(&mut session, request);
            if matches!(asked, Err(Error::Full)) {
                assert!(session.in_flight() == iova::service::IN_FLIGHT && which == next + 16);
                if !tell(take(&mut session, run[next][0])) {
                    return;
                }
                next += 1;
                asked = ask(&mut session, request);
            }
            if let Err(error) = asked {
                return println!("{}", lost(&error));
            }
        }
        for request in &run[next..] {
            if !tell(take(&mut session, request[0])) {
                // each further call answers the same at once
                let more = session.stat().expect_err("it is lost");
                return println!("{}", lost(&more));
            }
        }
    }
    match session.bye() {
        Ok(()) => println!("bye"),
        Err(error) => println!("{}", lost(&error)),
    }
}
