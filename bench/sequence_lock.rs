//! `sequence_lock read N | write N | four N`: the same steps as `code_times`, over the atomics of Rust's `std`.
//! After `four` it writes how many writes were done and how many reads gave a pair.
use std::process::exit;
use std::sync::atomic::{AtomicU64, Ordering::SeqCst};
use std::thread::scope;

struct Entries {
    words: Vec<AtomicU64>,
}

enum Wrote {
    Done,
    Busy,
    Spent,
}

enum Read {
    Pair { code: u64, entry: u64 },
    Again,
}

impl Entries {
    fn write(&self, at: u32, code: u64, entry: u64) -> Wrote {
        let at = 3 * at as usize;
        let expected = self.words[at].load(SeqCst);
        if expected % 2 == 1 {
            return Wrote::Busy;
        }
        if expected == u64::MAX - 1 {
            return Wrote::Spent;
        }
        if self.words[at].compare_exchange(expected, expected + 1, SeqCst, SeqCst).is_err() {
            return Wrote::Busy;
        }
        self.words[at + 1].swap(code, SeqCst);
        self.words[at + 2].swap(entry, SeqCst);
        self.words[at].swap(expected + 2, SeqCst);
        Wrote::Done
    }

    fn read(&self, at: u32) -> Read {
        let at = 3 * at as usize;
        let first = self.words[at].load(SeqCst);
        let code = self.words[at + 1].load(SeqCst);
        let entry = self.words[at + 2].load(SeqCst);
        let second = self.words[at].load(SeqCst);
        if first % 2 == 0 && first == second {
            Read::Pair { code, entry }
        } else {
            Read::Again
        }
    }

    fn read_calls(&self, n: u32) -> (u64, u64) {
        let mut pairs = 0u64;
        let mut sum = 0u64;
        for _ in 0..n {
            if let Read::Pair { code, entry } = self.read(0) {
                pairs += 1;
                sum = sum.wrapping_add(code ^ entry);
            }
        }
        (pairs, sum)
    }

    fn write_calls(&self, n: u32) -> u64 {
        let mut done = 0u64;
        for r in 0..n {
            if let Wrote::Done = self.write(0, r.into(), r.into()) {
                done += 1;
            }
        }
        done
    }
}

fn main() {
    let words: Vec<String> = std::env::args().skip(1).collect();
    let [mode, calls] = words.as_slice() else { exit(2) };
    let Ok(n) = calls.parse::<u32>() else { exit(2) };
    let entries = Entries { words: (0..3).map(|_| AtomicU64::new(0)).collect() };
    let entries = &entries;
    match mode.as_str() {
        "read" => exit(i32::from(entries.read_calls(n).1 == 1)),
        "write" => exit(i32::from(entries.write_calls(n) != u64::from(n))),
        "four" => scope(|threads| {
            let writers = [0, 1].map(|_| threads.spawn(move || entries.write_calls(n)));
            let readers = [2, 3].map(|_| threads.spawn(move || entries.read_calls(n).0));
            let done: u64 = writers.map(|w| w.join().unwrap()).iter().sum();
            let pairs: u64 = readers.map(|r| r.join().unwrap()).iter().sum();
            println!("{done} {pairs}");
        }),
        _ => exit(2),
    }
}
