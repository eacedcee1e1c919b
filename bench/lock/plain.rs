// The same Requests to plain Rust, without rules: a map from clients to units, units and a journal of lines behind a Mutex; each
// worker keeps its receipts. Built by `rustc --edition 2021 -O`. Prints what driver.txt prints.
use std::collections::HashMap;
use std::env;
use std::hash::{Hash, Hasher};
use std::sync::Mutex;
use std::thread;
use std::time::Instant;

const CLIENTS: u64 = 32;

#[derive(Clone, Copy)]
struct Duid {
    len: u8,
    bytes: [u8; 130],
}

impl Duid {
    fn as_bytes(&self) -> &[u8] {
        &self.bytes[..self.len as usize]
    }
}

impl PartialEq for Duid {
    fn eq(&self, other: &Duid) -> bool {
        self.as_bytes() == other.as_bytes()
    }
}

impl Eq for Duid {}

impl Hash for Duid {
    fn hash<H: Hasher>(&self, state: &mut H) {
        self.as_bytes().hash(state);
    }
}

#[derive(Clone, Copy)]
#[allow(dead_code)]
struct Line {
    number: u32,
    reading: u64,
    client: Duid,
    iaid: u32,
    unit: u32,
    valid: u32,
}

#[derive(Clone, Copy)]
#[allow(dead_code)]
struct Receipt {
    line: Line,
    unit: u32,
    valid: u32,
}

#[derive(Clone, Copy, Default)]
struct Unit {
    mine: u64,
    end: u64,
}

struct Book {
    bound: HashMap<(Duid, u32), u32>,
    units: Vec<Unit>,
    lines: Vec<Line>,
}

impl Book {
    fn request(&mut self, now: u64, client: Duid) -> Receipt {
        let next = self.bound.len() as u32;
        let unit = *self.bound.entry((client, 1)).or_insert(next);
        let valid = 3600;
        self.units[unit as usize].mine += 1;
        self.units[unit as usize].end = now + 1000 * valid as u64 + 4000;
        let line = Line { number: self.lines.len() as u32 + 1, reading: now, client, iaid: 1, unit, valid };
        self.lines.push(line);
        Receipt { line, unit, valid }
    }
}

fn client(worker: u64, number: u64) -> Duid {
    let mut bytes = [0; 130];
    bytes[..10].copy_from_slice(&[0, 3, 0, 1, 2, 0, 0, 0, worker as u8, number as u8]);
    Duid { len: 10, bytes }
}

fn main() {
    let words: Vec<String> = env::args().collect();
    let workers: u64 = words[1].parse().unwrap();
    let count: u64 = words[2].parse().unwrap();
    let book = Mutex::new(Book { bound: HashMap::new(), units: vec![Unit::default(); 256], lines: Vec::new() });
    let begun = Instant::now();
    let serve = |worker| {
        let mut receipts = Vec::new();
        for index in 0..count {
            receipts.push(book.lock().unwrap().request(20_000 + index, client(worker, index % CLIENTS)));
        }
        receipts
    };
    let serve = &serve;
    let receipts: usize = thread::scope(|scope| {
        let all: Vec<_> = (0..workers).map(|worker| scope.spawn(move || serve(worker))).collect();
        all.into_iter().map(|one| one.join().unwrap().len()).sum()
    });
    println!("{} 0 {} true", begun.elapsed().as_micros(), receipts + 2);
}
