// The same orders in plain Rust, without rules: a journal of lines in a vector, units in a vector, what clients have in a hash map and
// free units in a heap. Built by `rustc --edition 2021 -O`. Prints what driver.txt prints.
use std::cmp::Reverse;
use std::collections::{BinaryHeap, HashMap};
use std::env;
use std::hash::{Hash, Hasher};

const SKEW: u64 = 2000;
const MCLT: u64 = 3600;
const LIFE: u64 = 3600;

#[derive(Clone, Copy)]
struct Duid {
    len: u8,
    bytes: [u8; 130],
}

impl Duid {
    fn as_bytes(&self) -> &[u8] {
        &self.bytes[..self.len as usize]
    }
}

impl PartialEq for Duid {
    fn eq(&self, other: &Duid) -> bool {
        self.as_bytes() == other.as_bytes()
    }
}

impl Eq for Duid {}

impl Hash for Duid {
    fn hash<H: Hasher>(&self, state: &mut H) {
        self.as_bytes().hash(state);
    }
}

#[derive(Clone, Copy, PartialEq, Eq, Hash)]
struct Binding {
    client: Duid,
    iaid: u32,
}

#[derive(Clone, Copy, PartialEq)]
enum Status {
    Free,
    Active(Binding),
    Released(Binding),
}

#[derive(Clone, Copy, PartialEq)]
enum Due {
    Active,
    Released,
}

#[derive(Clone, Copy)]
struct Unit {
    status: Status,
    mine: u64,
    seen: u64,
    own_end: u64,
    out_end: u64,
    acked: u64,
    told: u64,
    due: Option<Due>,
}

#[derive(Clone, Copy)]
struct Prefix {
    address: u128,
    length: u8,
}

#[derive(Clone, Copy)]
#[allow(dead_code)]
struct Update {
    due: Due,
    prefix: Prefix,
    mine: u64,
    seen: u64,
    end: u64,
    binding: Option<Binding>,
}

#[derive(Clone, Copy)]
#[allow(dead_code)]
enum Event {
    Open,
    Grant(Binding, Prefix, u64),
    Release(Binding, Prefix),
    Send(u64, Update),
    TakeReply(u64, Prefix, u64, u64),
}

#[derive(Clone, Copy)]
#[allow(dead_code)]
struct Line {
    number: u32,
    reading: u64,
    event: Event,
}

#[derive(Clone)]
struct Book {
    pool: u128,
    length: u8,
    lines: Vec<Line>,
    units: Vec<Unit>,
    bound: HashMap<Binding, usize>,
    free: BinaryHeap<Reverse<usize>>,
    serial: u64,
}

impl Book {
    fn open(units: usize) -> Book {
        let length = if units == 256 { 56 } else { 64 };
        let unit = Unit { status: Status::Free, mine: 0, seen: 0, own_end: 0, out_end: 0, acked: 0, told: 0, due: None };
        let mut book = Book {
            pool: 0x2001_0db8 << 96,
            length,
            lines: Vec::new(),
            units: vec![unit; units],
            bound: HashMap::new(),
            free: (0..units).map(Reverse).collect(),
            serial: 0,
        };
        book.write(9000, Event::Open);
        book.write(9000, Event::Open);
        book
    }

    fn write(&mut self, now: u64, event: Event) {
        let number = self.lines.len() as u32 + 1;
        self.lines.push(Line { number, reading: now, event });
    }

    fn prefix(&self, place: usize) -> Prefix {
        Prefix { address: self.pool + ((place as u128) << (128 - self.length)), length: self.length }
    }

    fn place(&self, prefix: Prefix) -> Option<usize> {
        if prefix.length != self.length {
            return None;
        }
        let place = (prefix.address.checked_sub(self.pool)? >> (128 - self.length)) as usize;
        (place < self.units.len()).then_some(place)
    }

    fn grant(&mut self, now: u64, binding: Binding, place: usize) -> (Prefix, u64) {
        let prefix = self.prefix(place);
        let unit = &mut self.units[place];
        let valid = LIFE.min((unit.acked.max(now) + 1000 * MCLT - now) / 1000);
        unit.status = Status::Active(binding);
        unit.mine += 1;
        unit.own_end = unit.own_end.max(now + 1000 * valid + 2 * SKEW);
        unit.out_end = now + 2000 * LIFE;
        unit.due = Some(Due::Active);
        self.write(now, Event::Grant(binding, prefix, valid));
        (prefix, valid)
    }

    fn request(&mut self, now: u64, binding: Binding) -> Option<(Prefix, u64)> {
        let place = match self.bound.get(&binding) {
            Some(place) => *place,
            None => {
                let place = self.free.pop()?.0;
                self.bound.insert(binding, place);
                place
            }
        };
        Some(self.grant(now, binding, place))
    }

    fn renew(&mut self, now: u64, binding: Binding) -> Option<(Prefix, u64)> {
        let place = *self.bound.get(&binding)?;
        Some(self.grant(now, binding, place))
    }

    fn release(&mut self, now: u64, binding: Binding, prefix: Prefix) -> Option<()> {
        let place = self.place(prefix)?;
        let unit = &mut self.units[place];
        if unit.status != Status::Active(binding) {
            return None;
        }
        unit.status = Status::Released(binding);
        unit.mine += 1;
        unit.due = Some(Due::Released);
        self.bound.remove(&binding);
        self.write(now, Event::Release(binding, prefix));
        Some(())
    }

    fn send_update(&mut self, now: u64, prefix: Prefix) -> Option<(u64, Update)> {
        let place = self.place(prefix)?;
        let unit = &self.units[place];
        let due = unit.due?;
        let binding = match unit.status {
            Status::Free => None,
            Status::Active(binding) | Status::Released(binding) => Some(binding),
        };
        let end = if due == Due::Active { unit.out_end } else { 0 };
        let update = Update { due, prefix, mine: unit.mine, seen: unit.seen, end, binding };
        self.serial += 1;
        self.write(now, Event::Send(self.serial, update));
        Some((self.serial, update))
    }

    fn take_reply(&mut self, now: u64, serial: u64, prefix: Prefix, of: u64, mine: u64) -> Option<()> {
        let place = self.place(prefix)?;
        let unit = &mut self.units[place];
        if let Some(due) = unit.due {
            if of == unit.mine && unit.seen < mine {
                match due {
                    Due::Active => unit.acked = unit.acked.max(unit.out_end),
                    Due::Released => {
                        unit.status = Status::Free;
                        unit.own_end = 0;
                        unit.out_end = 0;
                        unit.acked = 0;
                        unit.told = 0;
                        self.free.push(Reverse(place));
                    }
                }
                unit.due = None;
                unit.seen = mine;
            }
        }
        self.write(now, Event::TakeReply(serial, prefix, of, mine));
        Some(())
    }

    fn told(&mut self, now: u64, prefix: Prefix) -> u64 {
        let (serial, update) = self.send_update(now, prefix).unwrap();
        self.take_reply(now, serial, prefix, update.mine, update.mine).unwrap();
        update.mine
    }

    fn replay(lines: &[Line], units: usize) -> Book {
        let mut book = Book::open(units);
        book.free.clear();
        for line in &lines[2..] {
            let now = line.reading;
            match line.event {
                Event::Open => {}
                Event::Grant(binding, prefix, _) => {
                    let place = book.place(prefix).unwrap();
                    book.bound.insert(binding, place);
                    book.grant(now, binding, place);
                }
                Event::Release(binding, prefix) => book.release(now, binding, prefix).unwrap(),
                Event::Send(_, update) => {
                    book.send_update(now, update.prefix).unwrap();
                }
                Event::TakeReply(serial, prefix, of, mine) => book.take_reply(now, serial, prefix, of, mine).unwrap(),
            }
        }
        book.free = (0..units).filter(|place| book.units[*place].status == Status::Free).map(Reverse).collect();
        book
    }
}

fn binding(number: u64) -> Binding {
    let mut client = Duid { len: 10, bytes: [0; 130] };
    client.bytes[..6].copy_from_slice(&[0, 3, 0, 1, 2, 0]);
    client.bytes[6..10].copy_from_slice(&number.to_be_bytes()[4..]);
    Binding { client, iaid: 1 }
}

fn round(book: &mut Book, now: u64, number: u64) -> u64 {
    let (prefix, _) = book.renew(now, binding(number)).unwrap();
    let first = book.told(now, prefix);
    book.release(now, binding(number), prefix).unwrap();
    let second = book.told(now, prefix);
    let (again, _) = book.request(now, binding(number)).unwrap();
    (book.place(prefix).unwrap() + book.place(again).unwrap()) as u64 + first + second
}

fn filled(units: u64) -> Book {
    let mut book = Book::open(units as usize);
    for number in 0..units {
        book.request(10_000, binding(number)).unwrap();
    }
    book
}

fn main() {
    let words: Vec<String> = env::args().collect();
    let units: u64 = words[2].parse().unwrap();
    let count: u64 = words[3].parse().unwrap();
    let mut book = filled(units);
    let rounds = if words[1] == "replay" { 20_000 } else { count };
    let mut total = 0;
    for index in 0..rounds {
        total += round(&mut book, 20_000 + index, index.wrapping_mul(40_503) & (units - 1));
    }
    if words[1] == "replay" {
        total = (0..count).map(|_| Book::replay(&book.lines, units as usize).lines.len() as u64).sum();
    }
    println!("{total}");
}
