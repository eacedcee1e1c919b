//! The same feed as a plain Rust loop: `plain LENGTH ROUNDS` feeds standard input in pieces and prints how many
//! frames came.
use std::io::Read;

const COUNT_MAX: u64 = 1 << 49;

#[derive(Clone, Copy, Debug)]
pub enum Fault {
    Length,
    Kind,
    Field,
}

#[derive(Clone, Copy, Debug)]
pub struct Prefix {
    pub address: u128,
    pub length: u8,
}

#[derive(Clone, Copy, Debug)]
pub struct Duid {
    pub bytes: [u8; 130],
    pub len: u8,
}

#[derive(Clone, Copy, Debug, PartialEq)]
pub enum Status {
    Active,
    Expired,
    Released,
    Backup,
    Free,
}

#[derive(Clone, Copy, Debug)]
pub struct Update {
    pub status: Status,
    pub prefix: Prefix,
    pub mine: u64,
    pub seen: u64,
    pub end: u64,
    pub iaid: u32,
    pub client: Option<Duid>,
}

#[derive(Clone, Copy, Debug)]
pub struct Reply {
    pub accept: bool,
    pub prefix: Prefix,
    pub of: u64,
    pub mine: u64,
    pub seen: u64,
}

#[derive(Clone, Copy, Debug)]
pub enum Kind {
    Update(Update),
    Reply(Reply),
    PoolRequest,
    PoolResponse(u32),
    UpdateRequest,
    UpdateRequestAll,
    UpdateDone,
    Connect(bool, u64),
    ConnectReply(bool, u64),
    Disconnect,
    State(u8),
    Contact(u64, u64),
}

#[derive(Clone, Copy, Debug)]
pub struct Frame {
    pub term: u32,
    pub serial: u64,
    pub kind: Kind,
}

struct Octets<'a>(&'a [u8]);

impl<'a> Octets<'a> {
    fn take(&mut self, count: usize) -> Option<&'a [u8]> {
        if self.0.len() < count {
            return None;
        }
        let (front, rest) = self.0.split_at(count);
        self.0 = rest;
        Some(front)
    }
    fn octet(&mut self) -> Option<u8> {
        Some(self.take(1)?[0])
    }
    fn u32(&mut self) -> Option<u32> {
        Some(u32::from_be_bytes(self.take(4)?.try_into().ok()?))
    }
    fn u64(&mut self) -> Option<u64> {
        Some(u64::from_be_bytes(self.take(8)?.try_into().ok()?))
    }
    fn count(&mut self) -> Option<u64> {
        self.u64().filter(|n| *n <= COUNT_MAX)
    }
    fn prefix(&mut self) -> Option<Prefix> {
        let length = self.octet()?;
        let address = u128::from_be_bytes(self.take(16)?.try_into().ok()?);
        let past = if length == 0 {
            address
        } else if length <= 128 {
            address & ((1u128 << (128 - length)) - 1)
        } else {
            return None;
        };
        if past != 0 {
            return None;
        }
        Some(Prefix { address, length })
    }
    fn flag(&mut self) -> Option<bool> {
        match self.octet()? {
            1 => Some(true),
            2 => Some(false),
            _ => None,
        }
    }
}

fn update(octets: &mut Octets<'_>) -> Option<Update> {
    let status = match octets.octet()? {
        1 => Status::Active,
        2 => Status::Expired,
        3 => Status::Released,
        4 => Status::Backup,
        5 => Status::Free,
        _ => return None,
    };
    let prefix = octets.prefix()?;
    let mine = octets.count()?;
    let seen = octets.count()?;
    let end = octets.count()?;
    if status != Status::Active && end != 0 {
        return None;
    }
    let iaid = octets.u32()?;
    let len = octets.octet()?;
    let client = if matches!(status, Status::Backup | Status::Free) {
        if iaid != 0 || len != 0 {
            return None;
        }
        None
    } else {
        if !(3..=130).contains(&len) {
            return None;
        }
        let mut bytes = [0u8; 130];
        bytes[..len as usize].copy_from_slice(octets.take(len as usize)?);
        Some(Duid { bytes, len })
    };
    Some(Update { status, prefix, mine, seen, end, iaid, client })
}

fn kind(octets: &mut Octets<'_>, code: u8) -> Option<Kind> {
    Some(match code {
        1 => Kind::Update(update(octets)?),
        2 => Kind::Reply(Reply {
            accept: octets.flag()?,
            prefix: octets.prefix()?,
            of: octets.count()?,
            mine: octets.count()?,
            seen: octets.count()?,
        }),
        3 => Kind::PoolRequest,
        4 => Kind::PoolResponse(octets.u32()?),
        5 => Kind::UpdateRequest,
        6 => Kind::UpdateRequestAll,
        7 => Kind::UpdateDone,
        8 => Kind::Connect(octets.flag()?, octets.count()?),
        9 => Kind::ConnectReply(octets.flag()?, octets.count()?),
        10 => Kind::Disconnect,
        11 => Kind::State(octets.octet().filter(|s| (1..=3).contains(s))?),
        _ => Kind::Contact(octets.count()?, octets.count()?),
    })
}

fn fields(octets: &[u8], code: u8) -> Option<Frame> {
    let mut octets = Octets(octets);
    let term = octets.u32()?;
    let serial = octets.count()?;
    let kind = kind(&mut octets, code)?;
    let counted = matches!(kind, Kind::Update(_) | Kind::Reply(_) | Kind::Contact(..));
    if (serial != 0) != counted || !octets.0.is_empty() {
        return None;
    }
    Some(Frame { term, serial, kind })
}

fn content(octets: &[u8]) -> Result<Frame, Fault> {
    let (code, octets) = octets.split_first().ok_or(Fault::Length)?;
    if !(1..=12).contains(code) {
        return Err(Fault::Kind);
    }
    fields(octets, *code).ok_or(Fault::Field)
}

struct Feed {
    held: Vec<u8>,
}

impl Feed {
    fn feed(&mut self, piece: &[u8]) -> Result<Vec<Frame>, Fault> {
        let before = self.held.len();
        self.held.extend_from_slice(piece);
        let mut frames = Vec::new();
        let mut at = 0;
        let outcome = loop {
            let rest = &self.held[at..];
            let Some(field) = rest.first_chunk::<4>() else {
                break Ok(());
            };
            let length = u32::from_be_bytes(*field) as usize;
            if !(13..=512).contains(&length) {
                break Err(Fault::Length);
            }
            let Some(octets) = rest.get(4..4 + length) else {
                break Ok(());
            };
            match content(octets) {
                Ok(frame) => frames.push(frame),
                Err(fault) => break Err(fault),
            }
            at += 4 + length;
        };
        match outcome {
            Ok(()) => {
                self.held.drain(..at);
                Ok(frames)
            }
            Err(fault) => {
                self.held.truncate(before);
                Err(fault)
            }
        }
    }
}

fn main() {
    let words: Vec<usize> = std::env::args().skip(1).map(|w| w.parse().expect("a number")).collect();
    let mut stream = Vec::new();
    std::io::stdin().read_to_end(&mut stream).expect("standard input");
    let mut feed = Feed { held: Vec::new() };
    let mut count = 0u64;
    for _ in 0..words[1] {
        for piece in stream.chunks(words[0].max(1)) {
            let frames = std::hint::black_box(feed.feed(piece).expect("frames"));
            count += frames.len() as u64;
        }
    }
    println!("{count}");
}
