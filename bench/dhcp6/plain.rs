// The same walk in plain Rust: reads the datagram in standard input as often as the argument says, answers it, and prints the
// octets of all answers. Built by `rustc --edition 2021 -O`.
use std::io::Read;

#[derive(Debug)]
struct Duid {
    bytes: [u8; 130],
    len: u8,
}

#[derive(Debug)]
struct Relay {
    hops: u8,
    link: [u8; 16],
    peer: [u8; 16],
    interface: Option<Vec<u8>>,
}

#[derive(Debug)]
struct Ia {
    iaid: u32,
    hint: Option<(u128, u8)>,
}

#[derive(Debug)]
struct Message {
    relays: Vec<Relay>,
    kind: u8,
    xid: [u8; 3],
    client: Duid,
    ias: Vec<Ia>,
}

#[derive(Debug)]
struct Fault;

struct Options<'a>(&'a [u8]);

impl<'a> Options<'a> {
    fn next(&mut self) -> Result<Option<(u16, &'a [u8])>, Fault> {
        if self.0.is_empty() {
            return Ok(None);
        }
        if self.0.len() < 4 {
            return Err(Fault);
        }
        let code = u16::from_be_bytes([self.0[0], self.0[1]]);
        let length = u16::from_be_bytes([self.0[2], self.0[3]]) as usize;
        let rest = &self.0[4..];
        if rest.len() < length {
            return Err(Fault);
        }
        self.0 = &rest[length..];
        Ok(Some((code, &rest[..length])))
    }
}

fn duid(octets: &[u8]) -> Result<Duid, Fault> {
    if octets.len() < 3 || octets.len() > 130 {
        return Err(Fault);
    }
    let mut bytes = [0; 130];
    bytes[..octets.len()].copy_from_slice(octets);
    Ok(Duid { bytes, len: octets.len() as u8 })
}

fn ia(octets: &[u8]) -> Result<Ia, Fault> {
    if octets.len() < 12 {
        return Err(Fault);
    }
    let mut options = Options(&octets[12..]);
    let mut hint = None;
    while let Some((code, data)) = options.next()? {
        if code == 26 && hint.is_none() {
            if data.len() < 25 || data[8] > 128 {
                return Err(Fault);
            }
            let address = u128::from_be_bytes(data[9..25].try_into().unwrap());
            let length = data[8];
            let kept = if length == 0 { 0 } else { address >> (128 - length) << (128 - length) };
            hint = Some((kept, length));
        }
    }
    Ok(Ia { iaid: u32::from_be_bytes(octets[..4].try_into().unwrap()), hint })
}

fn set<T>(slot: &mut Option<T>, value: T) -> Result<(), Fault> {
    if slot.is_some() {
        return Err(Fault);
    }
    *slot = Some(value);
    Ok(())
}

fn message(octets: &[u8], left: usize) -> Result<(Message, Option<Duid>), Fault> {
    let kind = *octets.first().ok_or(Fault)?;
    if kind != 12 {
        if !matches!(kind, 1 | 3 | 5 | 6 | 8) || octets.len() < 4 {
            return Err(Fault);
        }
        let (mut client, mut server, mut relayed, mut interface) = (None, None, None, None);
        let mut ias = Vec::new();
        let mut options = Options(&octets[4..]);
        while let Some((code, data)) = options.next()? {
            match code {
                1 => set(&mut client, duid(data)?)?,
                2 => set(&mut server, duid(data)?)?,
                9 => set(&mut relayed, ())?,
                18 => set(&mut interface, ())?,
                25 => {
                    if ias.len() == 16 {
                        return Err(Fault);
                    }
                    if ias.is_empty() {
                        ias.reserve_exact(16);
                    }
                    ias.push(ia(data)?);
                }
                _ => {}
            }
        }
        let xid = [octets[1], octets[2], octets[3]];
        let relays = Vec::with_capacity(32 - left);
        return Ok((Message { relays, kind, xid, client: client.ok_or(Fault)?, ias }, server));
    }
    if left == 0 || octets.len() < 34 {
        return Err(Fault);
    }
    let (mut client, mut server, mut inner, mut interface) = (None, None, None, None);
    let mut options = Options(&octets[34..]);
    while let Some((code, data)) = options.next()? {
        match code {
            1 => set(&mut client, ())?,
            2 => set(&mut server, ())?,
            9 => set(&mut inner, message(data, left - 1)?)?,
            18 => set(&mut interface, data.to_vec())?,
            _ => {}
        }
    }
    let mut inner = inner.ok_or(Fault)?;
    inner.0.relays.push(Relay {
        hops: octets[1],
        link: octets[2..18].try_into().unwrap(),
        peer: octets[18..34].try_into().unwrap(),
        interface,
    });
    Ok(inner)
}

fn decode(octets: &[u8], own: &[u8]) -> Result<Message, Fault> {
    let (mut message, server) = message(octets, 32)?;
    let fits = match (message.kind, server) {
        (1 | 6, server) => server.is_none(),
        (_, Some(server)) => &server.bytes[..server.len as usize] == own,
        _ => false,
    };
    if !fits {
        return Err(Fault);
    }
    message.relays.reverse();
    Ok(message)
}

fn option(out: &mut Vec<u8>, code: u16, data: &[u8]) {
    out.extend_from_slice(&code.to_be_bytes());
    out.extend_from_slice(&(data.len() as u16).to_be_bytes());
    out.extend_from_slice(data);
}

fn encode(message: &Message, own: &[u8], prefix: u128, valid: u32) -> Option<Vec<u8>> {
    let client = &message.client.bytes[..message.client.len as usize];
    let mut size = 12 + client.len() + own.len() + 45 * message.ias.len();
    for relay in &message.relays {
        size += 38 + relay.interface.as_ref().map_or(0, |i| 4 + i.len());
    }
    if size > 65535 {
        return None;
    }
    let mut out = Vec::with_capacity(size);
    for relay in &message.relays {
        out.extend_from_slice(&[13, relay.hops]);
        out.extend_from_slice(&relay.link);
        out.extend_from_slice(&relay.peer);
        if let Some(interface) = &relay.interface {
            option(&mut out, 18, interface);
        }
        out.extend_from_slice(&[0, 9]);
        out.extend_from_slice(&((size - out.len() - 2) as u16).to_be_bytes());
    }
    out.push(2);
    out.extend_from_slice(&message.xid);
    option(&mut out, 1, client);
    option(&mut out, 2, own);
    for ia in &message.ias {
        out.extend_from_slice(&[0, 25, 0, 41]);
        out.extend_from_slice(&ia.iaid.to_be_bytes());
        out.extend_from_slice(&(valid / 2).to_be_bytes());
        out.extend_from_slice(&((4 * u64::from(valid) / 5) as u32).to_be_bytes());
        out.extend_from_slice(&[0, 26, 0, 25]);
        out.extend_from_slice(&valid.to_be_bytes());
        out.extend_from_slice(&valid.to_be_bytes());
        out.push(56);
        out.extend_from_slice(&prefix.to_be_bytes());
    }
    Some(out)
}

fn main() {
    let count: u64 = std::env::args().nth(1).unwrap().parse().unwrap();
    let mut octets = Vec::new();
    std::io::stdin().read_to_end(&mut octets).unwrap();
    let own = [0, 3, 0, 1, 2, 0, 0, 0, 0, 9];
    let mut total = 0u64;
    for _ in 0..count {
        let message = std::hint::black_box(decode(std::hint::black_box(&octets), &own).unwrap());
        let answer = encode(&message, &own, 0x2001_0db8 << 96, 3600).unwrap();
        total += std::hint::black_box(&answer).len() as u64;
    }
    println!("{total}");
}
