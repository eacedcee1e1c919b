// The clients of one relay over IPv6, each behind a port of its own. First each sends a SOLICIT, and once it has the ADVERTISE a REQUEST
// for what that offers; then, ROUNDS times, each sends a RENEW of what it has. WINDOW of them wait for an answer at once.
// Built by `rustc --edition 2021 -O`. Words: the relay's address and port, the server's, CLIENTS, WINDOW, ROUNDS. Before a round it waits
// for a line on its standard input; behind one it prints the microseconds from the first question to the last answer, and how many
// datagrams it had to send again.
use std::env;
use std::io::{stdin, stdout, Write};
use std::net::UdpSocket;
use std::time::{Duration, Instant};

const SOLICIT: u8 = 1;
const ADVERTISE: u8 = 2;
const REQUEST: u8 = 3;
const RENEW: u8 = 5;
const REPLY: u8 = 7;
const CLIENT_ID: u16 = 1;
const SERVER_ID: u16 = 2;
const ELAPSED: u16 = 8;
const RELAYED: u16 = 9;
const INTERFACE: u16 = 18;
const IA_PD: u16 = 25;
/// An IA_PD of four octets and two times, and in it the prefix, its two times and its length before it.
const LEASED: usize = 12 + 4 + 25;

/// What a client was told: who its server is, and its IA_PD.
#[derive(Clone, Default)]
struct Told {
    server: Vec<u8>,
    lease: Vec<u8>,
}

fn option(message: &mut Vec<u8>, code: u16, body: &[u8]) {
    message.extend_from_slice(&code.to_be_bytes());
    message.extend_from_slice(&(body.len() as u16).to_be_bytes());
    message.extend_from_slice(body);
}

/// A client's message in a RELAY-FORW with the interface identifier of its port; the client's number is its transaction.
fn message(kind: u8, client: u32, told: &Told) -> Vec<u8> {
    let number = client.to_be_bytes();
    let mut inner = vec![kind, number[1], number[2], number[3]];
    option(&mut inner, CLIENT_ID, &[0, 3, 0, 1, 2, 1, number[0], number[1], number[2], number[3]]);
    if kind != SOLICIT {
        option(&mut inner, SERVER_ID, &told.server);
    }
    option(&mut inner, ELAPSED, &[0, 0]);
    if told.lease.is_empty() {
        option(&mut inner, IA_PD, &[0, 0, 0, 1, 0, 0, 0, 0, 0, 0, 0, 0]);
    } else {
        option(&mut inner, IA_PD, &told.lease);
    }
    let mut outer = vec![12, 0];
    outer.extend_from_slice(&[0x20, 1, 0xd, 0xb8, 0xff, 0xff, 0, 0, 0, 0, 0, 0, 0, 0, 0, 1]);
    outer.extend_from_slice(&[0xfe, 0x80, 0, 0, 0, 0, 0, 0, 0, 0, 0, 0, number[0], number[1], number[2], number[3]]);
    option(&mut outer, INTERFACE, format!("GigabitEthernet0/0/1.{client:06}").as_bytes());
    option(&mut outer, RELAYED, &inner);
    outer
}

/// The body of the first option with this code.
fn found(options: &[u8], code: u16) -> Option<&[u8]> {
    let mut rest = options;
    while rest.len() >= 4 {
        let length = u16::from_be_bytes([rest[2], rest[3]]) as usize;
        if u16::from_be_bytes([rest[0], rest[1]]) == code {
            return rest.get(4..4 + length);
        }
        rest = rest.get(4 + length..)?;
    }
    None
}

/// The inner message of a RELAY-REPL: its kind, the client's number, and what it was told.
fn answered(datagram: &[u8]) -> (u8, u32, Told) {
    assert_eq!(datagram[0], 13);
    let inner = found(&datagram[34..], RELAYED).expect("a message");
    let server = found(&inner[4..], SERVER_ID).expect("a server").to_vec();
    let lease = found(&inner[4..], IA_PD).expect("an IA_PD").to_vec();
    assert_eq!(lease.len(), LEASED, "a prefix and nothing else");
    (inner[0], u32::from_be_bytes([0, inner[1], inner[2], inner[3]]), Told { server, lease })
}

/// The relay, its clients' server, and what each client was told.
struct Relay {
    socket: UdpSocket,
    told: Vec<Told>,
    window: usize,
}

impl Relay {
    fn send(&self, kind: u8, client: usize) {
        self.socket.send(&message(kind, client as u32, &self.told[client])).unwrap();
    }

    /// All clients ask, beginning with this message. What isn't answered within a second is asked again.
    fn round(&mut self, first: u8) -> (Duration, usize) {
        let clients = self.told.len();
        let mut asking: Vec<Option<u8>> = vec![None; clients];
        let mut buffer = [0u8; 2048];
        let (mut next, mut left, mut again) = (0, clients, 0);
        let begun = Instant::now();
        while next < clients.min(self.window) {
            self.send(first, next);
            asking[next] = Some(first);
            next += 1;
        }
        while left > 0 {
            let Ok(count) = self.socket.recv(&mut buffer) else {
                let waiting: Vec<(usize, u8)> = asking.iter().enumerate().filter_map(|(client, kind)| Some((client, (*kind)?))).collect();
                again += waiting.len();
                waiting.into_iter().for_each(|(client, kind)| self.send(kind, client));
                continue;
            };
            let (kind, client, told) = answered(&buffer[..count]);
            let client = client as usize;
            match (kind, asking[client]) {
                (ADVERTISE, Some(SOLICIT)) => {
                    self.told[client] = told;
                    self.send(REQUEST, client);
                    asking[client] = Some(REQUEST);
                }
                (REPLY, Some(REQUEST | RENEW)) => {
                    self.told[client] = told;
                    asking[client] = None;
                    left -= 1;
                    if next < clients {
                        self.send(first, next);
                        asking[next] = Some(first);
                        next += 1;
                    }
                }
                _ => {}
            }
        }
        (begun.elapsed(), again)
    }
}

fn main() {
    let words: Vec<String> = env::args().skip(1).collect();
    let numbers: Vec<usize> = words[2..5].iter().map(|word| word.parse().unwrap()).collect();
    let socket = UdpSocket::bind(&words[0]).unwrap();
    socket.connect(&words[1]).unwrap();
    socket.set_read_timeout(Some(Duration::from_secs(1))).unwrap();
    let mut relay = Relay { socket, told: vec![Told::default(); numbers[0]], window: numbers[1] };
    for round in 0..=numbers[2] {
        stdin().read_line(&mut String::new()).unwrap();
        let (took, again) = relay.round(if round == 0 { SOLICIT } else { RENEW });
        println!("{} {again}", took.as_micros());
        stdout().flush().unwrap();
    }
}
