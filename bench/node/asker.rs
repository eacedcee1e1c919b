// The clients of one relay: each sends a SOLICIT, and once it has the ADVERTISE a REQUEST; WINDOW of them wait for an answer at once.
// Built by `rustc --edition 2021 -O`. Words: the server's port, the count of clients. Prints the microseconds from the first SOLICIT to
// the last REPLY, and how many octets came.
use std::env;
use std::net::UdpSocket;
use std::time::{Duration, Instant};

const WINDOW: usize = 16;
const SERVER: [u8; 10] = [0, 3, 0, 1, 2, 0, 0, 0, 0, 9];

fn option(message: &mut Vec<u8>, code: u16, body: &[u8]) {
    message.extend_from_slice(&code.to_be_bytes());
    message.extend_from_slice(&(body.len() as u16).to_be_bytes());
    message.extend_from_slice(body);
}

/// A client's message in a RELAY-FORW with an interface identifier; the client's number is its transaction.
fn message(kind: u8, client: u32) -> Vec<u8> {
    let number = client.to_be_bytes();
    let mut inner = vec![kind, number[1], number[2], number[3]];
    option(&mut inner, 1, &[0, 3, 0, 1, 2, 1, number[0], number[1], number[2], number[3]]);
    if kind == 3 {
        option(&mut inner, 2, &SERVER);
    }
    option(&mut inner, 8, &[0, 0]);
    option(&mut inner, 25, &[0, 0, 0, 1, 0, 0, 0, 0, 0, 0, 0, 0]);
    let mut outer = vec![12, 0];
    outer.extend_from_slice(&[0x20, 1, 0xd, 0xb8, 0xff, 0xff, 0, 0, 0, 0, 0, 0, 0, 0, 0, 1]);
    outer.extend_from_slice(&[0xfe, 0x80, 0, 0, 0, 0, 0, 0, 0, 0, 0, 0, number[0], number[1], number[2], number[3]]);
    option(&mut outer, 18, b"GigabitEthernet0/0/1.100");
    option(&mut outer, 9, &inner);
    outer
}

/// The inner message of a RELAY-REPL: its kind and the client's number.
fn answered(datagram: &[u8]) -> (u8, u32) {
    assert_eq!(datagram[0], 13);
    let mut at = 34;
    while datagram[at..at + 2] != [0, 9] {
        at += 4 + u16::from_be_bytes([datagram[at + 2], datagram[at + 3]]) as usize;
    }
    let inner = &datagram[at + 4..];
    (inner[0], u32::from_be_bytes([0, inner[1], inner[2], inner[3]]))
}

fn main() {
    let words: Vec<u32> = env::args().skip(1).map(|word| word.parse().unwrap()).collect();
    let (port, clients) = (words[0] as u16, words[1]);
    let socket = UdpSocket::bind("127.0.0.1:0").unwrap();
    socket.connect(("127.0.0.1", port)).unwrap();
    socket.set_read_timeout(Some(Duration::from_secs(10))).unwrap();
    let mut buffer = [0u8; 2048];
    let mut next = 0;
    let mut left = clients;
    let mut octets = 0;
    let begun = Instant::now();
    while next < clients && (next as usize) < WINDOW {
        socket.send(&message(1, next)).unwrap();
        next += 1;
    }
    while left > 0 {
        let count = socket.recv(&mut buffer).unwrap();
        octets += count;
        match answered(&buffer[..count]) {
            (2, client) => {
                socket.send(&message(3, client)).unwrap();
            }
            (7, _) => {
                left -= 1;
                if next < clients {
                    socket.send(&message(1, next)).unwrap();
                    next += 1;
                }
            }
            (kind, _) => panic!("an answer of kind {kind}"),
        }
    }
    println!("{} {octets}", begun.elapsed().as_micros());
}
