// The least that a server does: receives datagrams and sends for each one of the length and form of the node's answer, without a book,
// a lease or a test of what came. Built by `rustc --edition 2021 -O`. Words: the port, the count of datagrams, the count of workers.
use std::env;
use std::net::UdpSocket;
use std::sync::atomic::{AtomicI64, Ordering};
use std::thread;

/// The relay's header, and what stands behind it up to the client's message: the interface identifier.
const HEADER: usize = 34;

fn option(answer: &mut Vec<u8>, code: u16, body: &[u8]) {
    answer.extend_from_slice(&code.to_be_bytes());
    answer.extend_from_slice(&(body.len() as u16).to_be_bytes());
    answer.extend_from_slice(body);
}

/// An ADVERTISE or a REPLY in a RELAY-REPL: the same addresses and interface, and a prefix made of the client's number.
fn answer(datagram: &[u8], inner: &mut Vec<u8>, answer: &mut Vec<u8>) {
    let interface = u16::from_be_bytes([datagram[HEADER + 2], datagram[HEADER + 3]]) as usize;
    let message = &datagram[HEADER + 4 + interface + 4..];
    inner.clear();
    inner.push(if message[0] == 1 { 2 } else { 7 });
    inner.extend_from_slice(&message[1..4]);
    inner.extend_from_slice(&message[4..18]);
    option(inner, 2, &[0, 3, 0, 1, 2, 0, 0, 0, 0, 9]);
    let mut lease = [0u8; 41];
    lease[3] = 1;
    lease[4..12].copy_from_slice(&[0, 0, 7, 8, 0, 0, 11, 64]);
    lease[12..24].copy_from_slice(&[0, 26, 0, 25, 0, 0, 14, 16, 0, 0, 14, 16]);
    lease[24..29].copy_from_slice(&[56, 0x20, 1, 0xd, 0xb8]);
    lease[29..32].copy_from_slice(&message[1..4]);
    option(inner, 25, &lease);
    answer.clear();
    answer.extend_from_slice(&datagram[..HEADER + 4 + interface]);
    answer[0] = 13;
    option(answer, 9, inner);
}

fn main() {
    let words: Vec<i64> = env::args().skip(1).map(|word| word.parse().unwrap()).collect();
    let socket = UdpSocket::bind(("127.0.0.1", words[0] as u16)).unwrap();
    let turns = AtomicI64::new(words[1]);
    eprintln!("listens");
    thread::scope(|scope| {
        for _ in 0..words[2] {
            scope.spawn(|| {
                let mut buffer = vec![0u8; 65_535];
                let (mut inner, mut whole) = (Vec::new(), Vec::new());
                while turns.fetch_sub(1, Ordering::SeqCst) > 0 {
                    let (count, peer) = socket.recv_from(&mut buffer).unwrap();
                    answer(&buffer[..count], &mut inner, &mut whole);
                    socket.send_to(&whole, peer).unwrap();
                }
            });
        }
    });
}
