// A server without a book that keeps its answers all the same: for each REQUEST it appends a line to a file and syncs it, and only then
// sends an answer of the length and form of the node's; then it receives the next datagram. Built by `rustc --edition 2021 -O`. Words:
// the port, the count of datagrams, the file.
use std::env;
use std::fs::File;
use std::io::Write;
use std::net::UdpSocket;

/// The relay's header, and what stands behind it up to the client's message: the interface identifier.
const HEADER: usize = 34;

fn option(answer: &mut Vec<u8>, code: u16, body: &[u8]) {
    answer.extend_from_slice(&code.to_be_bytes());
    answer.extend_from_slice(&(body.len() as u16).to_be_bytes());
    answer.extend_from_slice(body);
}

/// An ADVERTISE or a REPLY in a RELAY-REPL: the same addresses and interface, and a prefix made of the client's number.
fn answer(datagram: &[u8], message: &[u8], interface: usize) -> Vec<u8> {
    let mut inner = vec![if message[0] == 1 { 2 } else { 7 }];
    inner.extend_from_slice(&message[1..18]);
    option(&mut inner, 2, &[0, 3, 0, 1, 2, 0, 0, 0, 0, 9]);
    let mut lease = [0u8; 41];
    lease[3] = 1;
    lease[4..12].copy_from_slice(&[0, 0, 7, 8, 0, 0, 11, 64]);
    lease[12..24].copy_from_slice(&[0, 26, 0, 25, 0, 0, 14, 16, 0, 0, 14, 16]);
    lease[24..29].copy_from_slice(&[56, 0x20, 1, 0xd, 0xb8]);
    lease[29..32].copy_from_slice(&message[1..4]);
    option(&mut inner, 25, &lease);
    let mut whole = datagram[..HEADER + 4 + interface].to_vec();
    whole[0] = 13;
    option(&mut whole, 9, &inner);
    whole
}

fn main() {
    let words: Vec<String> = env::args().skip(1).collect();
    let socket = UdpSocket::bind(("127.0.0.1", words[0].parse().unwrap())).unwrap();
    let mut file = File::create(&words[2]).unwrap();
    let line = format!("{}\n", "x".repeat(109));
    let mut buffer = vec![0u8; 65_535];
    eprintln!("listens");
    for _ in 0..words[1].parse::<u32>().unwrap() {
        let (count, peer) = socket.recv_from(&mut buffer).unwrap();
        let datagram = &buffer[..count];
        let interface = u16::from_be_bytes([datagram[HEADER + 2], datagram[HEADER + 3]]) as usize;
        let message = &datagram[HEADER + 4 + interface + 4..];
        if message[0] == 3 {
            file.write_all(line.as_bytes()).unwrap();
            file.sync_data().unwrap();
        }
        socket.send_to(&answer(datagram, message, interface), peer).unwrap();
    }
}
