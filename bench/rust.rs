//! Performs a script of calls by laminar's own files, as crates/bench does: see bench/script.py. N is nothing to laminar, and a step that
//! is one call of the port and none of laminar's does nothing. A digest of every datagram sent and every item handed out is printed.

include!(concat!(env!("OUT_DIR"), "/laminar.rs"));

#[path = "../tests/oracle/stand_ins/mod.rs"]
mod stand_ins;

use config::Config;
use net::VirtualConnection;
use packet::{DeliveryGuarantee, OrderingGuarantee, PacketInfo};
use std::io::Read;
use std::net::{Ipv4Addr, SocketAddr};
use std::time::Instant;

// As in crates/bench/src/script.rt.
const SEND: u8 = 0;
const SEND_ORDERED: u8 = 1;
const RECEIVE: u8 = 2;
const THE_CALL: u8 = 1;
const THE_MARKS: u8 = 3;

extern "C" {
    fn write(fd: i32, bytes: *const u8, count: usize) -> isize;
}

/// What bench/run counts lies between two marks: writes of no bytes.
fn mark(on: bool) {
    if on {
        unsafe { write(1, [].as_ptr(), 0) };
    }
}

/// The sum of the bytes that went out, and the sum of those sums, which their order changes.
#[derive(Default)]
struct Digest {
    sum: u32,
    sums: u32,
}

impl Digest {
    fn add(&mut self, bytes: &[u8]) {
        for byte in bytes {
            self.sum = self.sum.wrapping_add(u32::from(*byte));
            self.sums = self.sums.wrapping_add(self.sum);
        }
    }
}

fn connection(f: u16, c: u16, time: Instant) -> VirtualConnection {
    let config = Config {
        fragment_size: f,
        fragment_reassembly_buffer_size: c,
        max_fragments: 16,
        receive_buffer_max_size: usize::from(f),
        ..Config::default()
    };
    VirtualConnection::new(SocketAddr::from((Ipv4Addr::LOCALHOST, 1)), &config, time)
}

/// An item is sent: all its datagrams, as the socket would be given them.
fn send(end: &mut VirtualConnection, time: Instant, ordering: OrderingGuarantee, item: &[u8], on: bool, digest: &mut Digest) {
    let info = PacketInfo::user_packet(item, DeliveryGuarantee::Reliable, ordering);
    let mut datagrams = Vec::with_capacity(16);
    mark(on);
    for packet in end.process_outgoing(info, None, time).expect("an item is sent") {
        datagrams.push(packet.contents());
    }
    mark(on);
    datagrams.iter().for_each(|datagram| digest.add(datagram));
}

fn receive(end: &mut VirtualConnection, time: Instant, datagram: &[u8], on: bool, digest: &mut Digest) {
    mark(on);
    let came = end.process_incoming(datagram, time);
    mark(on);
    for (packet, _) in came.expect("a datagram is read") {
        digest.add(packet.payload());
    }
}

fn numbers<const COUNT: usize>(input: &mut impl Read) -> [u16; COUNT] {
    [0; COUNT].map(|_| {
        let mut bytes = [0; 2];
        input.read_exact(&mut bytes).expect("a whole script");
        u16::from_be_bytes(bytes)
    })
}

fn main() {
    let mut input = std::io::stdin().lock();
    let [_, f, c, steps] = numbers(&mut input);
    let time = Instant::now();
    let mut end = connection(f, c, time);
    let mut digest = Digest::default();
    for _ in 0..steps {
        let [what, _, _, count] = numbers(&mut input);
        let [kind, counted] = what.to_be_bytes();
        let mut bytes = vec![0; usize::from(count)];
        input.read_exact(&mut bytes).expect("a whole step");
        mark(counted == THE_MARKS);
        mark(counted == THE_MARKS);
        let on = counted == THE_CALL;
        match kind {
            SEND => send(&mut end, time, OrderingGuarantee::None, &bytes, on, &mut digest),
            SEND_ORDERED => send(&mut end, time, OrderingGuarantee::Ordered(Some(0)), &bytes, on, &mut digest),
            RECEIVE => receive(&mut end, time, &bytes, on, &mut digest),
            _ => (),
        }
    }
    println!("{} {}", digest.sum, digest.sums);
}
