//! Calls outside 01's domain that no script can make, with what laminar does: `oracle outside`.

use crate::infrastructure::{AcknowledgmentHandler, Fragmentation};
use crate::net::VirtualConnection;
use crate::packet::header::{AckedPacketHeader, FragmentHeader};
use crate::packet::{DeliveryGuarantee, OrderingGuarantee, PacketInfo, PacketReader, PacketType};
use crate::protocol_version::ProtocolVersion;
use std::fmt::Debug;
use std::io::{self, Write};
use std::net::{Ipv4Addr, SocketAddr};
use std::panic::{catch_unwind, UnwindSafe};
use std::time::Instant;

pub fn print(out: &mut dyn Write) -> io::Result<()> {
    writeln!(out, "version word: {}", ProtocolVersion::get_crc16())?;
    for line in [short_buffers(), acknowledgment_headers(), casts()].concat() {
        writeln!(out, "{}", line)?;
    }
    Ok(())
}

/// The reader alone, on buffers that end before the place where it reads.
fn short_buffers() -> Vec<String> {
    let zeros = [0; 16];
    let mut lines = Vec::new();
    for length in [0, 4, 5, 12, 13] {
        let answer = said(|| PacketReader::new(&zeros[..length]).read_acknowledge_header());
        lines.push(format!("read_acknowledge_header of {} bytes: {}", length, answer));
    }
    for length in [0, 12, 13, 16] {
        let answer = said(|| PacketReader::new(&zeros[..length]).read_arranging_header(13));
        lines.push(format!("read_arranging_header(13) of {} bytes: {}", length, answer));
    }
    for length in [3, 4, 11, 12] {
        let answer = said(|| PacketReader::new(&zeros[..length]).read_fragment());
        lines.push(format!("read_fragment of {} bytes, id 0: {}", length, answer));
    }
    lines
}

/// With fragment 1 one is taken for the message's own, and a second is an error after its fragment has
/// been joined.
fn acknowledgment_headers() -> Vec<String> {
    let mut fragments = Fragmentation::new(&Default::default());
    let mut give = |id: u8, seq: u16| {
        let acked = Some(AckedPacketHeader::new(seq, 0, 0));
        let answer = fragments.handle_fragment(FragmentHeader::new(7, id, 2), &[id], acked);
        format!("fragment {} of 2 with header {}: {:?}", id, seq, answer)
    };
    vec![give(1, 100), give(0, 200), give(0, 200), give(2, 300)]
}

/// Lengths and counts that don't fit their 16 bits.
fn casts() -> Vec<String> {
    let lengths = [65_536, 69_536];
    let sent = lengths.iter().map(|l| format!("send of {} bytes: {:?}", l, lengths_sent(*l)));
    let flight = format!("packets_in_flight of 65536: {}", every_number_in_flight());
    sent.chain(Some(flight)).collect()
}

/// The lengths of the datagrams that a reliable payload makes, at F 1,024.
fn lengths_sent(length: usize) -> Vec<usize> {
    let address = SocketAddr::from((Ipv4Addr::LOCALHOST, 1));
    let time = Instant::now();
    let mut connection = VirtualConnection::new(address, &Default::default(), time);
    let payload = vec![0; length];
    let reliable = DeliveryGuarantee::Reliable;
    let info = PacketInfo::user_packet(&payload, reliable, OrderingGuarantee::None);
    let sent = connection.process_outgoing(info, None, time);
    let datagrams = sent.expect("it is sent").into_iter();
    datagrams.map(|packet| packet.contents().len()).collect()
}

fn every_number_in_flight() -> u16 {
    let mut handler = AcknowledgmentHandler::new();
    for _ in 0..=u16::MAX {
        handler.process_outgoing(PacketType::Packet, &[], OrderingGuarantee::None, None);
    }
    handler.packets_in_flight()
}

fn said<T: Debug>(call: impl FnOnce() -> T + UnwindSafe) -> String {
    catch_unwind(call).map_or("stopped".to_string(), |answer| format!("{:?}", answer))
}
