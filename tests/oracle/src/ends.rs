//! Tags 70 to 8A: two connections and the line between them.

use crate::config::Config;
use crate::error::ErrorKind;
use crate::infrastructure::SentPacket;
use crate::net::VirtualConnection;
use crate::packet::{
    DeliveryGuarantee, OrderingGuarantee, OutgoingPacketBuilder, Packet, PacketInfo, PacketType,
};
use crate::refusals::refused;
use crate::script::{Body, Line, NoLine};
use crate::words;
use std::net::{Ipv4Addr, SocketAddr};
use std::time::Instant;

#[derive(Default)]
pub struct Ends([Option<End>; 2]);

impl Ends {
    /// The operation whose tag has `low` as its last digit, at end `which`.
    pub fn line(&mut self, which: usize, low: u8, body: Body) -> Line {
        let said = match low {
            0x0 => self.make(which, body)?,
            0x8 => return self.over_the_line(which, body),
            _ => self.at(which)?.operation(low, body)?,
        };
        let flight = self.at(which)?.connection.packets_in_flight();
        Ok(format!("end{} {} | {}", which, said, flight))
    }

    fn at(&mut self, which: usize) -> Result<&mut End, NoLine> {
        self.0[which].as_mut().ok_or(NoLine::Missing)
    }

    fn make(&mut self, which: usize, mut body: Body) -> Line {
        let (f, c, m) = (body.u16()?, body.u16()?, body.u8()?);
        body.end()?;
        self.0[which] = Some(End::new(f, c, m));
        Ok("new".to_string())
    }

    fn over_the_line(&mut self, from: usize, mut body: Body) -> Line {
        let place = body.u32()?;
        body.end()?;
        let to = 1 - from;
        let log = &self.at(from)?.log;
        let datagram = log.get(place as usize).ok_or(NoLine::Missing)?.clone();
        let receiver = self.at(to)?;
        let said = receiver.receive_said(&datagram);
        let flight = receiver.connection.packets_in_flight();
        Ok(format!("line {}>{} {} {} | {}", from, to, place, said, flight))
    }
}

/// laminar's connection, and every datagram that it sent.
struct End {
    connection: VirtualConnection,
    log: Vec<Box<[u8]>>,
    time: Instant,
}

impl End {
    /// laminar has a limit of its own on an unreliable payload; 01's is F.
    fn new(f: u16, c: u16, m: u8) -> Self {
        let config = Config {
            fragment_size: f,
            fragment_reassembly_buffer_size: c,
            max_fragments: m,
            receive_buffer_max_size: usize::from(f),
            ..Config::default()
        };
        let address = SocketAddr::from((Ipv4Addr::LOCALHOST, 1));
        let time = Instant::now();
        End { connection: VirtualConnection::new(address, &config, time), log: Vec::new(), time }
    }

    fn operation(&mut self, low: u8, mut body: Body) -> Line {
        match low {
            0x1 => Ok(format!("receive {}", self.receive_said(body.rest()))),
            0x2 => self.send_field(body),
            0x4 => self.dropped(body),
            0x5 => self.heartbeat(body),
            0x6 => self.cycle(body),
            0x7 => self.feed(body),
            0x9 => self.resend(body),
            0xA => body.end().map(|_| "state".to_string()),
            _ => Err(NoLine::Bad),
        }
    }

    fn receive(&mut self, datagram: &[u8]) -> Result<Vec<Packet>, ErrorKind> {
        let packets = self.connection.process_incoming(datagram, self.time)?;
        Ok(packets.into_iter().map(|(packet, _)| packet).collect())
    }

    fn receive_said(&mut self, datagram: &[u8]) -> String {
        match self.receive(datagram) {
            Ok(packets) => words::list(&packets.iter().map(words::packet).collect::<Vec<_>>()),
            Err(error) => refused(&error),
        }
    }

    fn send(&mut self, info: PacketInfo, item: Option<u16>) -> Result<Vec<Box<[u8]>>, ErrorKind> {
        let sent = self.connection.process_outgoing(info, item, self.time)?;
        Ok(sent.into_iter().map(|packet| packet.contents()).collect())
    }

    /// Sends and keeps the datagrams in the log; they come back in hex.
    fn send_logged(&mut self, info: PacketInfo, item: Option<u16>) -> Result<Vec<String>, ErrorKind> {
        let datagrams = self.send(info, item)?;
        let said = datagrams.iter().map(|d| words::bytes(d)).collect();
        self.log.extend(datagrams);
        Ok(said)
    }

    fn send_field(&mut self, mut body: Body) -> Line {
        let delivery = match body.flag()? {
            false => DeliveryGuarantee::Unreliable,
            true => DeliveryGuarantee::Reliable,
        };
        let ordering = body.ordering()?;
        let info = PacketInfo::user_packet(body.rest(), delivery, ordering);
        Ok(match self.send_logged(info, None) {
            Ok(said) => format!("send {}", words::list(&said)),
            Err(error) => format!("send {}", refused(&error)),
        })
    }

    fn dropped(&mut self, body: Body) -> Line {
        body.end()?;
        let dropped = self.connection.gather_dropped_packets();
        let list: Vec<String> = dropped.iter().map(words::record).collect();
        Ok(format!("dropped {}", words::list(&list)))
    }

    fn heartbeat(&mut self, body: Body) -> Line {
        body.end()?;
        Ok(match self.send_logged(PacketInfo::heartbeat_packet(&[]), None) {
            Ok(said) => format!("heartbeat {}", words::list(&said)),
            Err(error) => format!("heartbeat {}", refused(&error)),
        })
    }

    fn cycle(&mut self, mut body: Body) -> Line {
        let (count, ordering, seq) = (body.u16()?, body.ordering()?, body.u16()?);
        body.end()?;
        let mut last: Box<[u8]> = Box::from([]);
        for _ in 0..count {
            let info = PacketInfo::user_packet(&[], DeliveryGuarantee::Reliable, ordering);
            let sent = self.send(info, None).expect("an empty payload is sent");
            last = sent.into_iter().next().expect("as one datagram");
            let number = u16::from_be_bytes([last[5], last[6]]);
            self.receive(&acknowledging(seq, number)).expect("and acknowledged");
        }
        Ok(format!("cycle {} {}", count, words::bytes(&last)))
    }

    fn feed(&mut self, mut body: Body) -> Line {
        let (count, seq, ack, field) = (body.u16()?, body.u16()?, body.u16()?, body.u32()?);
        let (index, stream) = (body.u16()?, body.u8()?);
        body.end()?;
        let mut out = 0;
        for i in 0..count {
            let index = index.wrapping_add(i);
            let datagram = ordered(seq.wrapping_add(i), ack, field, index, stream);
            out += self.receive(&datagram).expect("an ordered packet is read").len();
        }
        Ok(format!("feed {} out {}", count, out))
    }

    /// As laminar's socket does with what it finds dropped.
    fn resend(&mut self, body: Body) -> Line {
        body.end()?;
        let mut list = Vec::new();
        for record in self.connection.gather_dropped_packets() {
            match self.send_logged(again(&record), record.item_identifier) {
                Ok(said) => list.extend(said),
                Err(error) => list.push(refused(&error)),
            }
        }
        Ok(format!("resend {}", words::list(&list)))
    }
}

fn again(record: &SentPacket) -> PacketInfo<'_> {
    PacketInfo {
        packet_type: record.packet_type,
        payload: &record.payload,
        delivery: DeliveryGuarantee::Reliable,
        ordering: record.ordering_guarantee,
    }
}

/// A (0,1,0) datagram without payload, built by laminar's builder.
fn acknowledging(seq: u16, ack: u16) -> Box<[u8]> {
    let reliable = DeliveryGuarantee::Reliable;
    OutgoingPacketBuilder::new(&[])
        .with_default_header(PacketType::Packet, reliable, OrderingGuarantee::None)
        .with_acknowledgment_header(seq, ack, 0)
        .build()
        .contents()
}

/// A (0,1,2) datagram whose payload is its index.
fn ordered(seq: u16, ack: u16, field: u32, index: u16, stream: u8) -> Box<[u8]> {
    let ordering = OrderingGuarantee::Ordered(Some(stream));
    OutgoingPacketBuilder::new(&index.to_be_bytes())
        .with_default_header(PacketType::Packet, DeliveryGuarantee::Reliable, ordering)
        .with_acknowledgment_header(seq, ack, field)
        .with_ordering_header(index, Some(stream))
        .build()
        .contents()
}
