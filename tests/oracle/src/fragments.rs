//! Tags 40 to 44: splitting and putting together.

use crate::config::Config;
use crate::infrastructure::Fragmentation;
use crate::packet::header::{AckedPacketHeader, FragmentHeader};
use crate::refusals::refused;
use crate::script::{Body, Line, NoLine};
use crate::words;

#[derive(Default)]
pub struct Fragments(Option<Fragmentation>);

impl Fragments {
    pub fn line(&mut self, tag: u8, body: Body) -> Line {
        match tag {
            0x40 => self.make(body),
            0x41 => self.receive(body),
            0x44 => split(body),
            _ => Err(NoLine::Bad),
        }
    }

    fn make(&mut self, mut body: Body) -> Line {
        let (f, c) = (body.u16()?, body.u16()?);
        body.end()?;
        self.0 = Some(Fragmentation::new(&Config {
            fragment_size: f,
            fragment_reassembly_buffer_size: c,
            ..Config::default()
        }));
        Ok(format!("fragments new {} {}", f, c))
    }

    fn receive(&mut self, mut body: Body) -> Line {
        let (number, id, count) = (body.u16()?, body.u8()?, body.u8()?);
        let acked = match id {
            0 => Some(AckedPacketHeader::new(body.u16()?, body.u16()?, body.u32()?)),
            _ => None,
        };
        let fragments = self.0.as_mut().ok_or(NoLine::Missing)?;
        let header = FragmentHeader::new(number, id, count);
        let answer = match fragments.handle_fragment(header, body.rest(), acked) {
            Ok(None) => "none".to_string(),
            Ok(Some((message, acked))) => joined(&message, acked),
            Err(error) => refused(&error),
        };
        Ok(format!("fragment {} {} {}: {}", number, id, count, answer))
    }
}

fn joined(message: &[u8], acked: AckedPacketHeader) -> String {
    format!(
        "message {} ack {} {} {}",
        words::bytes(message),
        acked.sequence(),
        acked.ack_seq(),
        words::field(acked.ack_field())
    )
}

fn split(mut body: Body) -> Line {
    let (f, m, length) = (body.u16()?, body.u8()?, body.u32()?);
    body.end()?;
    let payload: Vec<u8> = (0..length).map(|i| (i % 251) as u8).collect();
    let config = Config { fragment_size: f, max_fragments: m, ..Config::default() };
    let answer = match Fragmentation::spit_into_fragments(&payload, &config) {
        Ok(pieces) => {
            let lengths: Vec<String> = pieces.iter().map(|p| p.len().to_string()).collect();
            words::list(&lengths)
        }
        Err(error) => refused(&error),
    };
    Ok(format!("split {} {} {}: {}", f, m, length, answer))
}
