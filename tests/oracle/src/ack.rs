//! Tags 20 to 25: the acknowledgment handler alone.

use crate::infrastructure::AcknowledgmentHandler;
use crate::packet::{OrderingGuarantee, PacketType};
use crate::script::{Body, Line, NoLine};
use crate::words;

#[derive(Default)]
pub struct Acknowledgment(Option<AcknowledgmentHandler>);

impl Acknowledgment {
    pub fn line(&mut self, tag: u8, body: Body) -> Line {
        let said = match tag {
            0x20 => self.make(body)?,
            0x21 => self.incoming(body)?,
            0x22 => self.outgoing(body)?,
            0x23 => self.dropped(body)?,
            0x24 => state_word(body)?,
            _ => self.cycle(body)?,
        };
        Ok(format!("ack {} | {}", said, state(self.handler()?)))
    }

    fn handler(&mut self) -> Result<&mut AcknowledgmentHandler, NoLine> {
        self.0.as_mut().ok_or(NoLine::Missing)
    }

    fn make(&mut self, body: Body) -> Line {
        body.end()?;
        self.0 = Some(AcknowledgmentHandler::new());
        Ok("new".to_string())
    }

    fn incoming(&mut self, mut body: Body) -> Line {
        let (seq, ack, field) = (body.u16()?, body.u16()?, body.u32()?);
        body.end()?;
        self.handler()?.process_incoming(seq, ack, field);
        Ok(format!("incoming {} {} {}", seq, ack, words::field(field)))
    }

    fn outgoing(&mut self, mut body: Body) -> Line {
        let (ordering, item) = (body.ordering()?, body.item()?);
        let handler = self.handler()?;
        let number = handler.local_sequence_num();
        handler.process_outgoing(PacketType::Packet, body.rest(), ordering, item);
        Ok(format!("outgoing {}", number))
    }

    fn dropped(&mut self, body: Body) -> Line {
        body.end()?;
        let dropped = self.handler()?.dropped_packets();
        let list: Vec<String> = dropped.iter().map(words::record).collect();
        Ok(format!("dropped {}", words::list(&list)))
    }

    fn cycle(&mut self, mut body: Body) -> Line {
        let (count, seq) = (body.u16()?, body.u16()?);
        body.end()?;
        let handler = self.handler()?;
        for _ in 0..count {
            let number = handler.local_sequence_num();
            handler.process_outgoing(PacketType::Packet, &[], OrderingGuarantee::None, None);
            handler.process_incoming(seq, number, 0);
        }
        Ok(format!("cycle {} {}", count, seq))
    }
}

fn state_word(body: Body) -> Line {
    body.end()?;
    Ok("state".to_string())
}

/// `LOCAL NEWEST FIELD FLIGHT`.
fn state(handler: &mut AcknowledgmentHandler) -> String {
    format!(
        "{} {} {} {}",
        handler.local_sequence_num(),
        handler.remote_sequence_num(),
        words::field(handler.ack_bitfield()),
        handler.packets_in_flight()
    )
}
