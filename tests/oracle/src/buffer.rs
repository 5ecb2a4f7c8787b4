//! Tags 10 to 19: the sequence buffer and the comparison of numbers.

use crate::script::{Body, Line, NoLine};
use crate::sequence_buffer::{sequence_greater_than, sequence_less_than, SequenceBuffer};
use crate::words;

#[derive(Default)]
pub struct Buffer(Option<SequenceBuffer<()>>);

impl Buffer {
    pub fn line(&mut self, tag: u8, mut body: Body) -> Line {
        match tag {
            0x10 => self.make(body.u16()?, body),
            0x11..=0x13 => self.one_number(tag, body.u16()?, body),
            0x14 => self.entries(body),
            0x18 | 0x19 => compare(tag, body.u16()?, body.u16()?, body),
            _ => Err(NoLine::Bad),
        }
    }

    fn make(&mut self, slots: u16, body: Body) -> Line {
        body.end()?;
        self.0 = Some(SequenceBuffer::with_capacity(slots));
        Ok(format!("buffer new {}", slots))
    }

    fn one_number(&mut self, tag: u8, n: u16, body: Body) -> Line {
        body.end()?;
        let buffer = self.0.as_mut().ok_or(NoLine::Missing)?;
        let (name, answer) = match tag {
            0x11 => ("insert", insert_word(buffer.insert(n, ()).is_some())),
            0x12 => ("exists", words::yes(buffer.exists(n))),
            _ => ("remove", words::yes(buffer.remove(n).is_some())),
        };
        Ok(format!("{} {} {} | {}", name, n, answer, buffer.sequence_num()))
    }

    fn entries(&mut self, body: Body) -> Line {
        body.end()?;
        let buffer = self.0.as_ref().ok_or(NoLine::Missing)?;
        let there = (0..=u16::MAX).filter(|n| buffer.exists(*n));
        let list: Vec<String> = there.map(|n| n.to_string()).collect();
        Ok(format!("entries {} | {}", words::list(&list), buffer.sequence_num()))
    }
}

fn insert_word(inserted: bool) -> &'static str {
    if inserted {
        "ok"
    } else {
        "old"
    }
}

fn compare(tag: u8, a: u16, b: u16, body: Body) -> Line {
    body.end()?;
    let (name, answer) = match tag {
        0x18 => ("greater", sequence_greater_than(a, b)),
        _ => ("less", sequence_less_than(a, b)),
    };
    Ok(format!("{} {} {} {}", name, a, b, words::yes(answer)))
}
