//! Tags 50 to 5A: one ordered and one sequencing stream.

use crate::infrastructure::arranging::{Arranging, OrderingStream, SequencingStream};
use crate::script::{Body, Line, NoLine};
use crate::words;
use std::rc::Rc;

/// An item's index and payload. laminar answers alike for held and old items, so they are told apart
/// by whether the stream kept its share of the item.
type Item = Rc<(u16, Vec<u8>)>;

#[derive(Default)]
pub struct Streams {
    ordered: Option<OrderingStream<Item>>,
    sequencing: Option<SequencingStream<()>>,
}

impl Streams {
    pub fn line(&mut self, tag: u8, mut body: Body) -> Line {
        match tag {
            0x50 => self.make_ordered(body),
            0x51 => self.arrange_and_take(body.u16()?, body.rest()),
            0x52 => self.arrange(body.u16()?, body.rest()),
            0x53 => self.take(body),
            0x54 => self.ordered_item(body),
            0x55 => self.feed(body.u16()?, body.u16()?, body),
            0x58 => self.make_sequencing(body),
            0x59 => self.sequence(body.u16()?, body),
            0x5A => self.sequenced_item(body),
            _ => Err(NoLine::Bad),
        }
    }

    fn ordered(&mut self) -> Result<&mut OrderingStream<Item>, NoLine> {
        self.ordered.as_mut().ok_or(NoLine::Missing)
    }

    fn sequencing(&mut self) -> Result<&mut SequencingStream<()>, NoLine> {
        self.sequencing.as_mut().ok_or(NoLine::Missing)
    }

    fn make_ordered(&mut self, body: Body) -> Line {
        body.end()?;
        self.ordered = Some(OrderingStream::new(0));
        Ok("index answer out".to_string())
    }

    fn arrange_and_take(&mut self, index: u16, payload: &[u8]) -> Line {
        let stream = self.ordered()?;
        let (answer, first) = arrange(stream, index, payload);
        let out: Vec<String> = first.into_iter().chain(stream.iter_mut()).map(item).collect();
        Ok(format!("{} {} {}", index, answer, words::list(&out)))
    }

    fn arrange(&mut self, index: u16, payload: &[u8]) -> Line {
        let (answer, out) = arrange(self.ordered()?, index, payload);
        Ok(format!("arrange {} {} {}", index, answer, or_none(out)))
    }

    fn take(&mut self, body: Body) -> Line {
        body.end()?;
        Ok(format!("take {}", or_none(self.ordered()?.iter_mut().next())))
    }

    fn ordered_item(&mut self, body: Body) -> Line {
        body.end()?;
        Ok(format!("item {}", self.ordered()?.new_item_identifier()))
    }

    fn feed(&mut self, first: u16, count: u16, body: Body) -> Line {
        body.end()?;
        let stream = self.ordered()?;
        let mut out = 0;
        for i in 0..count {
            let (_, given) = arrange(stream, first.wrapping_add(i), &[]);
            out += given.into_iter().chain(stream.iter_mut()).count();
        }
        Ok(format!("feed {} {} out {}", first, count, out))
    }

    fn make_sequencing(&mut self, body: Body) -> Line {
        body.end()?;
        self.sequencing = Some(SequencingStream::new(0));
        Ok("sequencing new".to_string())
    }

    fn sequence(&mut self, index: u16, body: Body) -> Line {
        body.end()?;
        let answer = match self.sequencing()?.arrange(index, ()) {
            Some(()) => "out",
            None => "dropped",
        };
        Ok(format!("sequence {} {}", index, answer))
    }

    fn sequenced_item(&mut self, body: Body) -> Line {
        body.end()?;
        Ok(format!("item {}", self.sequencing()?.new_item_identifier()))
    }
}

fn arrange(stream: &mut OrderingStream<Item>, index: u16, payload: &[u8]) -> (&'static str, Option<Item>) {
    let given = Rc::new((index, payload.to_vec()));
    match stream.arrange(index, given.clone()) {
        Some(item) => ("out", Some(item)),
        None if Rc::strong_count(&given) == 2 => ("held", None),
        None => ("old", None),
    }
}

fn or_none(out: Option<Item>) -> String {
    out.map_or("-".to_string(), item)
}

fn item(item: Item) -> String {
    match item.1.is_empty() {
        true => item.0.to_string(),
        false => format!("{}:{}", item.0, words::bytes(&item.1)),
    }
}
