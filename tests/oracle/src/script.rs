//! The form of a script: fields of a tag, a length of two bytes and a body; numbers high byte first.

use crate::packet::OrderingGuarantee;

/// Why an operation has no line of its own.
pub enum NoLine {
    /// The body has the wrong form; the run ends.
    Bad,
    /// Its object was never made.
    Missing,
}

pub type Line = std::result::Result<String, NoLine>;
type Part<T> = std::result::Result<T, NoLine>;

/// The fields of a script as (tag, body); `None` in place of a cut one, and then no more.
pub fn fields(script: &[u8]) -> impl Iterator<Item = Option<(u8, &[u8])>> {
    let mut rest = script;
    std::iter::from_fn(move || {
        if rest.is_empty() {
            return None;
        }
        let field = first_field(rest);
        rest = field.map_or(&[], |(_, body)| &rest[3 + body.len()..]);
        Some(field)
    })
}

fn first_field(script: &[u8]) -> Option<(u8, &[u8])> {
    if script.len() < 3 {
        return None;
    }
    let length = usize::from(u16::from_be_bytes([script[1], script[2]]));
    Some((script[0], script.get(3..3 + length)?))
}

/// The body of a field, read from its front.
pub struct Body<'a>(&'a [u8]);

impl<'a> Body<'a> {
    pub fn new(bytes: &'a [u8]) -> Self {
        Body(bytes)
    }

    fn take(&mut self, count: usize) -> Part<&'a [u8]> {
        if self.0.len() < count {
            return Err(NoLine::Bad);
        }
        let (front, back) = self.0.split_at(count);
        self.0 = back;
        Ok(front)
    }

    pub fn u8(&mut self) -> Part<u8> {
        Ok(self.take(1)?[0])
    }

    pub fn u16(&mut self) -> Part<u16> {
        let b = self.take(2)?;
        Ok(u16::from_be_bytes([b[0], b[1]]))
    }

    pub fn u32(&mut self) -> Part<u32> {
        let b = self.take(4)?;
        Ok(u32::from_be_bytes([b[0], b[1], b[2], b[3]]))
    }

    /// A byte that is 0 or 1.
    pub fn flag(&mut self) -> Part<bool> {
        match self.u8()? {
            0 => Ok(false),
            1 => Ok(true),
            _ => Err(NoLine::Bad),
        }
    }

    /// `ordering:1 stream:2`.
    pub fn ordering(&mut self) -> Part<OrderingGuarantee> {
        let kind = self.u8()?;
        let given = self.flag()?;
        let id = self.u8()?;
        let stream = if given { Some(id) } else { None };
        match kind {
            0 => Ok(OrderingGuarantee::None),
            1 => Ok(OrderingGuarantee::Sequenced(stream)),
            2 => Ok(OrderingGuarantee::Ordered(stream)),
            _ => Err(NoLine::Bad),
        }
    }

    /// `item:3`.
    pub fn item(&mut self) -> Part<Option<u16>> {
        let given = self.flag()?;
        let number = self.u16()?;
        Ok(if given { Some(number) } else { None })
    }

    pub fn rest(&mut self) -> &'a [u8] {
        std::mem::take(&mut self.0)
    }

    /// Nothing may follow.
    pub fn end(&self) -> Part<()> {
        if self.0.is_empty() {
            Ok(())
        } else {
            Err(NoLine::Bad)
        }
    }
}
