//! The replay script over laminar 0.5.0: reads fields on standard input, prints one line for each.
//! Read `script.rs` for the form of a field, then the module of the operations in question.

include!(concat!(env!("OUT_DIR"), "/laminar.rs"));

mod ack;
mod buffer;
mod ends;
mod fragments;
mod outside;
mod refusals;
mod script;
mod streams;
mod words;

#[path = "../stand_ins/mod.rs"]
mod stand_ins;

use script::{Body, Line, NoLine};
use std::io::{self, BufWriter, Read, Write};
use std::panic::{catch_unwind, set_hook, AssertUnwindSafe};

/// Every object that a script can make.
#[derive(Default)]
struct Bench {
    buffer: buffer::Buffer,
    ack: ack::Acknowledgment,
    fragments: fragments::Fragments,
    streams: streams::Streams,
    ends: ends::Ends,
}

impl Bench {
    fn line(&mut self, tag: u8, body: Body) -> Line {
        match tag {
            0x10..=0x19 => self.buffer.line(tag, body),
            0x20..=0x25 => self.ack.line(tag, body),
            0x40..=0x44 => self.fragments.line(tag, body),
            0x50..=0x5A => self.streams.line(tag, body),
            0x70..=0x72 | 0x74..=0x7A => self.ends.line(0, tag - 0x70, body),
            0x80..=0x82 | 0x84..=0x8A => self.ends.line(1, tag - 0x80, body),
            _ => Err(NoLine::Bad),
        }
    }
}

/// Prints the lines of a script, to its end or to the first field that ends the run.
fn run(script: &[u8], out: &mut dyn Write) -> io::Result<()> {
    let mut bench = Bench::default();
    for field in script::fields(script) {
        let (tag, body) = match field {
            Some(field) => field,
            None => return writeln!(out, "bad"),
        };
        if tag == 0x00 {
            out.write_all(&[b"# ", body, b"\n"].concat())?;
            continue;
        }
        let answer = catch_unwind(AssertUnwindSafe(|| bench.line(tag, Body::new(body))));
        match answer {
            Ok(Ok(line)) => writeln!(out, "{}", line)?,
            Ok(Err(NoLine::Missing)) => writeln!(out, "missing")?,
            Ok(Err(NoLine::Bad)) => return writeln!(out, "bad"),
            Err(_) => return writeln!(out, "stopped"),
        }
    }
    Ok(())
}

fn main() -> io::Result<()> {
    set_hook(Box::new(|_| {}));
    let mut out = BufWriter::new(io::stdout());
    if std::env::args().nth(1).as_deref() == Some("outside") {
        return outside::print(&mut out);
    }
    let mut script = Vec::new();
    io::stdin().read_to_end(&mut script)?;
    run(&script, &mut out)
}
