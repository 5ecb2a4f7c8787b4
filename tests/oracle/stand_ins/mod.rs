//! What laminar's files name and 01 leaves out: round-trip times, socket events, and `Either`.

use crate::config::Config;
use std::time::Instant;

pub mod either {
    #[derive(Debug)]
    pub enum Either<L, R> {
        Left(L),
        Right(R),
    }
}

/// Sockets are left out, so no event ever is.
#[derive(Debug)]
pub enum SocketEvent {}

/// Keeps round-trip times in laminar, and nothing that a datagram or an answer depends on.
pub struct CongestionHandler;

impl CongestionHandler {
    pub fn new(_config: &Config) -> Self {
        CongestionHandler
    }

    pub fn process_incoming(&mut self, _incoming: u16) {}

    pub fn process_outgoing(&mut self, _outgoing: u16, _time: Instant) {}
}
