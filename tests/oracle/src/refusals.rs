//! laminar's errors as 01's numbers.
//!
//! | laminar | 01 |
//! |---|---|
//! | `CouldNotReadHeader` | 3 |
//! | `ProtocolVersionMismatch`, `DecodingError` (type, delivery or ordering byte) | 4 |
//! | `PacketError::ExceededMaxPacketSize` (an unreliable send over `receive_buffer_max_size`, here F) | 5 |
//! | `FragmentError` of the names that 01's 8 to 12 bear | 8, 9, 10, 11, 12 |
//!
//! 1, 2, 6, 7 and 13 judge sizes, storage and states that laminar doesn't have. The other errors have
//! no number, arise outside 01's domain alone, and are printed by name.

use crate::error::{ErrorKind, FragmentErrorKind, PacketErrorKind};

/// `refused N`.
pub fn refused(error: &ErrorKind) -> String {
    match number(error) {
        Some(number) => format!("refused {}", number),
        None => format!("refused {:?}", error),
    }
}

fn number(error: &ErrorKind) -> Option<u8> {
    match error {
        ErrorKind::CouldNotReadHeader(_) => Some(3),
        ErrorKind::ProtocolVersionMismatch | ErrorKind::DecodingError(_) => Some(4),
        ErrorKind::PacketError(PacketErrorKind::ExceededMaxPacketSize) => Some(5),
        ErrorKind::FragmentError(kind) => fragment_number(kind),
        _ => None,
    }
}

fn fragment_number(kind: &FragmentErrorKind) -> Option<u8> {
    match kind {
        FragmentErrorKind::ExceededMaxFragments => Some(8),
        FragmentErrorKind::CouldNotFindFragmentById => Some(9),
        FragmentErrorKind::FragmentWithUnevenNumberOfFragments => Some(10),
        FragmentErrorKind::AlreadyProcessedFragment => Some(11),
        FragmentErrorKind::MissingAckHeader => Some(12),
        FragmentErrorKind::MultipleAckHeaders | FragmentErrorKind::PacketHeaderNotFound => None,
    }
}
