// laminar's tree of modules, over its own files in the folder LAMINAR_SRC (build.rs writes it here).
// The modules `infrastructure`, `net` and `either` stand in for files that are not at hand.

#[path = "LAMINAR_SRC"]
#[allow(warnings)]
mod laminar {
    pub mod config;
    pub mod error;
    pub mod packet;
    pub mod protocol_version;
    pub mod sequence_buffer;

    pub mod infrastructure {
        mod acknowledgment;
        pub mod arranging;
        mod fragmenter;

        pub use self::acknowledgment::{AcknowledgmentHandler, SentPacket};
        pub use self::fragmenter::Fragmentation;
        pub use crate::stand_ins::CongestionHandler;
    }

    pub mod net {
        pub mod constants;
        mod virtual_connection;

        pub use self::virtual_connection::VirtualConnection;
    }
}

// The names that laminar's files expect at the root of their crate.
use laminar::{config, error, infrastructure, net, packet, protocol_version, sequence_buffer};
#[allow(unused_imports)]
use error::{ErrorKind, Result};
use stand_ins::{either, SocketEvent};
