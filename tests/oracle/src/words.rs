//! How a line writes numbers, bytes, lists and records.

use crate::infrastructure::SentPacket;
use crate::net::constants::{DEFAULT_ORDERING_STREAM, DEFAULT_SEQUENCING_STREAM};
use crate::packet::{DeliveryGuarantee, OrderingGuarantee, Packet};

pub fn bytes(bytes: &[u8]) -> String {
    if bytes.is_empty() {
        return "-".to_string();
    }
    bytes.iter().map(|b| format!("{:02x}", b)).collect()
}

pub fn field(field: u32) -> String {
    format!("0x{:08X}", field)
}

pub fn yes(answer: bool) -> &'static str {
    if answer {
        "yes"
    } else {
        "no"
    }
}

pub fn list(items: &[String]) -> String {
    or_dash(items.join(" "))
}

fn or_dash(text: String) -> String {
    if text.is_empty() {
        "-".to_string()
    } else {
        text
    }
}

fn number(number: Option<impl ToString>) -> String {
    or_dash(number.map_or(String::new(), |n| n.to_string()))
}

fn ordering(ordering: OrderingGuarantee) -> (&'static str, Option<u8>) {
    match ordering {
        OrderingGuarantee::None => ("none", None),
        OrderingGuarantee::Sequenced(stream) => ("sequenced", stream),
        OrderingGuarantee::Ordered(stream) => ("ordered", stream),
    }
}

/// `PAYLOAD,ORDERING,STREAM,ITEM`. A record keeps `None` for laminar's default stream.
pub fn record(sent: &SentPacket) -> String {
    let (word, stream) = match sent.ordering_guarantee {
        OrderingGuarantee::Sequenced(None) => ("sequenced", Some(DEFAULT_SEQUENCING_STREAM)),
        OrderingGuarantee::Ordered(None) => ("ordered", Some(DEFAULT_ORDERING_STREAM)),
        given => ordering(given),
    };
    let item = number(sent.item_identifier);
    [&bytes(&sent.payload), word, &number(stream), &item].join(",")
}

/// `DELIVERY,ORDERING,STREAM,PAYLOAD`.
pub fn packet(packet: &Packet) -> String {
    let delivery = match packet.delivery_guarantee() {
        DeliveryGuarantee::Unreliable => "unreliable",
        DeliveryGuarantee::Reliable => "reliable",
    };
    let (word, stream) = ordering(packet.order_guarantee());
    [delivery, word, &number(stream), &bytes(packet.payload())].join(",")
}
