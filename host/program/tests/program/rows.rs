//! A line of the long listing as the second program's record of it has it, without its columns.

use second::bgp4mp::{Bgp4mp, Event};
use second::net::{Address, Family, Safi};
use second::peer_table::PeerTable;
use second::record::{Body, Record};
use second::rib::Rib;
use std::net::IpAddr;

/// Kind, peer and contents.
pub fn row(record: &Record) -> String {
    let kind = kind(record.kind.code, record.kind.subtype);
    match &record.body {
        Body::Unread(contents) => format!("{kind} {}", counted(contents.len(), "octet")),
        Body::TableDump(route) => {
            let (number, peer) = (route.peer_as.number(), shown(route.peer));
            format!("{kind} AS{number} {peer} {}/{}", shown(route.prefix), route.prefix_bits)
        }
        Body::PeerTable(table) => format!("{kind} {}", table_row(table)),
        Body::Rib(rib) => format!("{kind} {}", rib_row(rib, record.kind.subtype)),
        Body::Bgp4mp(event) => {
            let (number, peer) = (event.session.peer_as.number(), event.session.ends.peer());
            format!("{kind} AS{number} {} {}", shown(peer), event_row(event))
        }
    }
}

fn kind(code: u16, subtype: u16) -> &'static str {
    match (code, subtype) {
        (11, _) => "OSPFv2",
        (32, _) => "ISIS",
        (33, _) => "ISIS_ET",
        (48, _) => "OSPFv3",
        (49, _) => "OSPFv3_ET",
        (12, 1) => "IPv4 route",
        (12, _) => "IPv6 route",
        (13, 1) => "peer table",
        (13, 2) => "RIB IPv4 unicast",
        (13, 3) => "RIB IPv4 multicast",
        (13, 4) => "RIB IPv6 unicast",
        (13, 5) => "RIB IPv6 multicast",
        (13, _) => "RIB generic",
        (_, 0 | 5) => "state change",
        (_, 1 | 4) => "message",
        _ => "message sent",
    }
}

fn counted(count: usize, name: &str) -> String {
    match count {
        1 => format!("1 {name}"),
        _ => format!("{count} {name}s"),
    }
}

fn shown(address: Address) -> IpAddr {
    match address {
        Address::V4(octets) => octets.into(),
        Address::V6(octets) => octets.into(),
    }
}

fn table_row(table: &PeerTable) -> String {
    let count = counted(table.peers.len(), "peer");
    let name = std::str::from_utf8(&table.view_name).unwrap();
    let start: String = name.chars().take(40).collect();
    match (name.is_empty(), start == name) {
        (true, _) => count,
        (_, true) => format!("view \"{}\", {count}", name.escape_debug()),
        (_, false) => format!("view \"{}\"..., {count}", start.escape_debug()),
    }
}

fn rib_row(rib: &Rib, subtype: u16) -> String {
    let family = match (rib.stated, subtype) {
        (Some(stated), _) => stated.family,
        (None, 2 | 3) => Family::V4,
        (None, _) => Family::V6,
    };
    let mut octets = rib.prefix.octets.clone();
    octets.resize(usize::from(family.bits() / 8), 0);
    let address: IpAddr = match family {
        Family::V4 => <[u8; 4]>::try_from(octets).unwrap().into(),
        Family::V6 => <[u8; 16]>::try_from(octets).unwrap().into(),
    };
    let count = match rib.entries.len() {
        1 => "1 entry".to_string(),
        count => format!("{count} entries"),
    };
    let stated = rib.stated.map(|stated| match (stated.family, stated.safi) {
        (Family::V4, Safi::Unicast) => "IPv4 unicast ",
        (Family::V4, Safi::Multicast) => "IPv4 multicast ",
        (Family::V6, Safi::Unicast) => "IPv6 unicast ",
        (Family::V6, Safi::Multicast) => "IPv6 multicast ",
    });
    format!("{}{address}/{}, {count}", stated.unwrap_or_default(), rib.prefix.bits)
}

fn event_row(event: &Bgp4mp) -> String {
    match &event.event {
        Event::StateChange { old, new } => format!("{old:?} -> {new:?}"),
        Event::Message(message) => {
            let name = match message.code {
                1 => "OPEN",
                2 => "UPDATE",
                3 => "NOTIFICATION",
                4 => "KEEPALIVE",
                5 => "ROUTE-REFRESH",
                other => return format!("other {other}, {} octets", message.rest.len() + 19),
            };
            format!("{name}, {} octets", message.rest.len() + 19)
        }
    }
}
