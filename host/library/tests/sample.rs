//! The sample incident through the safe functions, against the second program's reading of it.

use dagsumilat::{check, cut, cut_into, records, Fault, Kind, Peer, Record, Refusal, Window};
use second::bgp4mp::Event;
use second::dump::{Dump, Located};
use second::net::Address;
use second::record::Body;
use std::net::{IpAddr, Ipv4Addr, Ipv6Addr};

const NOON: u64 = 1_772_366_400_000_000;

fn sample() -> Vec<u8> {
    std::fs::read(concat!(env!("CARGO_MANIFEST_DIR"), "/../../sample/incident.mrt")).unwrap()
}

fn address(address: Address) -> IpAddr {
    match address {
        Address::V4(octets) => IpAddr::V4(Ipv4Addr::from(octets)),
        Address::V6(octets) => IpAddr::V6(Ipv6Addr::from(octets)),
    }
}

fn peer(peer: &second::peer_table::Peer) -> Peer {
    Peer {
        as_number: peer.asn.number(),
        type_octet: peer.type_octet(),
        bgp_id: Ipv4Addr::from(peer.bgp_id),
        address: address(peer.address),
    }
}

fn kind(body: &Body) -> Kind {
    match body {
        Body::Unread(_) => Kind::Unread,
        Body::TableDump(_) => Kind::TableDump,
        Body::PeerTable(_) => Kind::PeerTable,
        Body::Rib(_) => Kind::Rib,
        Body::Bgp4mp(event) => match event.event {
            Event::StateChange { .. } => Kind::StateChange,
            Event::Message(_) => Kind::Message,
        },
    }
}

fn assert_same(record: &Record, expected: &Located) {
    let wanted = &expected.record;
    assert_eq!(record.at, expected.offset);
    assert_eq!(record.octets().len(), 12 + wanted.length());
    assert_eq!((record.time, record.length as usize), (wanted.time(), wanted.length()));
    assert_eq!((record.type_code, record.subtype), (wanted.kind.code, wanted.kind.subtype));
    assert_eq!(record.kind(), kind(&wanted.body));
    assert_eq!(record.table(), Some(5));
    let peer_as = match &wanted.body {
        Body::Bgp4mp(event) => Some(event.session.peer_as.number()),
        _ => None,
    };
    assert_eq!(record.peer_as(), peer_as);
    assert_same_items(record, &wanted.body);
}

fn assert_same_items(record: &Record, body: &Body) {
    let table: Vec<Peer> = match body {
        Body::PeerTable(table) => table.peers.iter().map(peer).collect(),
        _ => Vec::new(),
    };
    assert_eq!(record.peers().len(), table.len());
    assert!(record.peers().eq(table));
    let entries = match body {
        Body::Rib(rib) => &rib.entries[..],
        _ => &[],
    };
    assert_eq!(record.entries().len(), entries.len());
    for (entry, wanted) in record.entries().zip(entries) {
        assert_eq!((entry.peer_index, entry.originated), (wanted.peer_index, wanted.originated));
        let mut writer = second::writer::Writer::new();
        wanted.attributes.write(&mut writer);
        assert_eq!(entry.attributes, &writer.into_octets()[2..], "behind the attribute length");
    }
}

#[test]
fn records_peers_and_entries() {
    let octets = sample();
    let expected = Dump::read(&octets);
    let found: Vec<Record> = records(&octets).collect::<Result<_, _>>().unwrap();
    assert_eq!(found.len(), expected.records.len());
    assert_eq!(check(&octets).records, found.len() as u64);
    for (record, expected) in found.iter().zip(&expected.records) {
        assert_same(record, expected);
    }
}

#[test]
fn a_cut_is_that_of_the_second_program() {
    let octets = sample();
    let (from, to, mutes) = (NOON + 11_000, NOON + 2_400_020, [64_499, 65_541, 64_499]);
    let expected = second::cut::cut(&octets, from, to, &mutes, octets.len());
    assert_eq!(cut(&octets, Window { from, to }, &mutes), Ok(expected.octets.clone()));

    let mut out = vec![7; expected.octets.len()];
    assert_eq!(cut_into(&octets, Window { from, to }, &mutes, &mut out), Ok(out.len()));
    assert_eq!(out, expected.octets);
}

#[test]
fn refusals() {
    let mut octets = sample();
    let whole = octets.len();
    let backward = Window { from: 2, to: 1 };
    let all = Window { from: 0, to: u64::MAX };
    let refusal = |fault, place| Refusal { fault, place };
    assert_eq!(cut(&octets, backward, &[]), Err(refusal(Fault::Window, 0)));
    let mut out = vec![7; whole - 1];
    assert_eq!(cut_into(&octets, all, &[], &mut out), Err(refusal(Fault::Room, 0)));
    assert!(out.iter().all(|octet| *octet == 7));

    octets.extend([0; 11]);
    let half = refusal(Fault::HeaderIncomplete, whole);
    assert_eq!(cut(&octets, all, &[]), Err(half));
    assert_eq!(check(&octets).refusal, Some(half));
    let found: Vec<_> = records(&octets).collect();
    assert_eq!(found.len() as u64, check(&octets).records + 1);
    assert_eq!(found.last().unwrap().as_ref().unwrap_err(), &half);
}
