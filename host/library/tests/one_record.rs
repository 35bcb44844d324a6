//! One record through the safe functions: its fields against the second program's reading, and what
//! is read and written again, over the sample and the stored vectors.

use dagsumilat::{
    read, records, Fault, Fields, Message, PeerTable, Refusal, Rib, RibGeneric, Session,
    StateChange, TableDump, Time, Unread,
};
use second::bgp4mp::Event;
use second::dump::Dump;
use second::record::{Body, Record};
use std::fs;
use std::path::Path;

/// The sample and the vectors, with their names.
fn dumps() -> Vec<(String, Vec<u8>)> {
    let root = Path::new(env!("CARGO_MANIFEST_DIR")).join("../..");
    let mut paths = vec![root.join("sample/incident.mrt")];
    let vectors = fs::read_dir(root.join("crates/vectors/data")).unwrap();
    paths.extend(vectors.map(|entry| entry.unwrap().path()));
    let named = |path: &Path| path.file_name().unwrap().to_string_lossy().into_owned();
    paths.iter().map(|path| (named(path), fs::read(path).unwrap())).collect()
}

#[test]
fn what_is_read_and_written_again_is_the_same() {
    let mut kinds = [0; 7];
    for (name, dump) in dumps() {
        for record in records(&dump).map_while(Result::ok) {
            let (octets, fields) = (record.octets(), record.fields());
            kinds[kind(&fields)] += 1;
            let mut out = vec![7; octets.len() + 3];
            assert_eq!(fields.write(record.table(), &mut out), Ok(octets.len()), "{name}");
            assert_eq!(&out[..octets.len()], octets, "{name}");
            assert_eq!(out[octets.len()..], [7; 3], "{name}");

            let mut short = vec![7; octets.len() - 1];
            assert_eq!(fields.write(record.table(), &mut short), Err(Fault::Room), "{name}");
            assert!(short.iter().all(|octet| *octet == 7), "{name}");
        }
    }
    assert!(!kinds.contains(&0), "{kinds:?}");
}

fn kind(fields: &Fields) -> usize {
    match fields {
        Fields::Unread(_) => 0,
        Fields::TableDump(_) => 1,
        Fields::PeerTable(_) => 2,
        Fields::Rib(_) => 3,
        Fields::RibGeneric(_) => 4,
        Fields::StateChange(_) => 5,
        Fields::Message(_) => 6,
    }
}

#[test]
fn fields_are_those_of_the_second_program() {
    for (name, dump) in dumps() {
        let expected = Dump::read(&dump);
        let mut table = None;
        for located in &expected.records {
            let found = read(&dump[located.offset..], table).unwrap().unwrap();
            assert_eq!(found.size, 12 + located.record.length(), "{name}");
            assert_same(&found.fields, &located.record);
            table = located.record.as_table().map(|it| it.peers as u64).or(table);
        }
        let end = read(&dump[expected.end.record..], table).err();
        let found = end.map(|end| (end.fault.number(), expected.end.record + end.place));
        let wanted = expected.end.fault.map(|fault| (fault.number(), expected.end.place));
        assert_eq!(found, wanted, "{name}");
    }
}

fn assert_same(fields: &Fields, record: &Record) {
    match fields {
        Fields::Unread(it) => assert_unread(it, record),
        Fields::TableDump(it) => assert_table_dump(it, record),
        Fields::PeerTable(it) => assert_peer_table(it, record),
        Fields::Rib(it) => assert_rib(it, record),
        Fields::RibGeneric(it) => assert_rib_generic(it, record),
        Fields::StateChange(it) => assert_change(it, record),
        Fields::Message(it) => assert_message(it, record),
    }
}

fn assert_time(time: Time, record: &Record) {
    assert_eq!((time.timestamp, time.microseconds), (record.timestamp, record.microsecond));
}

fn assert_unread(it: &Unread, record: &Record) {
    let Body::Unread(contents) = &record.body else { panic!("{record:?}") };
    assert_time(it.time, record);
    assert_eq!((it.type_code, it.subtype), (record.kind.code, record.kind.subtype));
    assert_eq!(it.contents, contents);
}

fn assert_table_dump(it: &TableDump, record: &Record) {
    let Body::TableDump(route) = &record.body else { panic!("{record:?}") };
    assert_eq!((it.timestamp, it.subtype), (record.timestamp, record.kind.subtype));
    assert_eq!((it.view, it.sequence), (route.view, route.sequence));
    assert_eq!((it.prefix, it.prefix_length), (route.prefix.octets(), route.prefix_bits));
    assert_eq!((it.status, it.originated), (route.status, route.originated));
    assert_eq!(
        (it.peer_address, u32::from(it.peer_as)),
        (route.peer.octets(), route.peer_as.number())
    );
    assert_eq!(it.attributes, route.attributes.to_octets());
}

fn assert_peer_table(it: &PeerTable, record: &Record) {
    let Body::PeerTable(table) = &record.body else { panic!("{record:?}") };
    assert_eq!((it.timestamp, it.collector_id), (record.timestamp, table.collector));
    assert_eq!((it.name, usize::from(it.count)), (&table.view_name[..], table.peers.len()));
    assert_eq!(it.peers.len(), record.length() - 8 - it.name.len());
}

fn assert_rib(it: &Rib, record: &Record) {
    let Body::Rib(rib) = &record.body else { panic!("{record:?}") };
    assert!(rib.stated.is_none());
    assert_eq!((it.timestamp, it.subtype), (record.timestamp, record.kind.subtype));
    assert_eq!((it.sequence, it.prefix_length), (rib.sequence, rib.prefix.bits));
    assert_eq!((it.prefix, usize::from(it.count)), (&rib.prefix.octets[..], rib.entries.len()));
    assert_eq!(it.entries.len(), record.length() - 7 - it.prefix.len());
}

fn assert_rib_generic(it: &RibGeneric, record: &Record) {
    let Body::Rib(rib) = &record.body else { panic!("{record:?}") };
    let stated = rib.stated.as_ref().expect("a family");
    assert_eq!((it.family, it.safi), (stated.family.code(), stated.safi.code()));
    assert_eq!((it.timestamp, it.sequence), (record.timestamp, rib.sequence));
    assert_eq!((it.prefix_length, it.prefix), (rib.prefix.bits, &rib.prefix.octets[..]));
    assert_eq!(usize::from(it.count), rib.entries.len());
    assert_eq!(it.entries.len(), record.length() - 10 - it.prefix.len());
}

fn assert_session(it: &Session, record: &Record) -> Event {
    let Body::Bgp4mp(body) = &record.body else { panic!("{record:?}") };
    let session = &body.session;
    let numbers = (session.peer_as.number(), session.local_as.number());
    assert_eq!((it.peer_as, it.local_as), numbers);
    let (peer, local) = (session.ends.peer(), session.ends.local());
    assert_eq!((it.interface, it.family), (session.interface, peer.family().code()));
    assert_eq!((it.peer_address, it.local_address), (peer.octets(), local.octets()));
    body.event.clone()
}

fn assert_change(it: &StateChange, record: &Record) {
    assert_time(it.time, record);
    assert_eq!(it.subtype, record.kind.subtype);
    let Event::StateChange { old, new } = assert_session(&it.session, record) else {
        panic!("{record:?}")
    };
    assert_eq!((it.old, it.new), (old as u16, new as u16));
}

fn assert_message(it: &Message, record: &Record) {
    assert_time(it.time, record);
    assert_eq!(it.subtype, record.kind.subtype);
    let Event::Message(message) = assert_session(&it.session, record) else { panic!("{record:?}") };
    assert_eq!((&it.message[..16], it.message[18]), (&message.marker[..], message.code));
    assert_eq!(it.message[19..], message.rest);
}

/// A part lies in the caller's own octets, an empty one too.
#[test]
fn parts_lie_in_the_record() {
    for (name, dump) in dumps() {
        for record in records(&dump).map_while(Result::ok) {
            let octets = record.octets().as_ptr_range();
            for part in parts(&record.fields()) {
                let lies = part.as_ptr_range();
                assert!(octets.start < lies.start && lies.end <= octets.end, "{name}");
            }
        }
    }
}

fn parts<'a>(fields: &Fields<'a>) -> Vec<&'a [u8]> {
    match fields {
        Fields::Unread(it) => vec![it.contents],
        Fields::TableDump(it) => vec![it.prefix, it.peer_address, it.attributes],
        Fields::PeerTable(it) => vec![it.name, it.peers],
        Fields::Rib(it) => vec![it.prefix, it.entries],
        Fields::RibGeneric(it) => vec![it.prefix, it.entries],
        Fields::StateChange(it) => vec![it.session.peer_address, it.session.local_address],
        Fields::Message(it) => {
            vec![it.session.peer_address, it.session.local_address, it.message]
        }
    }
}

/// A record that no table goes before, and one whose table has fewer peers than it names.
#[test]
fn a_rib_record_needs_its_table() {
    let entry = [0, 1, 0, 0, 0, 0, 0, 0]; // of the second peer, without attributes
    let rib = Rib {
        timestamp: 1,
        subtype: 2,
        sequence: 0,
        prefix_length: 9,
        prefix: &[10, 128],
        count: 1,
        entries: &entry,
    };
    let mut out = [0; 29];
    assert_eq!(rib.write(None, &mut out), Err(Fault::NoTable));
    assert_eq!(rib.write(Some(1), &mut out), Err(Fault::PeerIndex));
    assert_eq!(out, [0; 29]);
    assert_eq!(rib.write(Some(2), &mut out), Ok(29));
    assert_eq!(rib.write(Some(u64::MAX), &mut out), Ok(29));

    let refusal = |fault, place| Err(Refusal { fault, place });
    assert_eq!(read(&out, None), refusal(Fault::NoTable, 6));
    assert_eq!(read(&out, Some(1)), refusal(Fault::PeerIndex, 21));
    let found = read(&out, Some(u64::MAX)).unwrap().unwrap();
    assert_eq!((found.fields, found.size), (Fields::Rib(rib), 29));
}
