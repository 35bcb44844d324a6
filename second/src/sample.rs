//! A made-up incident: five peers, their routes, and an outage at noon UTC on
//! 1 March 2026. All addresses and AS numbers are those kept for documents.

use crate::attributes::{Attribute, Attributes};
use crate::bgp4mp::{Bgp4mp, BgpMessage, Ends, Event, Session, State};
use crate::dump::write_all;
use crate::layout::Kind;
use crate::net::{Address, AsNumber, AsWidth, Family, Prefix, Safi};
use crate::peer_table::{Peer, PeerTable};
use crate::record::{Body, Record};
use crate::rib::{Entry, Rib, StatedFamily};
use crate::writer::Writer;

const NOON: u32 = 1_772_366_400;
const COLLECTOR_AS: u16 = 64_511;
const COLLECTOR_V4: [u8; 4] = [192, 0, 2, 254];
const COLLECTOR_V6: [u8; 16] = v6_host(0xfe);

/// Written where an AS number needs more than the two octets there are.
const STAND_IN_AS: u16 = 23_456;

/// The peer whose session fails.
const CULPRIT: usize = 2;

const OPEN: u8 = 1;
const UPDATE: u8 = 2;
const NOTIFICATION: u8 = 3;
const KEEPALIVE: u8 = 4;

/// The octets of the sample dump.
pub fn octets() -> Vec<u8> {
    write_all(&records())
}

pub fn records() -> Vec<Record> {
    let mut story = Story::new();
    story.tables();
    story.calm();
    story.outage();
    story.session_lost();
    story.recovery();
    story.records
}

const fn v6_host(last: u8) -> [u8; 16] {
    [0x20, 0x01, 0x0d, 0xb8, 0, 0, 0, 1, 0, 0, 0, 0, 0, 0, 0, last]
}

fn peers() -> Vec<Peer> {
    let peer = |last, address, asn| Peer {
        other_bits: 0,
        bgp_id: u32::from_be_bytes([192, 0, 2, last]),
        address,
        asn,
    };
    vec![
        peer(1, Address::V4([192, 0, 2, 1]), AsNumber::Two(64_496)),
        peer(2, Address::V4([192, 0, 2, 2]), AsNumber::Two(64_499)),
        peer(3, Address::V4([198, 51, 100, 7]), AsNumber::Four(65_536)),
        peer(4, Address::V6(v6_host(4)), AsNumber::Four(65_541)),
        peer(5, Address::V6(v6_host(5)), AsNumber::Two(64_505)),
    ]
}

fn v4(octets: &[u8], bits: u8) -> Prefix {
    Prefix { bits, octets: octets.to_vec() }
}

/// 2001:db8::/32 with a third group behind it.
fn v6(group: u16, bits: u8) -> Prefix {
    let [high, low] = group.to_be_bytes();
    let octets = [0x20, 0x01, 0x0d, 0xb8, high, low];
    Prefix { bits, octets: octets[..usize::from(bits).div_ceil(8)].to_vec() }
}

fn attribute(flags: u8, code: u8, value: Vec<u8>) -> Attribute {
    Attribute { flags, code, value }
}

/// ORIGIN, AS_PATH and the way to name a next hop that the caller chose.
fn path(width: AsWidth, numbers: &[u32], next_hop: Attribute) -> Attributes {
    let origin = attribute(0x40, 1, vec![0]);
    Attributes(vec![origin, attribute(0x40, 2, sequence(width, numbers)), next_hop])
}

fn sequence(width: AsWidth, numbers: &[u32]) -> Vec<u8> {
    let mut writer = Writer::new();
    writer.u8(2);
    writer.size8(numbers.len());
    for number in numbers {
        match width {
            AsWidth::Two => writer.u16(u16::try_from(*number).unwrap_or(STAND_IN_AS)),
            AsWidth::Four => writer.u32(*number),
        }
    }
    writer.into_octets()
}

fn next_hop(address: [u8; 4]) -> Attribute {
    attribute(0x40, 3, address.to_vec())
}

/// MP_REACH_NLRI as a RIB entry holds it: only the next hop.
fn short_reach(address: [u8; 16]) -> Attribute {
    attribute(0x80, 14, [&[16], &address[..]].concat())
}

/// MP_REACH_NLRI as an UPDATE holds it.
fn full_reach(address: [u8; 16], prefix: &Prefix) -> Attribute {
    let mut writer = Writer::new();
    writer.u16(2);
    writer.u8(1);
    writer.u8(16);
    writer.octets(&address);
    writer.u8(0);
    prefix.write(&mut writer);
    attribute(0x80, 14, writer.into_octets())
}

fn unreach(prefix: &Prefix) -> Attributes {
    let mut writer = Writer::new();
    writer.u16(2);
    writer.u8(1);
    prefix.write(&mut writer);
    Attributes(vec![attribute(0x80, 15, writer.into_octets())])
}

/// The body of an UPDATE.
fn update(withdrawn: &[Prefix], attributes: &Attributes, announced: &[Prefix]) -> Vec<u8> {
    let mut lost = Writer::new();
    withdrawn.iter().for_each(|prefix| prefix.write(&mut lost));
    let lost = lost.into_octets();
    let mut writer = Writer::new();
    writer.size16(lost.len());
    writer.octets(&lost);
    attributes.write(&mut writer);
    announced.iter().for_each(|prefix| prefix.write(&mut writer));
    writer.into_octets()
}

/// The body of an OPEN without options.
fn open(asn: u16, bgp_id: [u8; 4]) -> Vec<u8> {
    let mut writer = Writer::new();
    writer.u8(4);
    writer.u16(asn);
    writer.u16(180);
    writer.octets(&bgp_id);
    writer.u8(0);
    writer.into_octets()
}

/// Seconds from noon, and microseconds where the collector kept them.
#[derive(Clone, Copy)]
struct Moment(i32, Option<u32>);

impl Moment {
    fn timestamp(self) -> u32 {
        NOON.wrapping_add_signed(self.0)
    }

    fn type_code(self) -> u16 {
        match self.1 {
            None => 16,
            Some(_) => 17,
        }
    }
}

fn seconds(seconds: i32) -> Moment {
    Moment(seconds, None)
}

fn exact(seconds: i32, micros: u32) -> Moment {
    Moment(seconds, Some(micros))
}

struct Story {
    peers: Vec<Peer>,
    records: Vec<Record>,
}

impl Story {
    fn new() -> Story {
        Story { peers: peers(), records: Vec::new() }
    }

    fn tables(&mut self) {
        let table = PeerTable {
            collector: u32::from_be_bytes(COLLECTOR_V4),
            view_name: b"noon".to_vec(),
            peers: self.peers.clone(),
        };
        self.table_record(1, Body::PeerTable(table));
        self.rib(2, None, v4(&[203, 0, 113], 24), &[(0, &[64_500]), (1, &[65_536]), (2, &[])]);
        self.rib(2, None, v4(&[203, 0, 113, 128], 25), &[(2, &[65_550])]);
        self.rib(2, None, v4(&[198, 51, 100], 24), &[(0, &[64_502, 64_501]), (1, &[64_501])]);
        self.rib(2, None, v4(&[192, 0, 2], 24), &[(0, &[]), (2, &[64_496])]);
        self.rib(3, None, v4(&[198, 51, 100, 64], 26), &[(1, &[64_503])]);
        self.rib(4, None, v6(0x0100, 40), &[(3, &[65_536]), (4, &[65_541, 65_536])]);
        self.rib(4, None, v6(0x0200, 48), &[(4, &[64_506])]);
        let stated = StatedFamily { family: Family::V6, safi: Safi::Multicast };
        self.rib(6, Some(stated), v6(0x0300, 48), &[(3, &[65_542])]);
    }

    fn table_record(&mut self, subtype: u16, body: Body) {
        let kind = Kind::new(13, subtype);
        self.records.push(Record { timestamp: NOON - 300, kind, microsecond: None, body });
    }

    /// Each route is a peer and what follows that peer's own AS in its path.
    fn rib(
        &mut self,
        subtype: u16,
        stated: Option<StatedFamily>,
        prefix: Prefix,
        routes: &[(usize, &[u32])],
    ) {
        let sequence = self.records.len() as u32 - 1;
        let entries = routes.iter().map(|(peer, behind)| self.entry(*peer, behind)).collect();
        self.table_record(subtype, Body::Rib(Rib { sequence, stated, prefix, entries }));
    }

    fn entry(&self, peer: usize, behind: &[u32]) -> Entry {
        let next = match self.peers[peer].address {
            Address::V4(address) => next_hop(address),
            Address::V6(address) => short_reach(address),
        };
        Entry {
            peer_index: peer as u16,
            originated: NOON - 86_400 + 60 * peer as u32,
            attributes: path(AsWidth::Four, &self.numbers(peer, behind), next),
        }
    }

    fn numbers(&self, peer: usize, behind: &[u32]) -> Vec<u32> {
        [&[self.peers[peer].asn.number()], behind].concat()
    }

    /// A quiet minute before noon.
    fn calm(&mut self) {
        for (peer, micros) in [(0, 120_431), (3, 733_902), (4, 901_118)] {
            self.heard(exact(-60, micros), peer, KEEPALIVE, Vec::new());
        }
        self.heard(seconds(-58), 1, KEEPALIVE, Vec::new());
        self.heard(exact(-55, 4_017), CULPRIT, KEEPALIVE, Vec::new());
        self.announce(exact(-41, 650_220), 0, v4(&[198, 51, 100], 24), &[64_501]);
        self.announce(exact(-12, 81_774), 3, v6(0x0200, 48), &[64_505, 64_506]);
    }

    /// The withdrawal that starts it, and the search for other paths.
    fn outage(&mut self) {
        self.withdraw(exact(0, 11_000), CULPRIT, v4(&[203, 0, 113], 24));
        self.withdraw(exact(0, 11_486), CULPRIT, v4(&[203, 0, 113, 128], 25));
        self.announce(exact(0, 262_907), 0, v4(&[203, 0, 113], 24), &[64_499, 65_536]);
        self.announce(seconds(0), 1, v4(&[203, 0, 113], 24), &[64_496, 64_500, 65_536]);
        self.withdraw(exact(0, 871_300), 3, v6(0x0100, 40));
        // Collectors do write more than a second of microseconds.
        self.withdraw(exact(0, 1_250_000), 4, v6(0x0100, 40));
        self.announce(exact(1, 503_664), 0, v4(&[203, 0, 113], 24), &[64_500, 64_499, 65_536]);
        self.withdraw(exact(1, 998_001), 0, v4(&[203, 0, 113], 24));
        self.withdraw(seconds(2), 1, v4(&[203, 0, 113], 24));
    }

    fn session_lost(&mut self) {
        self.heard(exact(2, 400_020), CULPRIT, NOTIFICATION, vec![6, 2]);
        self.changed(exact(2, 400_071), CULPRIT, State::Established, State::Idle);
        self.changed(exact(32, 400_310), CULPRIT, State::Idle, State::Connect);
        self.heard(seconds(60), 1, KEEPALIVE, Vec::new());
        self.changed(exact(62, 401_002), CULPRIT, State::Connect, State::Active);
        self.changed(seconds(95), 1, State::Established, State::Idle);
        self.changed(seconds(96), 1, State::Idle, State::Connect);
        self.changed(seconds(97), 1, State::Connect, State::OpenSent);
        self.changed(seconds(98), 1, State::OpenSent, State::OpenConfirm);
        self.changed(seconds(98), 1, State::OpenConfirm, State::Established);
        self.heard(exact(110, 77), 0, KEEPALIVE, Vec::new());
    }

    fn recovery(&mut self) {
        let ours = open(COLLECTOR_AS, COLLECTOR_V4);
        let theirs = open(STAND_IN_AS, [192, 0, 2, 3]);
        self.changed(exact(180, 5), CULPRIT, State::Active, State::OpenSent);
        self.sent(exact(180, 19), CULPRIT, OPEN, ours);
        self.heard(exact(180, 44_950), CULPRIT, OPEN, theirs);
        self.changed(exact(180, 44_981), CULPRIT, State::OpenSent, State::OpenConfirm);
        self.sent(exact(180, 45_002), CULPRIT, KEEPALIVE, Vec::new());
        self.heard(exact(180, 90_333), CULPRIT, KEEPALIVE, Vec::new());
        self.changed(exact(180, 90_340), CULPRIT, State::OpenConfirm, State::Established);
        self.announce(exact(180, 612_408), CULPRIT, v4(&[203, 0, 113], 24), &[]);
        self.announce(exact(180, 612_951), CULPRIT, v4(&[203, 0, 113, 128], 25), &[65_550]);
        self.announce(exact(181, 20_110), 0, v4(&[203, 0, 113], 24), &[64_500]);
        self.announce(seconds(181), 1, v4(&[203, 0, 113], 24), &[65_536]);
        self.announce(exact(181, 340_999), 3, v6(0x0100, 40), &[65_536]);
        self.announce(exact(182, 7), 4, v6(0x0100, 40), &[65_541, 65_536]);
    }

    fn announce(&mut self, at: Moment, peer: usize, prefix: Prefix, behind: &[u32]) {
        let width = self.peers[peer].asn.width();
        let numbers = self.numbers(peer, behind);
        let body = match self.peers[peer].address {
            Address::V4(address) => {
                update(&[], &path(width, &numbers, next_hop(address)), &[prefix])
            }
            Address::V6(address) => {
                update(&[], &path(width, &numbers, full_reach(address, &prefix)), &[])
            }
        };
        self.heard(at, peer, UPDATE, body);
    }

    fn withdraw(&mut self, at: Moment, peer: usize, prefix: Prefix) {
        let body = match self.peers[peer].address.family() {
            Family::V4 => update(&[prefix], &Attributes::default(), &[]),
            Family::V6 => update(&[], &unreach(&prefix), &[]),
        };
        self.heard(at, peer, UPDATE, body);
    }

    fn heard(&mut self, at: Moment, peer: usize, code: u8, rest: Vec<u8>) {
        self.event(at, peer, (1, 4), message(code, rest));
    }

    fn sent(&mut self, at: Moment, peer: usize, code: u8, rest: Vec<u8>) {
        self.event(at, peer, (6, 7), message(code, rest));
    }

    fn changed(&mut self, at: Moment, peer: usize, old: State, new: State) {
        self.event(at, peer, (0, 5), Event::StateChange { old, new });
    }

    /// `subtypes` are those for AS numbers of two and of four octets.
    fn event(&mut self, at: Moment, peer: usize, subtypes: (u16, u16), event: Event) {
        let session = self.session(peer);
        let subtype = match session.peer_as.width() {
            AsWidth::Two => subtypes.0,
            AsWidth::Four => subtypes.1,
        };
        self.records.push(Record {
            timestamp: at.timestamp(),
            kind: Kind::new(at.type_code(), subtype),
            microsecond: at.1,
            body: Body::Bgp4mp(Bgp4mp { session, event }),
        });
    }

    fn session(&self, peer: usize) -> Session {
        let Peer { address, asn, .. } = self.peers[peer];
        let local_as = match asn.width() {
            AsWidth::Two => AsNumber::Two(COLLECTOR_AS),
            AsWidth::Four => AsNumber::Four(COLLECTOR_AS.into()),
        };
        let ends = match address {
            Address::V4(peer) => Ends::V4 { peer, local: COLLECTOR_V4 },
            Address::V6(peer) => Ends::V6 { peer, local: COLLECTOR_V6 },
        };
        Session { peer_as: asn, local_as, interface: 0, ends }
    }
}

fn message(code: u8, rest: Vec<u8>) -> Event {
    Event::Message(BgpMessage { marker: [0xff; 16], code, rest })
}
