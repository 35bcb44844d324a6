//! What the second program's writers are given, as the library's calls take it; and what was read,
//! as either takes it.

use dagsumilat::calls::{writers as calls, NONE};
use second::writers::{
    Change, Given, Message, PeerTable, Rib, RibGeneric, Routes, Session, TableDump, Time, Unread,
};

/// The most parts that a record has.
pub const PARTS: usize = 3;

/// The two numbers that a time has only in the calls.
#[derive(Clone, Copy, Debug)]
pub struct Flag {
    /// That there are microseconds: not 0.
    pub yes: u64,
    /// The microseconds where there are none.
    pub idle: u64,
}

impl Flag {
    pub const USUAL: Flag = Flag { yes: 1, idle: 0 };
}

/// The parts in the order of the calls; empty ones where there are fewer.
pub fn parts(given: &Given) -> [&[u8]; PARTS] {
    match given {
        Given::Unread(it) => [&it.contents, &[], &[]],
        Given::TableDump(it) => [&it.prefix, &it.address, &it.attributes],
        Given::PeerTable(it) => [&it.name, &it.peers, &[]],
        Given::Rib(it) => [&it.routes.prefix, &it.routes.entries, &[]],
        Given::RibGeneric(it) => [&it.routes.prefix, &it.routes.entries, &[]],
        Given::Change(it) => [&it.session.peer_address, &it.session.local_address, &[]],
        Given::Message(it) => [&it.session.peer_address, &it.session.local_address, &it.message],
    }
}

/// The same with other parts in their place, which are lent.
pub fn lent<'a>(given: &Given, parts: [&'a [u8]; PARTS], flag: Flag) -> calls::Given<'a> {
    let [first, second, third] = parts;
    match given {
        Given::Unread(it) => calls::Given::Unread(calls::Unread {
            time: time(it.time, flag),
            type_code: it.code,
            subtype: it.subtype,
            contents: first,
        }),
        Given::TableDump(it) => calls::Given::TableDump(calls::TableDump {
            timestamp: it.timestamp,
            subtype: it.subtype,
            view: it.view,
            sequence: it.sequence,
            prefix: first,
            prefix_length: it.bits,
            status: it.status,
            originated: it.originated,
            peer_address: second,
            peer_as: it.peer_as,
            attributes: third,
        }),
        Given::PeerTable(it) => calls::Given::PeerTable(calls::PeerTable {
            timestamp: it.timestamp,
            collector_id: it.collector,
            name: first,
            count: it.count,
            peers: second,
        }),
        Given::Rib(it) => calls::Given::Rib(calls::Rib {
            timestamp: it.timestamp,
            subtype: it.subtype,
            table: table(it.table),
            sequence: it.sequence,
            prefix_length: it.routes.bits,
            prefix: first,
            count: it.routes.count,
            entries: second,
        }),
        Given::RibGeneric(it) => calls::Given::RibGeneric(calls::RibGeneric {
            timestamp: it.timestamp,
            table: table(it.table),
            sequence: it.sequence,
            family: it.family,
            safi: it.safi,
            prefix_length: it.routes.bits,
            prefix: first,
            count: it.routes.count,
            entries: second,
        }),
        Given::Change(it) => calls::Given::StateChange(calls::StateChange {
            time: time(it.session.time, flag),
            subtype: it.session.subtype,
            session: session(&it.session, first, second),
            old_state: it.old,
            new_state: it.new,
        }),
        Given::Message(it) => calls::Given::Message(calls::Message {
            time: time(it.session.time, flag),
            subtype: it.session.subtype,
            session: session(&it.session, first, second),
            message: third,
        }),
    }
}

/// The calls have no word for a table of as many peers as a word can count; to an index of 16 bits
/// one fewer are as many.
fn table(peers: Option<u64>) -> u64 {
    peers.map_or(NONE, |peers| peers.min(NONE - 1))
}

fn time(time: Time, flag: Flag) -> calls::Time {
    match time {
        Time::Seconds(timestamp) => {
            calls::Time { timestamp, has_microseconds: 0, microseconds: flag.idle }
        }
        Time::Micro { seconds: timestamp, micro: microseconds } => {
            calls::Time { timestamp, has_microseconds: flag.yes, microseconds }
        }
    }
}

fn session<'a>(it: &Session, peer: &'a [u8], local: &'a [u8]) -> calls::Session<'a> {
    calls::Session {
        peer_as: it.peer_as,
        local_as: it.local_as,
        interface: it.interface,
        family: it.family,
        peer_address: peer,
        local_address: local,
    }
}

/// A good record's answer, and the octets and table that it is for.
pub struct Shown<'a> {
    pub octets: &'a [u8],
    pub table: u64,
    pub words: &'a [u64; 20],
}

impl Shown<'_> {
    /// What a writer is given to write it again.
    pub fn given(&self) -> Option<Given> {
        let words = self.words;
        match words[2] {
            1 => Some(Given::Unread(Unread {
                time: self.time(),
                code: words[4],
                subtype: words[5],
                contents: self.part(8),
            })),
            2 => Some(Given::TableDump(self.table_dump())),
            3 => Some(Given::PeerTable(PeerTable {
                timestamp: words[3],
                collector: words[8],
                name: self.part(9),
                count: words[11],
                peers: self.part(12),
            })),
            4 => Some(Given::Rib(Rib {
                timestamp: words[3],
                subtype: words[5],
                table: self.table(),
                sequence: words[8],
                routes: self.routes(),
            })),
            5 => Some(Given::RibGeneric(RibGeneric {
                timestamp: words[3],
                table: self.table(),
                sequence: words[8],
                family: words[15],
                safi: words[16],
                routes: self.routes(),
            })),
            6 => {
                let (old, new) = (words[16], words[17]);
                Some(Given::Change(Change { session: self.session(), old, new }))
            }
            7 => {
                let message = self.part(16);
                Some(Given::Message(Message { session: self.session(), message }))
            }
            _ => None,
        }
    }

    fn part(&self, word: usize) -> Vec<u8> {
        let [from, size] = [self.words[word] as usize, self.words[word + 1] as usize];
        self.octets[from..][..size].to_vec()
    }

    fn table(&self) -> Option<u64> {
        (self.table != NONE).then_some(self.table)
    }

    fn time(&self) -> Time {
        let (seconds, micro) = (self.words[3], self.words[7]);
        match self.words[4] {
            17 | 33 | 49 => Time::Micro { seconds, micro },
            _ => Time::Seconds(seconds),
        }
    }

    fn table_dump(&self) -> TableDump {
        let words = self.words;
        TableDump {
            timestamp: words[3],
            subtype: words[5],
            view: words[8],
            sequence: words[9],
            prefix: self.part(10),
            bits: words[12],
            status: words[13],
            originated: words[14],
            address: self.part(15),
            peer_as: words[17],
            attributes: self.part(18),
        }
    }

    fn routes(&self) -> Routes {
        let (bits, count) = (self.words[9], self.words[12]);
        Routes { bits, prefix: self.part(10), count, entries: self.part(13) }
    }

    fn session(&self) -> Session {
        let words = self.words;
        Session {
            time: self.time(),
            subtype: words[5],
            peer_as: words[8],
            local_as: words[9],
            interface: words[10],
            family: words[11],
            peer_address: self.part(12),
            local_address: self.part(14),
        }
    }
}
