//! The made-up calls of the writers against what their makers meant, and their
//! files.

use second::cut_cases::text;
use second::write_cases::Book;
use second::writers::{
    Change, Given, Message, PeerTable, Rib, RibGeneric, Routes, Session, TableDump, Time, Unread,
};
use std::collections::BTreeSet;

#[test]
fn writers_answer_as_meant() {
    for (name, case) in Book::generate().iter() {
        assert_eq!(case.answer(), case.intent, "{name}");
    }
}

#[test]
fn every_number_is_meant_somewhere() {
    let book = Book::generate();
    let faults: BTreeSet<u8> = book.iter().map(|(_, case)| case.intent.fault).collect();
    assert!(faults.into_iter().eq([0, 3, 4, 5, 6, 7, 8, 9, 10, 11, 12, 13, 15, 17]));
}

#[test]
fn sizes_are_as_wanted() {
    let book = Book::generate();
    let sizes: Vec<usize> = book.iter().map(|(_, case)| case.to_octets().len()).collect();
    assert!(sizes.len() >= 600);
    assert!(sizes.iter().sum::<usize>() < 900_000);
    assert!(sizes.iter().all(|size| *size <= 131_072));
    assert!(book.iter().all(|(_, case)| case.room <= 131_072));
    assert!(book.iter().all(|(_, case)| case.intent.octets.len() <= 65_536));
    assert!(book.stdout().len() < 300_000);
}

#[test]
fn names_are_plain() {
    let plain = |octet: u8| octet.is_ascii_lowercase() || octet.is_ascii_digit() || octet == b'-';
    assert!(Book::generate().iter().all(|(name, _)| name.bytes().all(plain)));
}

/// A file taken apart as another program would.
struct File<'a>(&'a [u8]);

impl File<'_> {
    fn sum(&self, at: usize, size: usize) -> u64 {
        let octets = &self.0[at..at + size];
        octets.iter().fold(0, |number, octet| number << 8 | u64::from(*octet))
    }

    fn number(&self, index: usize) -> u64 {
        self.sum(5 + 8 * index, 8)
    }

    fn size(&self, index: usize) -> usize {
        self.sum(85 + 4 * index, 4) as usize
    }

    fn part(&self, index: usize) -> Vec<u8> {
        let start = 97 + (0..index).map(|before| self.size(before)).sum::<usize>();
        self.0[start..start + self.size(index)].to_vec()
    }

    fn time(&self) -> Time {
        match self.number(0) {
            0 => Time::Seconds(self.number(1)),
            _ => Time::Micro { seconds: self.number(1), micro: self.number(2) },
        }
    }

    fn table(&self, index: usize) -> Option<u64> {
        (self.number(index) != 0).then(|| self.number(index + 1))
    }

    fn routes(&self, index: usize) -> Routes {
        let (bits, count) = (self.number(index), self.number(index + 1));
        Routes { bits, prefix: self.part(0), count, entries: self.part(1) }
    }

    fn session(&self) -> Session {
        Session {
            time: self.time(),
            subtype: self.number(3),
            peer_as: self.number(4),
            local_as: self.number(5),
            interface: self.number(6),
            family: self.number(7),
            peer_address: self.part(0),
            local_address: self.part(1),
        }
    }

    fn old_route(&self) -> TableDump {
        TableDump {
            timestamp: self.number(0),
            subtype: self.number(1),
            view: self.number(2),
            sequence: self.number(3),
            prefix: self.part(0),
            bits: self.number(4),
            status: self.number(5),
            originated: self.number(6),
            address: self.part(1),
            peer_as: self.number(7),
            attributes: self.part(2),
        }
    }

    fn peer_table(&self) -> PeerTable {
        PeerTable {
            timestamp: self.number(0),
            collector: self.number(1),
            name: self.part(0),
            count: self.number(2),
            peers: self.part(1),
        }
    }

    fn given(&self) -> Given {
        match self.0[0] {
            0 => Given::Unread(Unread {
                time: self.time(),
                code: self.number(3),
                subtype: self.number(4),
                contents: self.part(0),
            }),
            1 => Given::TableDump(self.old_route()),
            2 => Given::PeerTable(self.peer_table()),
            3 => Given::Rib(Rib {
                timestamp: self.number(0),
                subtype: self.number(1),
                table: self.table(2),
                sequence: self.number(4),
                routes: self.routes(5),
            }),
            4 => Given::RibGeneric(RibGeneric {
                timestamp: self.number(0),
                table: self.table(1),
                sequence: self.number(3),
                family: self.number(4),
                safi: self.number(5),
                routes: self.routes(6),
            }),
            5 => Given::Change(Change {
                session: self.session(),
                old: self.number(8),
                new: self.number(9),
            }),
            _ => Given::Message(Message { session: self.session(), message: self.part(2) }),
        }
    }
}

#[test]
fn files_say_the_cases() {
    let book = Book::generate();
    let mut all = String::new();
    for (name, case) in book.iter() {
        let octets = case.to_octets();
        let file = File(&octets);
        let given = file.given();
        assert_eq!(given, case.given, "{name}");
        all.push_str(&text(name, &given.write(file.sum(1, 4) as usize)));
    }
    assert_eq!(all, book.stdout());
    assert_eq!(all, Book::generate().stdout());
}

/// The lines of a case, typed in.
fn assert_text(name: &str, lines: &str) {
    let book = Book::generate();
    assert_eq!(text(name, &book.get(name).answer()), format!("{name}\n{lines}rest=ok\n"));
}

#[test]
fn texts() {
    assert_text("name-65536-and-no-peers", "fault=6 place=0 octets=0\n");
    assert_text("name-65535-no-room", "fault=15 place=0 octets=0\n");
    assert_text(
        "change-0-v4-old-state-1-good",
        "fault=0 place=0 octets=32\n\
         4d83af340010000000000014fbf0fbf100070001c0000255c000020400010004\n",
    );
}
