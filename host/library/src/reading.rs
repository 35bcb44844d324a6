//! One record read from octets that start with its header.

use crate::fault::Refusal;
use crate::fields::{
    Fields, Message, PeerTable, Rib, RibGeneric, Session, StateChange, TableDump, Time, Unread,
};
use crate::{answered, calls, table_word};

/// A good record.
#[derive(Clone, Copy, Debug, PartialEq, Eq, Hash)]
pub struct Read<'a> {
    pub fields: Fields<'a>,
    /// The octets of header and message: what stands behind them is not the record's.
    pub size: usize,
}

/// Reads the record that these octets start with; none if there are no octets.
///
/// `table` is the table in force before it: how many peers it has, none if there is no table yet.
/// It matters for RIB records only. The place of a fault counts from the record's header.
///
/// ```
/// use dagsumilat::{read, Fault, Fields};
///
/// // A state change of AS 64500 at second 1: from Active to OpenSent.
/// let mut octets = vec![0, 0, 0, 1, 0, 16, 0, 0, 0, 0, 0, 20];
/// octets.extend([0xfb, 0xf4, 0xfb, 0xff, 0, 0, 0, 1, 192, 0, 2, 1, 192, 0, 2, 254, 0, 3, 0, 4]);
///
/// let found = read(&octets, None).unwrap().unwrap();
/// assert_eq!(found.size, octets.len());
/// let Fields::StateChange(change) = found.fields else { panic!() };
/// assert_eq!((change.session.peer_as, change.old, change.new), (64500, 3, 4));
/// assert_eq!(change.session.peer_address, [192, 0, 2, 1]);
///
/// octets[31] = 7;
/// let refusal = read(&octets, None).unwrap_err();
/// assert_eq!((refusal.fault, refusal.place), (Fault::State, 30));
/// assert_eq!(read(&[], None), Ok(None));
/// ```
pub fn read(octets: &[u8], table: Option<u64>) -> Result<Option<Read<'_>>, Refusal> {
    let answer = answered(|answer| calls::read(octets, table_word(table), answer));
    if let Some(refusal) = Refusal::of_answer(answer[0], answer[1]) {
        return Err(refusal);
    }
    let words = Words { octets, answer };
    Ok(words.fields().map(|fields| Read { fields, size: answer[1] as usize }))
}

/// The answer for these octets, with no fault. Every number goes into its field of the record, and
/// every part lies in the octets.
struct Words<'a> {
    octets: &'a [u8],
    answer: [u64; 20],
}

impl<'a> Words<'a> {
    fn fields(&self) -> Option<Fields<'a>> {
        match self.answer[2] {
            1 => Some(Fields::Unread(self.unread())),
            2 => Some(Fields::TableDump(self.table_dump())),
            3 => Some(Fields::PeerTable(self.peer_table())),
            4 => Some(Fields::Rib(self.rib())),
            5 => Some(Fields::RibGeneric(self.rib_generic())),
            6 => Some(Fields::StateChange(self.state_change())),
            7 => Some(Fields::Message(self.message())),
            _ => None,
        }
    }

    fn u8(&self, word: usize) -> u8 {
        self.answer[word] as u8
    }

    fn u16(&self, word: usize) -> u16 {
        self.answer[word] as u16
    }

    fn u32(&self, word: usize) -> u32 {
        self.answer[word] as u32
    }

    /// The part that this word and the next one tell.
    fn part(&self, word: usize) -> &'a [u8] {
        let [from, size] = [self.answer[word] as usize, self.answer[word + 1] as usize];
        &self.octets[from..][..size]
    }

    fn time(&self) -> Time {
        let has_more = matches!(self.answer[4], 17 | 33 | 49);
        Time { timestamp: self.u32(3), microseconds: has_more.then_some(self.u32(7)) }
    }

    fn unread(&self) -> Unread<'a> {
        Unread {
            time: self.time(),
            type_code: self.u16(4),
            subtype: self.u16(5),
            contents: self.part(8),
        }
    }

    fn table_dump(&self) -> TableDump<'a> {
        TableDump {
            timestamp: self.u32(3),
            subtype: self.u16(5),
            view: self.u16(8),
            sequence: self.u16(9),
            prefix: self.part(10),
            prefix_length: self.u8(12),
            status: self.u8(13),
            originated: self.u32(14),
            peer_address: self.part(15),
            peer_as: self.u16(17),
            attributes: self.part(18),
        }
    }

    fn peer_table(&self) -> PeerTable<'a> {
        PeerTable {
            timestamp: self.u32(3),
            collector_id: self.u32(8),
            name: self.part(9),
            count: self.u16(11),
            peers: self.part(12),
        }
    }

    fn rib(&self) -> Rib<'a> {
        Rib {
            timestamp: self.u32(3),
            subtype: self.u16(5),
            sequence: self.u32(8),
            prefix_length: self.u8(9),
            prefix: self.part(10),
            count: self.u16(12),
            entries: self.part(13),
        }
    }

    fn rib_generic(&self) -> RibGeneric<'a> {
        RibGeneric {
            timestamp: self.u32(3),
            sequence: self.u32(8),
            prefix_length: self.u8(9),
            prefix: self.part(10),
            count: self.u16(12),
            entries: self.part(13),
            family: self.u16(15),
            safi: self.u8(16),
        }
    }

    fn session(&self) -> Session<'a> {
        Session {
            peer_as: self.u32(8),
            local_as: self.u32(9),
            interface: self.u16(10),
            family: self.u16(11),
            peer_address: self.part(12),
            local_address: self.part(14),
        }
    }

    fn state_change(&self) -> StateChange<'a> {
        StateChange {
            time: self.time(),
            subtype: self.u16(5),
            session: self.session(),
            old: self.u16(16),
            new: self.u16(17),
        }
    }

    fn message(&self) -> Message<'a> {
        Message {
            time: self.time(),
            subtype: self.u16(5),
            session: self.session(),
            message: self.part(16),
        }
    }
}
