//! One record written from its fields.

use crate::calls::writers;
use crate::fault::Fault;
use crate::fields::{
    Fields, Message, PeerTable, Rib, RibGeneric, Session, StateChange, TableDump, Time, Unread,
};
use crate::{answered, table_word};

/// The answer of a writer that is lent a place for it.
fn written(call: impl FnOnce(&mut [u64; 2])) -> Result<usize, Fault> {
    let [number, size] = answered(call);
    match Fault::of_answer(number) {
        Some(fault) => Err(fault),
        None => Ok(size as usize),
    }
}

impl Time {
    fn words(self) -> writers::Time {
        writers::Time {
            timestamp: self.timestamp.into(),
            has_microseconds: self.microseconds.is_some().into(),
            microseconds: self.microseconds.unwrap_or(0).into(),
        }
    }
}

impl<'a> Session<'a> {
    fn words(self) -> writers::Session<'a> {
        writers::Session {
            peer_as: self.peer_as.into(),
            local_as: self.local_as.into(),
            interface: self.interface.into(),
            family: self.family.into(),
            peer_address: self.peer_address,
            local_address: self.local_address,
        }
    }
}

impl Fields<'_> {
    /// Writes the record; answers how many octets it wrote, from `out[0]` on. `table` is the table
    /// in force before it, as for [`crate::read`].
    ///
    /// Refused is what reading the record would refuse, by the first fault in the order of the
    /// fields. A part too short for its field is [`Fault::FieldIncomplete`], a part too long or an
    /// AS number too large for it [`Fault::OctetsLeft`]; a Subtype of another kind is
    /// [`Fault::Subtype`]. Last comes [`Fault::Room`]. When refused, `out` is as it was.
    ///
    /// ```
    /// use dagsumilat::{read, records};
    ///
    /// let dump = [0, 0, 0, 9, 0, 11, 0, 0, 0, 0, 0, 1, 77]; // one unread record
    /// let mut out = [0; 13];
    /// for record in records(&dump) {
    ///     let record = record.unwrap();
    ///     assert_eq!(record.fields().write(record.table(), &mut out), Ok(13));
    ///     assert_eq!(out, record.octets());
    /// }
    /// ```
    pub fn write(&self, table: Option<u64>, out: &mut [u8]) -> Result<usize, Fault> {
        match self {
            Fields::Unread(fields) => fields.write(out),
            Fields::TableDump(fields) => fields.write(out),
            Fields::PeerTable(fields) => fields.write(out),
            Fields::Rib(fields) => fields.write(table, out),
            Fields::RibGeneric(fields) => fields.write(table, out),
            Fields::StateChange(fields) => fields.write(out),
            Fields::Message(fields) => fields.write(out),
        }
    }
}

impl Unread<'_> {
    /// Writes the record: see [`Fields::write`]. A Type that is read, or that does not go with
    /// having microseconds or none, is [`Fault::Type`].
    pub fn write(&self, out: &mut [u8]) -> Result<usize, Fault> {
        let given = writers::Unread {
            time: self.time.words(),
            type_code: self.type_code.into(),
            subtype: self.subtype.into(),
            contents: self.contents,
        };
        written(|answer| given.write(out, answer))
    }
}

impl TableDump<'_> {
    /// Writes the record: see [`Fields::write`].
    pub fn write(&self, out: &mut [u8]) -> Result<usize, Fault> {
        let given = writers::TableDump {
            timestamp: self.timestamp.into(),
            subtype: self.subtype.into(),
            view: self.view.into(),
            sequence: self.sequence.into(),
            prefix: self.prefix,
            prefix_length: self.prefix_length.into(),
            status: self.status.into(),
            originated: self.originated.into(),
            peer_address: self.peer_address,
            peer_as: self.peer_as.into(),
            attributes: self.attributes,
        };
        written(|answer| given.write(out, answer))
    }
}

impl PeerTable<'_> {
    /// Writes the record: see [`Fields::write`]. A name of more than 65,535 octets is
    /// [`Fault::OctetsLeft`], then one that is not UTF-8 text [`Fault::ViewName`].
    ///
    /// ```
    /// use dagsumilat::{Fault, PeerTable};
    ///
    /// let name = "Zürich".as_bytes();
    /// let table = PeerTable { timestamp: 1, collector_id: 9, name, count: 0, peers: &[] };
    /// let mut out = [0; 27];
    /// assert_eq!(table.write(&mut out), Ok(27));
    ///
    /// let latin = PeerTable { name: b"Z\xfcrich", ..table };
    /// assert_eq!(latin.write(&mut out), Err(Fault::ViewName));
    /// ```
    pub fn write(&self, out: &mut [u8]) -> Result<usize, Fault> {
        let given = writers::PeerTable {
            timestamp: self.timestamp.into(),
            collector_id: self.collector_id.into(),
            name: self.name,
            count: self.count.into(),
            peers: self.peers,
        };
        written(|answer| given.write(out, answer))
    }
}

impl Rib<'_> {
    /// Writes the record: see [`Fields::write`].
    pub fn write(&self, table: Option<u64>, out: &mut [u8]) -> Result<usize, Fault> {
        let given = writers::Rib {
            timestamp: self.timestamp.into(),
            subtype: self.subtype.into(),
            table: table_word(table),
            sequence: self.sequence.into(),
            prefix_length: self.prefix_length.into(),
            prefix: self.prefix,
            count: self.count.into(),
            entries: self.entries,
        };
        written(|answer| given.write(out, answer))
    }
}

impl RibGeneric<'_> {
    /// Writes the record: see [`Fields::write`].
    pub fn write(&self, table: Option<u64>, out: &mut [u8]) -> Result<usize, Fault> {
        let given = writers::RibGeneric {
            timestamp: self.timestamp.into(),
            table: table_word(table),
            sequence: self.sequence.into(),
            family: self.family.into(),
            safi: self.safi.into(),
            prefix_length: self.prefix_length.into(),
            prefix: self.prefix,
            count: self.count.into(),
            entries: self.entries,
        };
        written(|answer| given.write(out, answer))
    }
}

impl StateChange<'_> {
    /// Writes the record: see [`Fields::write`].
    ///
    /// ```
    /// use dagsumilat::{Fault, Session, StateChange, Time};
    ///
    /// let session = Session {
    ///     peer_as: 64500,
    ///     local_as: 64511,
    ///     interface: 0,
    ///     family: 1,
    ///     peer_address: &[192, 0, 2, 1],
    ///     local_address: &[192, 0, 2, 254],
    /// };
    /// let time = Time { timestamp: 1, microseconds: None };
    /// let change = StateChange { time, subtype: 0, session, old: 3, new: 4 };
    /// let mut out = [0; 32];
    /// assert_eq!(change.write(&mut out), Ok(32));
    /// assert_eq!(out[..12], [0, 0, 0, 1, 0, 16, 0, 0, 0, 0, 0, 20]);
    ///
    /// let unknown = StateChange { new: 7, ..change };
    /// assert_eq!(unknown.write(&mut out), Err(Fault::State));
    /// let wide = Session { peer_as: 65_536, ..session }; // Subtype 0 has two octets for it
    /// assert_eq!(StateChange { session: wide, ..change }.write(&mut out), Err(Fault::OctetsLeft));
    /// ```
    pub fn write(&self, out: &mut [u8]) -> Result<usize, Fault> {
        let given = writers::StateChange {
            time: self.time.words(),
            subtype: self.subtype.into(),
            session: self.session.words(),
            old_state: self.old.into(),
            new_state: self.new.into(),
        };
        written(|answer| given.write(out, answer))
    }
}

impl Message<'_> {
    /// Writes the record: see [`Fields::write`].
    pub fn write(&self, out: &mut [u8]) -> Result<usize, Fault> {
        let given = writers::Message {
            time: self.time.words(),
            subtype: self.subtype.into(),
            session: self.session.words(),
            message: self.message,
        };
        written(|answer| given.write(out, answer))
    }
}
