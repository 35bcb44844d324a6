//! A whole dump: its records up to the first fault.

use crate::fault::{Fault, Flaw};
use crate::peer_table::TableInForce;
use crate::reader::Reader;
use crate::record::Record;
use crate::writer::Writer;

/// A record and where its header starts.
#[derive(Clone, Debug, PartialEq, Eq)]
pub struct Located {
    pub offset: usize,
    pub record: Record,
}

/// How the reading of a dump ended.
#[derive(Clone, Copy, Debug, PartialEq, Eq)]
pub struct End {
    pub fault: Option<Fault>,
    /// The first octet of the field that failed; the dump's length if none did.
    pub place: usize,
    /// Where the faulty record's header starts; the dump's length if there is none.
    pub record: usize,
    /// What the field that failed is called.
    pub field: Option<&'static str>,
}

impl End {
    fn good(size: usize) -> End {
        End { fault: None, place: size, record: size, field: None }
    }

    fn faulty(record: usize, Flaw { fault, spot }: Flaw) -> End {
        End { fault: Some(fault), place: spot.place, record, field: Some(spot.field) }
    }

    /// Zero when there is no fault.
    pub fn number(self) -> u8 {
        self.fault.map_or(0, Fault::number)
    }
}

#[derive(Clone, Debug, PartialEq, Eq)]
pub struct Dump {
    pub records: Vec<Located>,
    pub end: End,
}

impl Dump {
    pub fn read(octets: &[u8]) -> Dump {
        let mut walk = Walk::over(octets);
        let mut records = Vec::new();
        loop {
            let offset = walk.reader.come();
            match walk.step() {
                None => return Dump { records, end: End::good(offset) },
                Some(Ok(record)) => records.push(Located { offset, record }),
                Some(Err(flaw)) => return Dump { records, end: End::faulty(offset, flaw) },
            }
        }
    }

    /// The records laid out again, one after the other.
    pub fn to_octets(&self) -> Vec<u8> {
        write_all(self.records.iter().map(|located| &located.record))
    }
}

/// Lays out any run of records.
pub fn write_all<'a>(records: impl IntoIterator<Item = &'a Record>) -> Vec<u8> {
    let mut writer = Writer::new();
    for record in records {
        record.write(&mut writer);
    }
    writer.into_octets()
}

/// A place in a dump, and the peer table in force there.
struct Walk<'a> {
    reader: Reader<'a>,
    table: Option<TableInForce>,
}

impl<'a> Walk<'a> {
    fn over(octets: &'a [u8]) -> Self {
        Walk { reader: Reader::over(octets), table: None }
    }

    fn step(&mut self) -> Option<Result<Record, Flaw>> {
        if self.reader.is_empty() {
            return None;
        }
        let result = Record::read(&mut self.reader, self.table);
        if let Ok(record) = &result {
            self.table = record.as_table().or(self.table);
        }
        Some(result)
    }
}
