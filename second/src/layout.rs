//! Which layout a record's type and subtype call for.

use crate::fault::Fault;
use crate::net::{AsWidth, Family};

/// The two numbers of a header that say what the message is.
#[derive(Clone, Copy, Debug, PartialEq, Eq)]
pub struct Kind {
    pub code: u16,
    pub subtype: u16,
}

/// Where a RIB record's address family comes from.
#[derive(Clone, Copy, Debug, PartialEq, Eq)]
pub enum RibForm {
    /// The subtype fixes it.
    Fixed(Family),
    /// The message states it, with a SAFI.
    Generic,
}

/// What a BGP4MP record tells of its session.
#[derive(Clone, Copy, Debug, PartialEq, Eq)]
pub enum Content {
    StateChange,
    Message,
}

#[derive(Clone, Copy, Debug, PartialEq, Eq)]
pub enum Layout {
    /// OSPF and IS-IS, carried as they are.
    Unread {
        timed: bool,
    },
    TableDump(Family),
    PeerTable,
    Rib(RibForm),
    Bgp4mp {
        timed: bool,
        content: Content,
        width: AsWidth,
    },
}

impl Layout {
    /// Whether the message opens with microseconds.
    pub fn is_timed(self) -> bool {
        matches!(self, Layout::Unread { timed: true } | Layout::Bgp4mp { timed: true, .. })
    }
}

impl Kind {
    pub fn new(code: u16, subtype: u16) -> Kind {
        Kind { code, subtype }
    }

    pub fn layout(self) -> Result<Layout, Fault> {
        match self.code {
            11 | 32 | 48 => Ok(Layout::Unread { timed: false }),
            33 | 49 => Ok(Layout::Unread { timed: true }),
            12 => self.table_dump(),
            13 => self.table_dump_v2(),
            16 => self.bgp4mp(false),
            17 => self.bgp4mp(true),
            _ => Err(Fault::UnknownType),
        }
    }

    fn table_dump(self) -> Result<Layout, Fault> {
        match self.subtype {
            1 => Ok(Layout::TableDump(Family::V4)),
            2 => Ok(Layout::TableDump(Family::V6)),
            _ => Err(Fault::UnknownSubtype),
        }
    }

    fn table_dump_v2(self) -> Result<Layout, Fault> {
        match self.subtype {
            1 => Ok(Layout::PeerTable),
            2 | 3 => Ok(Layout::Rib(RibForm::Fixed(Family::V4))),
            4 | 5 => Ok(Layout::Rib(RibForm::Fixed(Family::V6))),
            6 => Ok(Layout::Rib(RibForm::Generic)),
            _ => Err(Fault::UnknownSubtype),
        }
    }

    fn bgp4mp(self, timed: bool) -> Result<Layout, Fault> {
        let (content, width) = match self.subtype {
            0 => (Content::StateChange, AsWidth::Two),
            1 | 6 => (Content::Message, AsWidth::Two),
            4 | 7 => (Content::Message, AsWidth::Four),
            5 => (Content::StateChange, AsWidth::Four),
            _ => return Err(Fault::UnknownSubtype),
        };
        Ok(Layout::Bgp4mp { timed, content, width })
    }
}
