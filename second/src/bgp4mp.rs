//! BGP4MP records, types 16 and 17: what happened in a BGP session.

use crate::fault::{Fault, Flaw};
use crate::layout::Content;
use crate::net::{Address, AsNumber, AsWidth, Family};
use crate::reader::Reader;
use crate::writer::Writer;
use std::cmp::Ordering;

/// Both addresses of a session; they share one family.
#[derive(Clone, Copy, Debug, PartialEq, Eq)]
pub enum Ends {
    V4 { peer: [u8; 4], local: [u8; 4] },
    V6 { peer: [u8; 16], local: [u8; 16] },
}

impl Ends {
    fn read(reader: &mut Reader) -> Result<Ends, Flaw> {
        let family = Family::read(reader)?;
        let peer = Address::read(reader.field("peer address"), family)?;
        let local = reader.field("local address");
        match peer {
            Address::V4(peer) => Ok(Ends::V4 { peer, local: local.array()? }),
            Address::V6(peer) => Ok(Ends::V6 { peer, local: local.array()? }),
        }
    }

    fn write(&self, writer: &mut Writer) {
        writer.u16(self.peer().family().code());
        self.peer().write(writer);
        self.local().write(writer);
    }

    pub fn peer(&self) -> Address {
        match *self {
            Ends::V4 { peer, .. } => Address::V4(peer),
            Ends::V6 { peer, .. } => Address::V6(peer),
        }
    }

    pub fn local(&self) -> Address {
        match *self {
            Ends::V4 { local, .. } => Address::V4(local),
            Ends::V6 { local, .. } => Address::V6(local),
        }
    }
}

#[derive(Clone, Debug, PartialEq, Eq)]
pub struct Session {
    pub peer_as: AsNumber,
    pub local_as: AsNumber,
    pub interface: u16,
    pub ends: Ends,
}

impl Session {
    fn read(reader: &mut Reader, width: AsWidth) -> Result<Session, Flaw> {
        Ok(Session {
            peer_as: AsNumber::read(reader.field("peer AS"), width)?,
            local_as: AsNumber::read(reader.field("local AS"), width)?,
            interface: reader.field("interface index").u16()?,
            ends: Ends::read(reader)?,
        })
    }

    fn write(&self, writer: &mut Writer) {
        self.peer_as.write(writer);
        self.local_as.write(writer);
        writer.u16(self.interface);
        self.ends.write(writer);
    }
}

/// A state of the BGP session machine.
#[derive(Clone, Copy, Debug, PartialEq, Eq)]
#[repr(u16)]
pub enum State {
    Idle = 1,
    Connect = 2,
    Active = 3,
    OpenSent = 4,
    OpenConfirm = 5,
    Established = 6,
}

impl State {
    /// Reads one as the field at hand.
    fn read(reader: &mut Reader) -> Result<State, Flaw> {
        let code = reader.u16()?;
        State::of(code).map_err(|fault| reader.flaw(fault))
    }

    pub fn of(code: u16) -> Result<State, Fault> {
        match code {
            1 => Ok(State::Idle),
            2 => Ok(State::Connect),
            3 => Ok(State::Active),
            4 => Ok(State::OpenSent),
            5 => Ok(State::OpenConfirm),
            6 => Ok(State::Established),
            _ => Err(Fault::BadState),
        }
    }

    fn write(self, writer: &mut Writer) {
        writer.u16(self as u16);
    }
}

/// One BGP message; its length field follows from `rest`.
#[derive(Clone, Debug, PartialEq, Eq)]
pub struct BgpMessage {
    pub marker: [u8; 16],
    pub code: u8,
    pub rest: Vec<u8>,
}

impl BgpMessage {
    const HEADER: usize = 19;
    const LARGEST: usize = 4096;

    /// Reads the message that fills what is left of the record. Where it does not,
    /// it is the length field that is wrong.
    pub fn read(reader: &mut Reader) -> Result<BgpMessage, Flaw> {
        let marker = reader.field("BGP marker").array()?;
        let length = usize::from(reader.field("BGP length").u16()?);
        let told = reader.spot();
        let code = reader.field("BGP type").u8()?;
        if !(Self::HEADER..=Self::LARGEST).contains(&length) {
            return Err(told.flaw(Fault::BadBgpLength));
        }
        match length.cmp(&(Self::HEADER + reader.left())) {
            Ordering::Greater => Err(told.flaw(Fault::FieldIncomplete)),
            Ordering::Less => Err(told.flaw(Fault::OctetsLeft)),
            Ordering::Equal => Ok(BgpMessage { marker, code, rest: reader.take_rest().to_vec() }),
        }
    }

    fn write(&self, writer: &mut Writer) {
        writer.octets(&self.marker);
        writer.size16(Self::HEADER + self.rest.len());
        writer.u8(self.code);
        writer.octets(&self.rest);
    }
}

#[derive(Clone, Debug, PartialEq, Eq)]
pub enum Event {
    StateChange { old: State, new: State },
    Message(BgpMessage),
}

impl Event {
    fn read(reader: &mut Reader, content: Content) -> Result<Event, Flaw> {
        match content {
            Content::StateChange => Ok(Event::StateChange {
                old: State::read(reader.field("old state"))?,
                new: State::read(reader.field("new state"))?,
            }),
            Content::Message => BgpMessage::read(reader).map(Event::Message),
        }
    }

    fn write(&self, writer: &mut Writer) {
        match self {
            Event::StateChange { old, new } => {
                old.write(writer);
                new.write(writer);
            }
            Event::Message(message) => message.write(writer),
        }
    }
}

#[derive(Clone, Debug, PartialEq, Eq)]
pub struct Bgp4mp {
    pub session: Session,
    pub event: Event,
}

impl Bgp4mp {
    pub fn read(reader: &mut Reader, content: Content, width: AsWidth) -> Result<Bgp4mp, Flaw> {
        Ok(Bgp4mp { session: Session::read(reader, width)?, event: Event::read(reader, content)? })
    }

    pub fn write(&self, writer: &mut Writer) {
        self.session.write(writer);
        self.event.write(writer);
    }
}
