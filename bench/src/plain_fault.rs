//! Which fault a record has, and where: the documents' checks field by field, in their order. It is
//! asked once a dump, where [`crate::plain`] finds a record that is not good.

#![forbid(unsafe_code)]

#[derive(Clone, Copy)]
enum Fault {
    NoHeader = 1,
    Length = 2,
    Type = 3,
    Subtype = 4,
    Short = 5,
    LeftOver = 6,
    Family = 7,
    PrefixLength = 8,
    State = 9,
    BgpLength = 10,
    Attributes = 11,
    NoTable = 12,
    PeerIndex = 13,
    Name = 17,
}

/// A fault, and where the field that has it starts, counted from the record's header.
struct Flaw(Fault, usize);

type Checked<T> = Result<T, Flaw>;

/// Octets of a header.
const HEADER: usize = 12;

/// What is left of a message, and where it starts.
struct Message<'a> {
    rest: &'a [u8],
    at: usize,
}

impl<'a> Message<'a> {
    fn take(&mut self, size: usize) -> Checked<&'a [u8]> {
        let Some((taken, rest)) = self.rest.split_at_checked(size) else {
            return Err(Flaw(Fault::Short, self.at));
        };
        *self = Message { rest, at: self.at + size };
        Ok(taken)
    }

    /// Fields of these sizes, one after the other.
    fn skip(&mut self, sizes: &[usize]) -> Checked<()> {
        sizes.iter().try_for_each(|size| self.take(*size).map(drop))
    }

    fn u8(&mut self) -> Checked<u8> {
        self.take(1).map(|octets| octets[0])
    }

    fn u16(&mut self) -> Checked<u16> {
        self.take(2).map(|octets| u16::from_be_bytes([octets[0], octets[1]]))
    }

    fn end(self) -> Checked<()> {
        check(self.rest.is_empty(), Fault::LeftOver, self.at)
    }
}

fn check(good: bool, fault: Fault, at: usize) -> Checked<()> {
    if good {
        Ok(())
    } else {
        Err(Flaw(fault, at))
    }
}

/// The number and the place of the first record's fault, where `table` is the peer count of the table
/// in force.
pub fn found(dump: &[u8], table: Option<u16>) -> Option<(u64, usize)> {
    record(dump, table).err().map(|Flaw(fault, place)| (fault as u64, place))
}

fn record(dump: &[u8], table: Option<u16>) -> Checked<()> {
    let (header, body) = dump.split_first_chunk().ok_or(Flaw(Fault::NoHeader, 0))?;
    let [_, _, _, _, t0, t1, s0, s1, l0, l1, l2, l3]: [u8; HEADER] = *header;
    let length = u32::from_be_bytes([l0, l1, l2, l3]) as usize;
    let rest = body.get(..length).ok_or(Flaw(Fault::Length, 0))?;
    let mut message = Message { rest, at: HEADER };
    let subtype = u16::from_be_bytes([s0, s1]);
    let peers = || table.ok_or(Flaw(Fault::NoTable, 6));
    match (u16::from_be_bytes([t0, t1]), subtype) {
        (11 | 32 | 48, _) => Ok(()),
        (33 | 49, _) => message.skip(&[4]),
        (12, 1) => table_dump(message, 4),
        (12, 2) => table_dump(message, 16),
        (13, 1) => peer_table(message),
        (13, 2 | 3) => rib(message, 32, peers()?),
        (13, 4 | 5) => rib(message, 128, peers()?),
        (13, 6) => rib_generic(message, peers()?),
        (16, _) => bgp4mp(message, subtype, &[]),
        (17, _) => bgp4mp(message, subtype, &[4]),
        (12 | 13, _) => Err(Flaw(Fault::Subtype, 6)),
        _ => Err(Flaw(Fault::Type, 4)),
    }
}

/// Types 16 and 17, the latter with microseconds.
fn bgp4mp(mut message: Message, subtype: u16, micro: &[usize]) -> Checked<()> {
    let (as_size, changes) = match subtype {
        0 => (2, true),
        5 => (4, true),
        1 | 6 => (2, false),
        4 | 7 => (4, false),
        _ => return Err(Flaw(Fault::Subtype, 6)),
    };
    message.skip(micro)?;
    message.skip(&[as_size, as_size, 2])?;
    let family = message.at;
    match message.u16()? {
        1 => message.skip(&[4, 4])?,
        2 => message.skip(&[16, 16])?,
        _ => return Err(Flaw(Fault::Family, family)),
    }
    if changes {
        state_change(message)
    } else {
        bgp_message(message)
    }
}

fn state_change(mut message: Message) -> Checked<()> {
    for _ in 0..2 {
        let at = message.at;
        check((1..=6).contains(&message.u16()?), Fault::State, at)?;
    }
    message.end()
}

fn bgp_message(mut message: Message) -> Checked<()> {
    let all = message.rest.len();
    message.skip(&[16])?;
    let at = message.at;
    let length = message.u16()?;
    message.skip(&[1])?;
    check((19..=4096).contains(&length), Fault::BgpLength, at)?;
    check(length as usize <= all, Fault::Short, at)?;
    check(length as usize == all, Fault::LeftOver, at)
}

/// Type 12, with addresses of `size` octets.
fn table_dump(mut message: Message, size: usize) -> Checked<()> {
    message.skip(&[2, 2, size])?;
    let at = message.at;
    check(message.u8()? as usize <= 8 * size, Fault::PrefixLength, at)?;
    message.skip(&[1, 4, size, 2])?;
    attributes(&mut message)?;
    message.end()
}

fn peer_table(mut message: Message) -> Checked<()> {
    message.skip(&[4])?;
    let size = message.u16()?;
    let at = message.at;
    let name = message.take(size as usize)?;
    check(std::str::from_utf8(name).is_ok(), Fault::Name, at)?;
    for _ in 0..message.u16()? {
        let kind = message.u8()?;
        let address = if kind & 1 != 0 { 16 } else { 4 };
        let as_size = if kind & 2 != 0 { 4 } else { 2 };
        message.skip(&[4, address, as_size])?;
    }
    message.end()
}

fn rib(mut message: Message, bits: u8, peers: u16) -> Checked<()> {
    message.skip(&[4])?;
    routes(message, bits, peers)
}

fn rib_generic(mut message: Message, peers: u16) -> Checked<()> {
    message.skip(&[4])?;
    let at = message.at;
    let bits = match message.u16()? {
        1 => 32,
        2 => 128,
        _ => return Err(Flaw(Fault::Family, at)),
    };
    let at = message.at;
    check(matches!(message.u8()?, 1 | 2), Fault::Family, at)?;
    routes(message, bits, peers)
}

/// A prefix of at most `bits` bits, and the entries.
fn routes(mut message: Message, bits: u8, peers: u16) -> Checked<()> {
    let at = message.at;
    let prefix = message.u8()?;
    check(prefix <= bits, Fault::PrefixLength, at)?;
    message.skip(&[prefix.div_ceil(8) as usize])?;
    for _ in 0..message.u16()? {
        let at = message.at;
        check(message.u16()? < peers, Fault::PeerIndex, at)?;
        message.skip(&[4])?;
        attributes(&mut message)?;
    }
    message.end()
}

/// Attributes behind their length.
fn attributes(message: &mut Message) -> Checked<()> {
    let length = message.u16()?;
    let at = message.at;
    check(tile(message.take(length as usize)?), Fault::Attributes, at)
}

fn tile(mut octets: &[u8]) -> bool {
    while !octets.is_empty() {
        let (size, rest) = match octets {
            [flags, _, size, rest @ ..] if flags & 16 == 0 => (*size as usize, rest),
            [flags, _, high, low, rest @ ..] if flags & 16 != 0 => {
                (u16::from_be_bytes([*high, *low]) as usize, rest)
            }
            _ => return false,
        };
        match rest.get(size..) {
            Some(after) => octets = after,
            None => return false,
        }
    }
    true
}
