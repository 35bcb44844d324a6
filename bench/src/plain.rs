//! The documents' check of a dump in plain, safe Rust, written for speed: whether a record is good is
//! asked in few steps, and which fault it has only where it is not.

#![forbid(unsafe_code)]

use crate::plain_fault;

/// The first fault's number and place, or 0 and the dump's length, and how many records stand
/// before it.
#[derive(Clone, Copy, Debug, PartialEq, Eq)]
pub struct Answer {
    pub fault: u64,
    pub place: u64,
    pub records: u64,
}

/// All of a dump.
pub fn dump(dump: &[u8]) -> Answer {
    dump_with(dump, |_| {})
}

/// All of a dump, with something done for each good record.
#[inline(always)]
pub fn dump_with(dump: &[u8], mut each: impl FnMut(&Record)) -> Answer {
    let mut rest = dump;
    let mut table = None;
    let mut records = 0;
    while let Some((record, after)) = first(rest) {
        if !is_good(&record, &mut table) {
            break;
        }
        each(&record);
        rest = after;
        records += 1;
    }
    let (fault, field) = if rest.is_empty() { (0, 0) } else { fault(rest, table) };
    Answer { fault, place: (dump.len() - rest.len() + field) as u64, records }
}

fn fault(rest: &[u8], table: Option<u16>) -> (u64, usize) {
    plain_fault::found(rest, table).expect("a record that is not good, and has no fault")
}

pub struct Record<'a> {
    pub kind: u16,
    pub subtype: u16,
    pub message: &'a [u8],
}

/// The first record, if all of it is there, and what stands behind it.
#[inline(always)]
fn first(dump: &[u8]) -> Option<(Record<'_>, &[u8])> {
    let (header, behind) = dump.split_first_chunk::<12>()?;
    let [_, _, _, _, t0, t1, s0, s1, l0, l1, l2, l3] = *header;
    let length = u32::from_be_bytes([l0, l1, l2, l3]) as usize;
    let (message, after) = behind.split_at_checked(length)?;
    let (kind, subtype) = (u16::from_be_bytes([t0, t1]), u16::from_be_bytes([s0, s1]));
    Some((Record { kind, subtype, message }, after))
}

/// `table` is the peer count of the table in force, before the record and then behind it.
#[inline(always)]
fn is_good(record: &Record, table: &mut Option<u16>) -> bool {
    let Record { kind, subtype, message } = *record;
    match (kind, subtype) {
        (16 | 17, _) => is_session(message, kind == 17, subtype),
        (13, 1) => {
            *table = peer_count(message);
            table.is_some()
        }
        (13, 2 | 3) => table.is_some_and(|peers| is_rib(message, 32, peers)),
        (13, 4 | 5) => table.is_some_and(|peers| is_rib(message, 128, peers)),
        (13, 6) => table.is_some_and(|peers| is_generic_rib(message, peers)),
        (12, 1) => is_table_dump::<4>(message),
        (12, 2) => is_table_dump::<16>(message),
        (33 | 49, _) => message.len() >= 4,
        (11 | 32 | 48, _) => true,
        _ => false,
    }
}

#[inline(always)]
fn u16_at(octets: &[u8], at: usize) -> Option<u16> {
    Some(u16::from_be_bytes(*octets.get(at..)?.first_chunk()?))
}

/// Types 16 and 17. Type, size of the AS numbers and family differ from record to record: where
/// fields stand is worked out without a branch on them, since mispredicted ones take longer.
#[inline(always)]
fn is_session(message: &[u8], micro: bool, subtype: u16) -> bool {
    let wide = matches!(subtype, 4 | 5 | 7);
    let at = 4 * usize::from(micro) + 6 + 4 * usize::from(wide);
    let Some(family @ 1..=2) = u16_at(message, at) else {
        return false;
    };
    let addresses = 8 + 24 * usize::from(family == 2);
    let Some(rest) = message.get(at + 2 + addresses..) else {
        return false;
    };
    match subtype {
        0 | 5 => is_change(rest),
        1 | 4 | 6 | 7 => is_bgp(rest),
        _ => false,
    }
}

fn is_change(states: &[u8]) -> bool {
    matches!(states, [0, 1..=6, 0, 1..=6])
}

#[inline(always)]
fn is_bgp(message: &[u8]) -> bool {
    let size = message.len();
    (19..=4096).contains(&size) && u16_at(message, 16) == Some(size as u16)
}

/// Type 12, with addresses of `SIZE` octets.
fn is_table_dump<const SIZE: usize>(message: &[u8]) -> bool {
    let Some((head, attributes)) = message.split_at_checked(14 + 2 * SIZE) else {
        return false;
    };
    usize::from(head[4 + SIZE]) <= 8 * SIZE
        && u16_at(head, 12 + 2 * SIZE).map(usize::from) == Some(attributes.len())
        && tile(attributes)
}

/// The peer count of a peer table, if it is good.
fn peer_count(message: &[u8]) -> Option<u16> {
    let size = u16_at(message, 4)?;
    let (name, rest) = message[6..].split_at_checked(size.into())?;
    std::str::from_utf8(name).ok()?;
    let count = u16_at(rest, 0)?;
    let mut peers = &rest[2..];
    for _ in 0..count {
        peers = peers.get(peer_size(*peers.first()?)..)?;
    }
    peers.is_empty().then_some(count)
}

/// Type, BGP ID, address and AS.
#[inline(always)]
pub fn peer_size(kind: u8) -> usize {
    [11, 23, 13, 25][usize::from(kind & 3)]
}

/// Subtype 6, which says its family and SAFI.
fn is_generic_rib(message: &[u8], peers: u16) -> bool {
    match message {
        [_, _, _, _, 0, 1, 1 | 2, rest @ ..] => are_routes(rest, 32, peers),
        [_, _, _, _, 0, 2, 1 | 2, rest @ ..] => are_routes(rest, 128, peers),
        _ => false,
    }
}

#[inline(always)]
fn is_rib(message: &[u8], most: u8, peers: u16) -> bool {
    message.get(4..).is_some_and(|rest| are_routes(rest, most, peers))
}

/// A prefix of at most `most` bits, and the entries.
fn are_routes(octets: &[u8], most: u8, peers: u16) -> bool {
    let Some((&bits, rest)) = octets.split_first() else {
        return false;
    };
    let Some(rest) = rest.get(usize::from(bits.div_ceil(8))..) else {
        return false;
    };
    let Some((count, entries)) = rest.split_first_chunk() else {
        return false;
    };
    bits <= most && are_entries(entries, u16::from_be_bytes(*count), peers)
}

/// Just so many entries of peers below `peers`.
#[inline(always)]
fn are_entries(mut octets: &[u8], count: u16, peers: u16) -> bool {
    for _ in 0..count {
        let Some((head, rest)) = octets.split_first_chunk::<8>() else {
            return false;
        };
        let [i0, i1, _, _, _, _, s0, s1] = *head;
        let size = u16::from_be_bytes([s0, s1]);
        let Some((attributes, after)) = rest.split_at_checked(size.into()) else {
            return false;
        };
        if u16::from_be_bytes([i0, i1]) >= peers || !tile(attributes) {
            return false;
        }
        octets = after;
    }
    octets.is_empty()
}

/// Whether attributes fill these octets.
#[inline(always)]
fn tile(mut octets: &[u8]) -> bool {
    while let [flags, _, size, rest @ ..] = octets {
        let after = if flags & 16 == 0 {
            rest.get(usize::from(*size)..)
        } else if let [low, rest @ ..] = rest {
            rest.get(usize::from(u16::from_be_bytes([*size, *low]))..)
        } else {
            None
        };
        match after {
            Some(after) => octets = after,
            None => return false,
        }
    }
    octets.is_empty()
}
