//! Reading into memory, of which there may be too little.

use crate::number::grouped;
use std::fmt::{self, Display};
use std::hint::black_box;
use std::io::{self, Read};

/// As much is read in one go.
const CHUNK: usize = 16 << 20;

/// With less room than this, the standard library reads into room of its own and ends the program
/// if it finds no other for it.
const LEAST: usize = 64;

/// Stays free for all that comes after, the words that there is no memory among it.
const REST: usize = 16 << 20;

/// Why something was not read to its end.
#[derive(Debug)]
pub enum Unread {
    System(io::Error),
    /// So many octets were there, and so many more were wanted.
    Memory {
        there: usize,
        wanted: usize,
    },
    /// There are more octets than these.
    Limit(u64),
    /// What is wrong with the octets.
    Words(String),
}

impl Display for Unread {
    fn fmt(&self, f: &mut fmt::Formatter) -> fmt::Result {
        match self {
            Unread::System(error) => error.fmt(f),
            Unread::Words(words) => words.fmt(f),
            Unread::Memory { there, wanted } => write!(
                f,
                "there is not enough memory: {} octets were there, and room for {} more was wanted",
                grouped(*there as u64),
                grouped(*wanted as u64)
            ),
            Unread::Limit(limit) => write!(
                f,
                "the recording has more than {} octets, unpacked; --limit SIZE sets how many may \
                 be read",
                grouped(*limit)
            ),
        }
    }
}

impl From<io::Error> for Unread {
    fn from(error: io::Error) -> Unread {
        Unread::System(error)
    }
}

/// Makes room for exactly so many octets, as far as the system can.
pub fn expect(octets: &mut Vec<u8>, more: u64) -> Result<(), Unread> {
    let more = usize::try_from(more).unwrap_or(usize::MAX).saturating_add(LEAST);
    let got = octets.try_reserve_exact(more);
    got.map_err(|_| Unread::Memory { there: octets.len(), wanted: more - LEAST })?;
    dagsumilat::in_large_pages(octets.spare_capacity_mut());
    Ok(())
}

/// Makes room for more octets than these where that can be had, so that what is there need not be
/// moved for each of them.
fn grow(octets: &mut Vec<u8>, more: usize) -> Result<(), Unread> {
    let got = octets.try_reserve(more).or_else(|_| octets.try_reserve_exact(more));
    got.map_err(|_| Unread::Memory { there: octets.len(), wanted: more })?;
    dagsumilat::in_large_pages(octets.spare_capacity_mut());
    Ok(())
}

/// Room for a clip: so many zeros, with some memory left for all that follows. Best asked for while
/// no other thread runs, which could take what was just found to be there.
pub fn zeros(size: usize) -> Result<Vec<u8>, Unread> {
    let mut room = Vec::<u8>::new();
    let got = room.try_reserve_exact(size.saturating_add(REST));
    // Else the compiler may leave out what nobody uses.
    black_box(&room);
    got.map_err(|_| Unread::Memory { there: 0, wanted: size })?;
    drop(room);
    // The system has these at once, where memory that was reserved would have to be filled.
    let zeros = vec![0; size];
    dagsumilat::in_large_pages(&zeros);
    Ok(zeros)
}

/// Appends all that `from` gives, as long as there are at most `limit` octets. After each piece
/// `after_each` is told how many octets there are.
pub fn append(
    octets: &mut Vec<u8>,
    from: &mut impl Read,
    limit: u64,
    mut after_each: impl FnMut(usize),
) -> Result<(), Unread> {
    let mut rest = Vec::new();
    grow(&mut rest, REST).map_err(|_| Unread::Memory { there: octets.len(), wanted: REST })?;
    // Else the compiler may leave out what nobody uses.
    black_box(&rest);
    loop {
        if octets.capacity() - octets.len() < LEAST {
            grow(octets, CHUNK)?;
        }
        let room = (octets.capacity() - octets.len()).min(CHUNK) as u64;
        let most = limit.saturating_add(1).saturating_sub(octets.len() as u64).min(room);
        if from.by_ref().take(most).read_to_end(octets)? == 0 {
            return Ok(());
        }
        if octets.len() as u64 > limit {
            return Err(Unread::Limit(limit));
        }
        after_each(octets.len());
    }
}

#[cfg(test)]
mod tests {
    use super::*;

    #[test]
    fn all_is_read_behind_what_is_there() {
        for size in [0, 1, LEAST - 1, LEAST, CHUNK - 1, CHUNK, CHUNK + 1, 3 * CHUNK + 5] {
            let given: Vec<u8> = (0..size).map(|at| at as u8).collect();
            let mut octets = b"before".to_vec();
            let mut last = 0;
            append(&mut octets, &mut &given[..], u64::MAX, |there| last = there).unwrap();
            assert!(octets[..6] == *b"before" && octets[6..] == given, "{size}");
            assert_eq!(last, if size == 0 { 0 } else { octets.len() });
        }
    }

    #[test]
    fn room_that_was_expected_is_not_moved() {
        let given = vec![7; 3 * CHUNK];
        let mut octets = Vec::new();
        expect(&mut octets, given.len() as u64).unwrap();
        let place = octets.as_ptr();
        append(&mut octets, &mut &given[..], u64::MAX, |_| {}).unwrap();
        assert_eq!((octets.len(), octets.as_ptr()), (given.len(), place));
    }

    #[test]
    fn no_more_than_the_limit() {
        for (size, limit) in [(0, 0), (5, 5), (CHUNK, CHUNK as u64)] {
            append(&mut Vec::new(), &mut &vec![0; size][..], limit, |_| {}).unwrap();
            let more = vec![0; size + 1];
            let unread = append(&mut Vec::new(), &mut &more[..], limit, |_| {}).unwrap_err();
            assert!(matches!(unread, Unread::Limit(at) if at == limit));
        }
        let mut endless = io::repeat(0);
        assert!(append(&mut vec![0; 7], &mut endless, 9, |_| {}).is_err());
    }

    #[test]
    fn what_no_memory_holds_is_said() {
        let unread = expect(&mut vec![1, 2], u64::MAX).unwrap_err().to_string();
        assert!(unread.contains("2 octets were there, and room for 18,446,744,07"), "{unread}");
    }
}
