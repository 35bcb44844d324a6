//! Dumps past 64 KB, and counts, indexes and lists that need many bits.

use super::parts::{change, entry, members, named_table, octets, rib, table, Member};
use super::{Ask, Book};
use crate::vectors::sequences::MIXED;
use crate::vectors::sketch::Sketch;

pub fn add(book: &mut Book) {
    many_records(book);
    many_muted(book);
    many_peers(book);
    many_entries(book);
    longest_names(book);
}

/// State changes of peers 1 to 7 in turn, 78 KB, and 67 KB without one.
fn many_records(book: &mut Book) {
    let records = |numbers: Vec<u32>| -> Vec<Vec<u8>> {
        numbers.iter().map(|asn| change(16, 0, *asn).record()).collect()
    };
    let turns = || (0..2_450).map(|step| 1 + step % 7);
    let (dump, left) = (records(turns().collect()), records(turns().filter(|n| *n != 3).collect()));
    book.left("large-records-all-left", &Ask::whole().muting(&[9]), &dump, &dump);
    let size = left.concat().len();
    for room in [size - 1, size] {
        let name = format!("large-records-room-{room}-of-{size}");
        book.left_in(name, &Ask::whole().muting(&[3]), room, &dump, &left);
    }
}

fn small(asn: u32) -> Member {
    Member { octet: 0, asn, tag: asn as u8 }
}

/// 600 peers and an entry of each; every second one is listed, the last first.
fn many_muted(book: &mut Book) {
    let records = |numbers: Vec<u32>| {
        let members: Vec<_> = numbers.iter().copied().map(small).collect();
        let entries: Vec<_> = (0..).zip(numbers).map(|(index, asn)| (index, asn as u8)).collect();
        octets(&[table(&members), rib(2, &entries)])
    };
    let even = |asn: &u32| asn.is_multiple_of(2);
    let muted: Vec<u32> = (1..=600).rev().filter(even).collect();
    let ask = Ask::whole().muting(&muted);
    let left = records((1..=600).filter(|asn| !even(asn)).collect());
    book.left("large-300-muted-of-600", &ask, &records((1..=600).collect()), &left);
}

/// A table and a RIB record that may be large: peers and entries are laid as one
/// run of octets each.
fn peers(numbers: &[u32]) -> Sketch {
    let octets = numbers.iter().flat_map(|asn| small(*asn).octets()).collect::<Vec<_>>();
    table(&[]).set_n("peer-count", numbers.len() as u64).raw("peers", &octets)
}

fn entries(indexes: &[u16]) -> Sketch {
    // No attributes, and so octets that depend on the index alone.
    let octets: Vec<_> = indexes.iter().flat_map(|index| entry_octets(*index)).collect();
    rib(3, &[]).set_n("entry-count", indexes.len() as u64).raw("entries", &octets)
}

fn entry_octets(index: u16) -> Vec<u8> {
    entry(Sketch::new(13, 3), 0, (index, 0)).message()
}

/// 33,000 peers, all of AS 7 but for some; indexes past 15 bits before the cut,
/// and after it if few are muted.
fn many_peers(book: &mut Book) {
    let others = [(0, 10), (1, 11), (255, 12), (16_384, 10), (32_768, 13), (32_999, 14)];
    let mut all = vec![7; 33_000];
    for (place, asn) in others {
        all[place] = asn;
    }
    let dump = octets(&[peers(&all), entries(&[32_999, 0, 1, 16_384, 32_768, 255, 2])]);
    // Without the two of AS 10, all behind them move.
    let kept: Vec<u32> = all.iter().copied().filter(|asn| *asn != 10).collect();
    let left = octets(&[peers(&kept), entries(&[32_997, 0, 32_766, 254, 1])]);
    book.left("large-33000-peers-mute-two", &Ask::whole().muting(&[10]), &dump, &left);
}

/// 33,000 entries of three peers, one in 11,000 of the last.
fn many_entries(book: &mut Book) {
    let indexes: Vec<u16> = (0..33_000)
        .map(|place| match place {
            7 | 11_007 | 32_999 => 2,
            _ => place % 2,
        })
        .collect();
    let dump = octets(&[peers(&[10, 20, 30]), entries(&indexes)]);
    let kept: Vec<u16> = indexes.iter().copied().filter(|index| *index != 2).collect();
    let left = octets(&[peers(&[10, 20]), entries(&kept)]);
    book.left("large-33000-entries-mute-few", &Ask::whole().muting(&[30]), &dump, &left);
}

/// A name of as many octets as there can be, and one whose last octet is no
/// character's.
fn longest_names(book: &mut Book) {
    let mut name = MIXED.repeat(6_553).into_bytes();
    name.resize(65_535, b'z');
    let with = |name: &[u8], numbers: &[u32]| named_table(name, &members(numbers));
    let ask = Ask::whole().muting(&[20]);
    let [dump, left] =
        [[10, 20, 30].as_slice(), &[10, 30]].map(|peers| with(&name, peers).record());
    book.left("large-name-65535", &ask, &[dump], &[left]);
    name[65_534] = 0xbf;
    let slip = with(&name, &[10, 20, 30]).wrong(17, "name");
    let dump = &slip.octets;
    book.refused("large-name-65535-last-octet", &ask, dump.len(), dump, slip.after(0));
}
