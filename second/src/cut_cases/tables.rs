//! Peer tables, one or several, and the entries that name their peers.

use super::parts::{change, member, members, named_table, octets, rib, table, table_of, Member};
use super::{Ask, Book};
use crate::vectors::sequences::MIXED;
use crate::vectors::shapes::unread;
use crate::vectors::sketch::Sketch;

pub fn add(book: &mut Book) {
    each_subtype(book);
    entry_orders(book);
    same_peer_twice(book);
    peers_with_one_as(book);
    peer_forms(book);
    table_octets(book);
    names_refused(book);
    two_tables(book);
    two_sizes(book);
    three_tables(book);
    no_peers(book);
    times(book);
    between(book);
    many_peers(book);
}

/// A whole window, these numbers muted, sketches before and after.
fn case(book: &mut Book, name: &str, list: &[u32], dump: &[Sketch], left: &[Sketch]) {
    let ask = Ask::whole().muting(list);
    book.left(format!("table-{name}"), &ask, &octets(dump), &octets(left));
}

fn each_subtype(book: &mut Book) {
    let all = table_of(&[10, 20, 30]);
    for subtype in 2..=6 {
        let name = |what| format!("rib-{subtype}-{what}");
        let dump = [all.clone(), rib(subtype, &[(2, 1), (1, 2), (0, 3)])];
        let some = [table_of(&[10, 30]), rib(subtype, &[(1, 1), (0, 3)])];
        case(book, &name("none-muted"), &[40], &dump, &dump);
        case(book, &name("some-muted"), &[20], &dump, &some);
        case(book, &name("all-muted"), &[30, 20, 10], &dump, &[table_of(&[])]);
        let one = [all.clone(), rib(subtype, &[(1, 7)])];
        case(book, &name("only-entry-muted"), &[20], &one, &[table_of(&[10, 30])]);
        let none = [all.clone(), rib(subtype, &[])];
        let still = [table_of(&[]), rib(subtype, &[])];
        case(book, &name("no-entries"), &[10, 20, 30], &none, &still);
    }
}

fn entry_orders(book: &mut Book) {
    let all = table_of(&[10, 20, 30, 40]);
    let dump = [all.clone(), rib(2, &[(3, 1), (1, 2), (0, 3), (2, 4)])];
    let left = [table_of(&[20, 30, 40]), rib(2, &[(2, 1), (0, 2), (1, 4)])];
    case(book, "entries-mixed-mute-first", &[10], &dump, &left);
    let left = [table_of(&[10, 20, 30]), rib(2, &[(1, 2), (0, 3), (2, 4)])];
    case(book, "entries-mixed-mute-last", &[40], &dump, &left);
    let left = [table_of(&[20, 40]), rib(2, &[(1, 1), (0, 2)])];
    case(book, "entries-mixed-mute-two", &[10, 30], &dump, &left);
    // A muted peer without entries still moves those behind it.
    let dump = [all, rib(4, &[(3, 1)]), rib(4, &[(2, 2)])];
    let left = [table_of(&[30, 40]), rib(4, &[(1, 1)]), rib(4, &[(0, 2)])];
    case(book, "muted-without-entries", &[10, 20], &dump, &left);
}

fn same_peer_twice(book: &mut Book) {
    let all = table_of(&[10, 20]);
    let dump = [all, rib(2, &[(1, 1), (0, 2), (1, 3), (0, 4), (1, 5)])];
    let left = [table_of(&[20]), rib(2, &[(0, 1), (0, 3), (0, 5)])];
    case(book, "index-repeated-mute-10", &[10], &dump, &left);
    let left = [table_of(&[10]), rib(2, &[(0, 2), (0, 4)])];
    case(book, "index-repeated-mute-20", &[20], &dump, &left);
    case(book, "index-repeated-mute-none", &[], &dump, &dump);
}

fn peers_with_one_as(book: &mut Book) {
    let ten = |octet, tag| Member { octet, asn: 10, tag };
    let all = [ten(0, 1), member(20), ten(3, 2), ten(2, 3), member(30), ten(1, 4)];
    let entries = [(0, 1), (1, 2), (2, 3), (3, 4), (4, 5), (5, 6)];
    let dump = [table(&all), rib(5, &entries)];
    let left = [table(&[all[1], all[4]]), rib(5, &[(0, 2), (1, 5)])];
    case(book, "one-as-mute-it", &[10], &dump, &left);
    let kept = [all[0], all[2], all[3], all[4], all[5]];
    let left = [table(&kept), rib(5, &[(0, 1), (1, 3), (2, 4), (3, 5), (4, 6)])];
    case(book, "one-as-mute-another", &[20], &dump, &left);
    case(book, "one-as-mute-all", &[10, 20, 30], &dump, &[table(&[])]);
}

/// IPv4 and IPv6, both sizes of AS number, with the other bits clear or set.
fn peer_forms(book: &mut Book) {
    let octets = [0, 1, 2, 3, 0xfc, 0xfd, 0xfe, 0xff];
    let all: Vec<_> =
        (1..).zip(octets).map(|(tag, octet)| Member { octet, asn: tag.into(), tag }).collect();
    let entry = |(index, member): (u16, &Member)| (index, member.tag);
    let records = |members: &[Member]| {
        let entries: Vec<_> = (0..).zip(members).map(entry).collect();
        [table(members), rib(6, &entries)]
    };
    for gone in &all {
        let kept: Vec<_> = all.iter().copied().filter(|member| member.asn != gone.asn).collect();
        let name = format!("form-{:02x}", gone.octet);
        case(book, &name, &[gone.asn], &records(&all), &records(&kept));
    }
}

/// Collector and view name stay, whatever text it is.
fn table_octets(book: &mut Book) {
    let names: [(&str, Vec<u8>); 6] = [
        ("empty", Vec::new()),
        ("zeros", vec![0; 9]),
        ("looks-like-peers", vec![2; 26]),
        ("mixed", MIXED.as_bytes().to_vec()),
        ("marked", "\u{feff}desk\u{ffff}".as_bytes().to_vec()),
        ("long-mixed", MIXED.repeat(30).into_bytes()),
    ];
    for (what, name) in names {
        let with = |numbers: &[u32]| named_table(&name, &members(numbers)).set_n("collector", 20);
        let dump = [with(&[20, 10]), rib(2, &[(0, 4), (1, 5)])];
        let left = [with(&[10]), rib(2, &[(0, 5)])];
        case(book, &format!("name-{what}"), &[20], &dump, &left);
    }
}

/// Tables whose name is not text: the first, and later ones of which muting
/// would leave no peer, or that nothing follows.
fn names_refused(book: &mut Book) {
    let routes = [table_of(&[20, 10]), rib(2, &[(0, 4), (1, 5)])];
    let long = named_table(&[0xff; 300], &members(&[20, 10])).set_n("collector", 20);
    name_refused(book, "long", &[], &[long, routes[1].clone()]);
    let spoiled = |name: &[u8], numbers: &[u32]| named_table(name, &members(numbers)).at(9);
    name_refused(book, "tail-first", &[], &[spoiled(b"\x80", &[10])]);
    name_refused(book, "above", &[], &[spoiled(b"\xf4\x90\x80\x80z", &[10]), rib(2, &[(0, 4)])]);
    name_refused(book, "overlong-muted", &routes, &[spoiled(b"\xe0\x9f\xbf", &[20, 20])]);
    name_refused(book, "surrogate-second", &routes, &[spoiled(b"a\xed\xb0\x80", &[10])]);
    name_refused(book, "cut-off-no-peers", &routes, &[spoiled(b"desk\xf0\x90\x80", &[])]);
}

/// Good records, then those from the table on that is refused.
fn name_refused(book: &mut Book, what: &str, before: &[Sketch], from: &[Sketch]) {
    let at = from[0].wrong(17, "name").after(octets(before).concat().len());
    let dump = octets(&[before, from].concat()).concat();
    let ask = Ask::whole().muting(&[20]);
    book.refused(format!("table-name-{what}"), &ask, dump.len(), &dump, at);
}

/// An entry for each of three peers.
fn three_entries(subtype: u16) -> Sketch {
    rib(subtype, &[(0, 1), (1, 2), (2, 3)])
}

/// A second table with other peers, and with the same at other indexes.
fn two_tables(book: &mut Book) {
    let all = three_entries;
    let dump = [table_of(&[10, 20, 30]), all(2), table_of(&[20, 30, 40]), all(4)];
    let first = [table_of(&[10, 30]), rib(2, &[(0, 1), (1, 3)])];
    let second = [table_of(&[30, 40]), rib(4, &[(0, 2), (1, 3)])];
    case(book, "two-muted-in-both", &[20], &dump, &[first, second].concat());
    let first = [table_of(&[20, 30]), rib(2, &[(0, 2), (1, 3)])];
    case(book, "two-muted-in-first", &[10], &dump, &[&first[..], &dump[2..]].concat());
    let second = [table_of(&[20, 30]), rib(4, &[(0, 1), (1, 2)])];
    case(book, "two-muted-in-second", &[40], &dump, &[&dump[..2], &second].concat());
    case(book, "two-muted-in-none", &[50], &dump, &dump);
    let left = [table_of(&[10]), rib(2, &[(0, 1)]), table_of(&[40]), rib(4, &[(0, 3)])];
    case(book, "two-muted-most", &[20, 30], &dump, &left);

    let dump = [table_of(&[10, 20, 30]), all(3), table_of(&[30, 20, 10]), all(3)];
    let left = [table_of(&[20, 30]), rib(3, &[(0, 2), (1, 3)]), table_of(&[30, 20])];
    case(book, "two-turned", &[10], &dump, &[&left[..], &[rib(3, &[(0, 1), (1, 2)])]].concat());
}

/// A second table like the first, shorter or longer.
fn two_sizes(book: &mut Book) {
    let all = three_entries;
    let dump = [table_of(&[10, 20]), table_of(&[10, 20]), rib(2, &[(0, 1), (1, 2)])];
    let left = [table_of(&[20]), table_of(&[20]), rib(2, &[(0, 2)])];
    case(book, "two-alike", &[10], &dump, &left);

    let dump = [table_of(&[10, 20, 30]), all(2), table_of(&[20]), rib(2, &[(0, 4)])];
    let left = [table_of(&[10, 20]), rib(2, &[(0, 1), (1, 2)]), dump[2].clone(), dump[3].clone()];
    case(book, "two-second-shorter", &[30], &dump, &left);
    let left = [table_of(&[10, 30]), rib(2, &[(0, 1), (1, 3)]), table_of(&[])];
    case(book, "two-second-all-gone", &[20], &dump, &left);

    let dump = [table_of(&[10]), rib(2, &[(0, 4)]), table_of(&[10, 20, 30]), all(2)];
    let left = [table_of(&[]), table_of(&[20, 30]), rib(2, &[(0, 2), (1, 3)])];
    case(book, "two-first-all-gone", &[10], &dump, &left);
}

fn three_tables(book: &mut Book) {
    let dump = [
        table_of(&[10, 20, 30]),
        table_of(&[20, 10]),
        rib(6, &[(1, 1), (0, 2)]),
        table_of(&[30, 40, 20, 10]),
        rib(6, &[(3, 3), (2, 4), (1, 5), (0, 6)]),
    ];
    let left = [
        table_of(&[10, 30]),
        table_of(&[10]),
        rib(6, &[(0, 1)]),
        table_of(&[30, 40, 10]),
        rib(6, &[(2, 3), (1, 5), (0, 6)]),
    ];
    case(book, "three", &[20], &dump, &left);
}

/// Tables without peers, from the start or after the cut.
fn no_peers(book: &mut Book) {
    let empty = [table_of(&[]), rib(2, &[]), rib(6, &[])];
    case(book, "no-peers", &[10], &empty, &empty);
    let dump = [table_of(&[10, 10]), rib(2, &[]), rib(2, &[(1, 1)]), rib(4, &[]), rib(3, &[])];
    let left = [table_of(&[]), rib(2, &[]), rib(4, &[]), rib(3, &[])];
    case(book, "all-gone-no-entries", &[10], &dump, &left);
    let more = [dump.to_vec(), vec![table_of(&[20, 10]), rib(2, &[(0, 2), (1, 3)])]].concat();
    let left = [left.to_vec(), vec![table_of(&[20]), rib(2, &[(0, 2)])]].concat();
    case(book, "all-gone-then-another", &[10], &more, &left);
    let only = [table_of(&[10]), table_of(&[20]), table_of(&[10, 20])];
    let left = [table_of(&[]), table_of(&[20]), table_of(&[20])];
    case(book, "only-tables", &[10], &only, &left);
}

/// Tables before, inside and after the window; RIB records in and out of it.
fn times(book: &mut Book) {
    let one = |subtype, at| rib(subtype, &[(0, 1), (1, 2)]).at(at);
    let dump = [
        table_of(&[10, 20]).at(1),
        one(2, 4),
        one(2, 5),
        table_of(&[20, 10]).at(99),
        one(4, 5),
        one(4, 6),
        table_of(&[20, 20]).at(5),
        one(6, 5),
        one(6, 0),
    ];
    let left = [
        table_of(&[10]).at(1),
        rib(2, &[(0, 1)]).at(5),
        table_of(&[10]).at(99),
        rib(4, &[(0, 2)]).at(5),
        table_of(&[]).at(5),
    ];
    let ask = Ask::window(5_000_000, 6_000_000);
    let muting = ask.clone().muting(&[20]);
    book.left("table-times-muted", &muting, &octets(&dump), &octets(&left));
    let kept = [0, 2, 3, 4, 6, 7].map(|place| dump[place].clone());
    book.left("table-times", &ask, &octets(&dump), &octets(&kept));
    let tables = [table_of(&[10]).at(1), table_of(&[10]).at(99), table_of(&[]).at(5)];
    let never = Ask::window(7_000_000, 7_000_000).muting(&[20]);
    book.left("table-times-never", &never, &octets(&dump), &octets(&tables));
}

/// Other records do not put a table out of force, kept or not.
fn between(book: &mut Book) {
    let strays = [
        change(16, 0, 20),
        unread(11, 1, b"lsa"),
        change(17, 5, 10),
        unread(33, 1, b"pdu"),
        rib(3, &[(1, 5)]),
        rib(3, &[]),
    ];
    let last = rib(2, &[(2, 1), (1, 2)]);
    let dump = [&[table_of(&[10, 20, 30])], &strays[..], &[last]].concat();
    let [_, lsa, other, pdu, _, empty] = strays;
    let left = [table_of(&[10, 30]), lsa, other, pdu, empty, rib(2, &[(1, 1)])];
    case(book, "between", &[20], &dump, &left);
}

/// Indexes that need their second octet, before the cut and after.
fn many_peers(book: &mut Book) {
    let peer = |asn: u32| Member { octet: 0, asn, tag: asn as u8 };
    let all: Vec<_> = (1..=300).map(peer).collect();
    let dump = [table(&all), rib(2, &[(0, 0), (255, 1), (256, 4), (257, 8), (299, 5)])];
    let left = [table(&all[1..]), rib(2, &[(254, 1), (255, 4), (256, 8), (298, 5)])];
    case(book, "300-mute-first", &[1], &dump, &left);
    let left = [table(&all[..299]), rib(2, &[(0, 0), (255, 1), (256, 4), (257, 8)])];
    case(book, "300-mute-last", &[300], &dump, &left);
    let hundred: Vec<u32> = (1..=100).map(|step| 3 * step).collect();
    let kept: Vec<_> = all.iter().copied().filter(|peer| peer.asn % 3 != 0).collect();
    // Peer 255 has AS 256, and 85 multiples of three stand before it.
    let left = [table(&kept), rib(2, &[(0, 0), (170, 1), (171, 4)])];
    case(book, "300-mute-every-third", &hundred, &dump, &left);
}
