//! Every fault is told with its number, its place, its field and its record, by every command, with
//! exit status 1.

use crate::dumps::{change, message, named_table, record, rib, session, table, table_dump};
use crate::run::{run, run_fed, Folder};

/// A good record stands before each fault.
const BEFORE: usize = 32;

/// Of a record.
const HEADER: usize = 12;

/// A dump with a fault.
struct Faulty {
    number: u8,
    octets: Vec<u8>,
    /// Where the faulty record starts in these octets.
    record: usize,
    /// Where the field that failed starts, counted from that record.
    field: usize,
    name: &'static str,
}

impl Faulty {
    fn new(number: u8, octets: Vec<u8>, field: usize, name: &'static str) -> Faulty {
        Faulty { number, octets, record: 0, field, name }
    }

    /// Behind a table of two peers.
    fn behind_table(self) -> Faulty {
        let table = table(1, &[10, 20]);
        Faulty { record: table.len(), octets: [table, self.octets].concat(), ..self }
    }
}

/// One for each fault of a dump, 1 to 13 and 17.
fn faulty() -> Vec<Faulty> {
    let states = |old, new| [session(64_500), vec![0, old, 0, new]].concat();
    let mut family = states(3, 4);
    family[7] = 3;
    let mut prefix = rib(1, &[]);
    prefix[16] = 33;
    let cut_off = [&record(1, 16, 0, &[])[..11], &[1]].concat();
    let left_over = [states(3, 4), vec![0]].concat();
    let of_session = |number, message: &[u8], field, name| {
        Faulty::new(number, record(1, 16, 0, message), HEADER + field, name)
    };
    vec![
        Faulty::new(1, vec![0; 11], 0, "record"),
        Faulty::new(2, cut_off, 0, "record"),
        Faulty::new(3, record(1, 10, 0, &[]), 4, "Type"),
        Faulty::new(4, record(1, 16, 2, &states(3, 4)), 6, "Subtype"),
        of_session(5, &states(3, 4)[..19], 18, "new state"),
        of_session(5, &states(3, 4)[..18], 18, "new state, of which nothing is there"),
        of_session(6, &left_over, 20, "octets left over"),
        of_session(7, &family, 6, "address family"),
        Faulty::new(8, prefix, 16, "prefix length").behind_table(),
        of_session(9, &states(3, 7), 18, "new state"),
        Faulty::new(10, message(1, 64_500, 18), HEADER + 32, "BGP length"),
        Faulty::new(5, message(1, 64_500, 20), HEADER + 32, "BGP length"),
        Faulty::new(11, table_dump(1, 64_500, &[0x40, 1, 1]), HEADER + 22, "attributes"),
        Faulty::new(12, rib(1, &[]), 6, "Subtype"),
        Faulty::new(13, rib(1, &[1, 2]), HEADER + 7 + 8, "peer index").behind_table(),
        Faulty::new(17, named_table(1, b"caf\xe9", &[10, 20]), 18, "view name"),
    ]
}

/// What is told of the fault, line by line, but for the octets.
fn words(file: &str, faulty: &Faulty) -> [String; 3] {
    let record = BEFORE + faulty.record;
    let place = record + faulty.field;
    let (number, name) = (faulty.number, faulty.name);
    [
        format!("{file}: fault {number} at octet {place} (0x{place:x}): "),
        format!("\n  Field: {name}. The record starts at octet {record} (0x{record:x})"),
        format!(" octets, stand before it: alone they are a good dump (head -c {record})."),
    ]
}

fn assert_told(folder: &Folder, file: &str, faulty: &Faulty) {
    let told = words(file, faulty);
    let out = folder.word("clip");
    for order in [
        &["check", file][..],
        &["list", file],
        &["peers", file],
        &["report", file],
        &["cut", file, "--from", "0", "--to", "9.0", "-o", &out],
    ] {
        let run = run(order).ended(1).told("Often: ").told("To do: ");
        told.iter().fold(run, |run, words| run.told(words));
    }
}

/// What goes to standard output before the fault is told.
fn assert_printed(file: &str, faulty: &Faulty) {
    let place = BEFORE + faulty.record + faulty.field;
    let list = run(&["list", file]).ended(1);
    let last = list.out_text().lines().last().unwrap();
    assert_eq!(last, format!("fault={} place={place}", faulty.number));
    let peers = run(&["peers", file]).ended(1);
    assert!(peers.out_text().contains("64496"), "what stands before is counted");
    let report = run(&["report", file]).ended(1);
    assert_eq!(report.out_text(), "records=0\nchanges=0\nbreaks=0\n", "nothing of it is counted");
}

#[test]
fn faults_of_a_dump() {
    let folder = Folder::new("faults");
    for faulty in faulty() {
        let good = change(1, 64_496);
        assert_eq!(good.len(), BEFORE);
        let file = folder.file("dump", &[&good[..], &faulty.octets].concat());
        assert_told(&folder, &file, &faulty);
        assert_printed(&file, &faulty);
    }
    assert_eq!(folder.names(), ["dump"], "no clip and nothing left over");
}

/// The first octets that a person is told to keep are a good dump.
#[test]
fn what_is_told_to_be_kept_is_good() {
    for faulty in faulty() {
        let dump = [change(1, 64_496), faulty.octets].concat();
        let told = run_fed(&["check", "-"], &dump).ended(1).err;
        let (_, size) = told.split_once("(head -c ").unwrap();
        let size: usize = size.split(')').next().unwrap().parse().unwrap();
        assert!(size >= BEFORE);
        run_fed(&["check", "-"], &dump[..size]).ended(0);
    }
}

#[test]
fn the_octets_about_the_place_are_shown() {
    let octets = record(1, 16, 0, &[session(64_500), vec![0, 3, 0, 7]].concat());
    let dump = [change(1, 64_496), octets, change(2, 64_496)].concat();
    let shown = "
    00000020 |00 00 00 01 00 10 00 00 00 00 00 14 fb f4 fb ff
    00000030  00 00 00 01 c0 00 02 01 c0 00 02 fe 00 03[00]07
    00000040 |00 00 00 02 00 10 00 00 00 00 00 14 fb f0 fb ff
  1 good";
    run_fed(&["check", "-"], &dump).ended(1).told(shown);
}

/// A record whose header is far before the place, and a field that would stand at the dump's end.
/// The last of its peers, of 13 octets each, starts at 0x9c.
#[test]
fn a_header_far_before_the_place_is_shown() {
    let mut table = table(1, &[10; 9]);
    table[19] = 10; // a peer more than there are
    let shown = "
  Field: peer type, of which nothing is there. The record starts at octet 32 (0x20): \
Type 13, Subtype 1, Length 125.
  By its header: TABLE_DUMP_V2, peer table, time 1970-01-01T00:00:01.000000Z.
    00000020 |00 00 00 01 00 0d 00 01 00 00 00 7d
    ...
    00000090  c0 00 02 01 c0 00 02 01 00 00 00 0a 02 c0 00 02
    000000a0  01 c0 00 02 01 00 00 00 0a[--]
  1 good";
    assert_eq!(table.len(), 137);
    run_fed(&["check", "-"], &[change(1, 64_496), table].concat()).ended(1).told(shown);
}

/// The field is there, and what it says does not fit.
#[test]
fn a_bgp_length_that_disagrees_is_told_with_both_numbers() {
    run_fed(&["check", "-"], &message(1, 64_500, 20))
        .ended(1)
        .told("fault 5 at octet 44 (0x2c)")
        .told("\n  The BGP message's length is 20; the record has 19 octets of it.\n");
}

#[test]
fn a_backward_window() {
    let folder = Folder::new("backward");
    let (file, out) = (folder.file("dump", &change(1, 64_496)), folder.word("clip"));
    run(&["cut", &file, "--from", "2.0", "--to", "1.999999", "-o", &out])
        .ended(1)
        .told("fault 14: ")
        .told("1970-01-01T00:00:01.999999Z");
    assert_eq!(folder.names(), ["dump"]);
}

#[test]
fn a_backward_window_comes_before_the_fault_of_the_dump() {
    let folder = Folder::new("backward-faulty");
    let (file, out) = (folder.file("dump", &[0; 11]), folder.word("clip"));
    run(&["cut", &file, "--from", "2.0", "--to", "1.0", "-o", &out]).ended(1).told("fault 14: ");
}

#[test]
fn nothing_stands_before_a_fault_at_the_start() {
    let folder = Folder::new("start");
    let file = folder.file("dump", b"this is no dump");
    run(&["check", &file])
        .ended(1)
        .told("fault 2 at octet 0 (0x0)")
        .told("No good record stands before")
        .silent_about("head -c");
}

/// An ORIGIN of one octet whose flags ask for a length of two.
#[test]
fn the_advice_for_attributes_names_what_bird_does() {
    let dump = table_dump(1, 10, &[0x50, 1, 1, 0]);
    run_fed(&["check", "-"], &dump)
        .ended(1)
        .told("fault 11 at octet 34 ")
        .told("Often: BIRD 2.0.7, which in table dumps sets the flag for a length of two octets");
    run_fed(&["check", "-"], &table_dump(1, 10, &[0x50, 1, 0, 1, 0])).ended(0);
}
