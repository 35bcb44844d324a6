//! The cut: document 01's examples and rules, octets typed in from its text,
//! and the laws that hold for every cut.

use second::cut::{cut, Answer};
use second::cut_cases::random::{ask, dump};
use second::cut_cases::Ask;
use second::dump::Dump;
use second::sample;
use second::vectors::rng::Rng;
use second::vectors::Suite;

/// Octets from hexadecimal text, a space between them.
fn hex(text: &str) -> Vec<u8> {
    text.split_whitespace().map(|octet| u8::from_str_radix(octet, 16).unwrap()).collect()
}

/// What is left where nothing is refused, with room for the dump.
fn left(dump: &[u8], start: u64, end: u64, list: &[u32]) -> Vec<u8> {
    let answer = cut(dump, start, end, list, dump.len());
    assert_eq!((answer.fault, answer.place), (0, 0));
    answer.octets
}

fn refusal(fault: u8, place: usize) -> Answer {
    Answer { fault, place, octets: Vec::new() }
}

/// Peers 10, 20 and 30, at second 3.
const THREE_PEERS: &str = "00 00 00 03 00 0d 00 01 00 00 00 2f \
    c6 33 64 04 00 00 00 03 \
    02 c0 00 02 01 c0 00 02 01 00 00 00 0a \
    02 c0 00 02 02 c0 00 02 02 00 00 00 14 \
    02 c0 00 02 03 c0 00 02 03 00 00 00 1e";

/// An entry of each, at second 5. The prefix has bits set past its length.
const THREE_ENTRIES: &str = "00 00 00 05 00 0d 00 02 00 00 00 25 \
    00 00 00 2a 09 0a ff 00 03 \
    00 00 00 00 00 01 00 00 \
    00 01 00 00 00 02 00 04 40 01 01 00 \
    00 02 00 00 00 03 00 00";

fn three_peers_and_entries() -> Vec<u8> {
    [hex(THREE_PEERS), hex(THREE_ENTRIES)].concat()
}

#[test]
fn muting_20_of_10_20_30() {
    let expected = "00 00 00 03 00 0d 00 01 00 00 00 22 \
        c6 33 64 04 00 00 00 02 \
        02 c0 00 02 01 c0 00 02 01 00 00 00 0a \
        02 c0 00 02 03 c0 00 02 03 00 00 00 1e \
        00 00 00 05 00 0d 00 02 00 00 00 19 \
        00 00 00 2a 09 0a ff 00 02 \
        00 00 00 00 00 01 00 00 \
        00 01 00 00 00 03 00 00";
    let dump = three_peers_and_entries();
    assert_eq!(left(&dump, 5_000_000, 5_000_001, &[20]), hex(expected));
}

#[test]
fn muting_10_moves_both_others() {
    let expected = "00 00 00 03 00 0d 00 01 00 00 00 22 \
        c6 33 64 04 00 00 00 02 \
        02 c0 00 02 02 c0 00 02 02 00 00 00 14 \
        02 c0 00 02 03 c0 00 02 03 00 00 00 1e \
        00 00 00 05 00 0d 00 02 00 00 00 1d \
        00 00 00 2a 09 0a ff 00 02 \
        00 00 00 00 00 02 00 04 40 01 01 00 \
        00 01 00 00 00 03 00 00";
    let dump = three_peers_and_entries();
    assert_eq!(left(&dump, 0, u64::MAX, &[10]), hex(expected));
}

#[test]
fn muting_all_leaves_an_empty_table() {
    let table = "00 00 00 03 00 0d 00 01 00 00 00 08 c6 33 64 04 00 00 00 00";
    let dump = three_peers_and_entries();
    assert_eq!(left(&dump, 0, u64::MAX, &[30, 10, 20, 10]), hex(table));
    let no_entries = hex("00 00 00 05 00 0d 00 02 00 00 00 07 00 00 00 2a 00 00 00");
    let dump = [dump, no_entries.clone()].concat();
    assert_eq!(left(&dump, 0, u64::MAX, &[30, 10, 20]), [hex(table), no_entries].concat());
}

#[test]
fn five_to_five_leaves_only_tables() {
    let at_five_micros = "00 00 00 00 00 21 00 00 00 00 00 04 00 00 00 05";
    let dump = [three_peers_and_entries(), hex(at_five_micros), hex(THREE_PEERS)].concat();
    let tables = [hex(THREE_PEERS), hex(THREE_PEERS)].concat();
    assert_eq!(left(&dump, 5, 5, &[]), tables);
    assert_eq!(left(&dump, 5_000_000, 5_000_000, &[]), tables);
    assert_eq!(left(&dump, 0, u64::MAX, &[]), dump);
}

/// A state change of type 17, subtype 5 at second 1, 1,500,000 microseconds.
fn change(asn: &str) -> Vec<u8> {
    hex(&format!(
        "00 00 00 01 00 11 00 05 00 00 00 1c 00 16 e3 60 {asn} 00 00 fb f1 00 00 00 01 \
         c0 00 02 55 c6 33 64 04 00 03 00 04"
    ))
}

#[test]
fn microseconds_count_past_a_second() {
    let dump = change("00 00 00 0a");
    assert_eq!(left(&dump, 2_500_000, 2_500_001, &[]), dump);
    assert_eq!(left(&dump, 2_500_001, 3_000_000, &[]), []);
    assert_eq!(left(&dump, 1_000_000, 2_500_000, &[]), []);
}

#[test]
fn all_32_bits_of_an_as_count() {
    let (ten, more) = (change("00 00 00 0a"), change("00 01 00 0a"));
    let dump = [&ten[..], &more].concat();
    assert_eq!(left(&dump, 0, u64::MAX, &[10]), more);
    assert_eq!(left(&dump, 0, u64::MAX, &[65_546]), ten);
    // Local AS 64,497.
    assert_eq!(left(&dump, 0, u64::MAX, &[64_497]), dump);
    // Type 12 with peer AS 10 in two octets.
    let old = hex("00 00 00 01 00 0c 00 01 00 00 00 16 00 00 00 01 c0 00 02 00 18 01 \
                   00 00 00 05 c0 00 02 09 00 0a 00 00");
    assert_eq!(left(&old, 0, u64::MAX, &[65_546, 655_360]), old);
    assert_eq!(left(&old, 0, u64::MAX, &[10]), []);
}

#[test]
fn each_table_has_its_own_numbering() {
    let table = |one, other| {
        hex(&format!(
            "00 00 00 00 00 0d 00 01 00 00 00 1e 00 00 00 00 00 00 00 02 \
             fc 01 01 01 01 02 02 02 02 00 {one} fc 01 01 01 01 02 02 02 02 00 {other}"
        ))
    };
    let single = |one| {
        hex(&format!(
            "00 00 00 00 00 0d 00 01 00 00 00 13 00 00 00 00 00 00 00 01 \
             fc 01 01 01 01 02 02 02 02 00 {one}"
        ))
    };
    let route = |index| {
        hex(&format!(
            "00 00 00 00 00 0d 00 06 00 00 00 13 00 00 00 07 00 02 02 01 ff 00 01 \
             00 {index} 00 00 00 09 00 00"
        ))
    };
    let dump =
        [table("0a", "14"), route("01"), table("14", "0a"), route("01"), route("00")].concat();
    let expected = [single("14"), route("00"), single("14"), route("00")].concat();
    assert_eq!(left(&dump, 0, 1, &[10]), expected);
}

#[test]
fn refusals_in_order() {
    let good = three_peers_and_entries();
    let broken = [&good[..], &[0; 12]].concat();
    assert_eq!(cut(&broken, 1, 0, &[], 0), refusal(14, 0));
    assert_eq!(cut(&broken, 1, 1, &[], 0), refusal(3, good.len() + 4));
    assert_eq!(cut(&good[..70], 0, 0, &[], 0), refusal(1, 59));
    assert_eq!(cut(&good, 0, 0, &[], 58), refusal(15, 0));
    assert_eq!(cut(&good, 0, 0, &[], 59).octets, hex(THREE_PEERS));
    assert_eq!(cut(&[], 0, 0, &[], 0), refusal(0, 0));
}

/// Good dumps of every kind that there is here.
fn good_dumps() -> Vec<Vec<u8>> {
    let suite = Suite::generate();
    let vectors = suite.iter().map(|(_, vector)| vector.octets.clone());
    let small = vectors.filter(|octets| octets.len() < 5_000);
    let accepted = small.filter(|octets| Dump::read(octets).end.fault.is_none());
    accepted.chain([sample::octets()]).collect()
}

/// A random dump, or now and then one of the given.
fn any_dump(rng: &mut Rng, given: &[Vec<u8>]) -> Vec<u8> {
    match rng.below(5) {
        0 => rng.pick(given).clone(),
        _ => dump(rng),
    }
}

fn whole_cut(ask: &Ask, dump: &[u8]) -> Vec<u8> {
    left(dump, ask.start, ask.end, &ask.list)
}

#[test]
fn results_are_accepted_and_not_longer() {
    let given = good_dumps();
    let mut rng = Rng::seeded(3);
    let mut changed = 0;
    for _ in 0..20_000 {
        let (dump, ask) = (any_dump(&mut rng, &given), ask(&mut rng));
        let result = whole_cut(&ask, &dump);
        assert!(result.len() <= dump.len());
        assert_eq!(Dump::read(&result).end.number(), 0);
        changed += usize::from(!result.is_empty() && result != dump);
    }
    assert!(changed > 5_000);
}

/// Where the windows do not overlap, this gives an empty one.
fn both(one: &Ask, other: &Ask) -> Ask {
    let start = one.start.max(other.start);
    let end = one.end.min(other.end).max(start);
    Ask { start, end, list: [&one.list[..], &other.list].concat() }
}

#[test]
fn two_cuts_are_one() {
    let given = good_dumps();
    let mut rng = Rng::seeded(4);
    for _ in 0..20_000 {
        let dump = any_dump(&mut rng, &given);
        let (one, other) = (ask(&mut rng), ask(&mut rng));
        let twice = whole_cut(&other, &whole_cut(&one, &dump));
        assert_eq!(twice, whole_cut(&both(&one, &other), &dump));
    }
}

#[test]
fn cut_of_two_dumps_is_two_cuts() {
    let given = good_dumps();
    let mut rng = Rng::seeded(5);
    for _ in 0..20_000 {
        let (one, other) = (any_dump(&mut rng, &given), any_dump(&mut rng, &given));
        let ask = ask(&mut rng);
        let together = whole_cut(&ask, &[&one[..], &other].concat());
        assert_eq!(together, [whole_cut(&ask, &one), whole_cut(&ask, &other)].concat());
    }
}

/// With everything inside and nobody muted, the dump itself is left.
#[test]
fn widest_cut_changes_nothing() {
    for dump in good_dumps() {
        assert_eq!(whole_cut(&Ask::whole(), &dump), dump);
    }
}

/// A room decides only whether there is a result, never which.
#[test]
fn rooms() {
    let mut rng = Rng::seeded(6);
    for _ in 0..2_000 {
        let (dump, ask) = (dump(&mut rng), ask(&mut rng));
        let result = whole_cut(&ask, &dump);
        assert_eq!(ask.cut(&dump, result.len()).octets, result);
        if !result.is_empty() {
            let room = rng.below(result.len());
            assert_eq!(ask.cut(&dump, room), refusal(15, 0));
        }
    }
}
