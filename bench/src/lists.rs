//! The cut with short, long and hostile mute lists: whether a number is on the list should take
//! about the same however long the list is, and whatever its numbers are.

use crate::cutting::Ask;
use crate::made::{self, Made, Peer};
use crate::random::Random;
use crate::timing::{self, Series};
use std::collections::HashSet;
use std::hint::black_box;

const MEGABYTE: usize = 1_000_000;

/// As many peers as a table can have, and a dump that has room for records behind them.
const FULL: usize = 65_535;
const FULL_SIZE: usize = 3 * MEGABYTE;

/// All that is timed of lists.
pub fn measure_all() {
    [4, 64].into_iter().for_each(|megabytes| measure_tables(megabytes * MEGABYTE));
    measure_full_table();
    [1, 4, 64].into_iter().for_each(|megabytes| measure_updates(megabytes * MEGABYTE));
    measure_last_bits();
    measure_grids();
    measure_steps();
    measure_chains();
    measure_past_the_room();
}

/// Every tenth peer muted, of few and of many. An octet of the second should take at most 1.2 times
/// what one of the first takes.
fn measure_tables(size: usize) {
    let [few, many] = [20, 20_000].map(|count| {
        let mut random = Random::new(31);
        let peers = different_peers(&mut random, count);
        made::drawn_table(&mut random, size, &peers)
    });
    let [short, long] = [&few, &many].map(|made| shuffled(Ask::whole(made).list));
    measure(vec![Line::new("table", &few, short, 2), Line::new("table", &many, long, 2_000)]);
}

/// A full table, muted in part and whole; then whole by lists in order, which some ways to sort or
/// to build a tree take badly. Muted whole it should take at most 0.5 s.
fn measure_full_table() {
    let mut random = Random::new(32);
    let peers = different_peers(&mut random, FULL);
    let made = made::drawn_table(&mut random, FULL_SIZE, &peers);
    let mut numbers = shuffled(made.numbers.clone());
    for count in [100, 10_000, FULL] {
        measure(vec![Line::new("full table", &made, numbers[..count].to_vec(), count)]);
    }
    numbers.sort_unstable();
    measure(vec![Line::new("full table, in rising order", &made, numbers.clone(), FULL)]);
    numbers.reverse();
    measure(vec![Line::new("full table, in falling order", &made, numbers, FULL)]);
}

/// Three of 30 peers muted by lists of any length. With 10,000 numbers an octet should take at most
/// 1.2 times what it takes with 3; 100,000 are more than a room for a full table's peers holds.
/// Numbers like the peers' are asked for in every record here, and in a table once a peer.
fn measure_updates(size: usize) {
    let made = made::updates(size);
    let short = Ask::whole(&made).list;
    let others = different(&mut Random::new(33), 100_000, &made.numbers);
    let alike = made.numbers.iter().flat_map(|number| (1..=2184).map(move |i| number ^ i << 16));
    let alike: Vec<u32> = alike.collect();
    let chains: Vec<u32> = made.numbers.iter().flat_map(|number| before(*number)).collect();
    let with = |others: &[u32]| shuffled([&short, others].concat());
    measure(vec![
        Line::new("updates", &made, short.clone(), 3),
        Line::new("updates", &made, with(&others[..10_000 - 3]), 3),
        Line::new("updates", &made, with(&others[..100_000 - 3]), 3),
        Line::new("updates, alike in 16 bits with peers", &made, with(&alike), 3),
        Line::new("updates, a chain before each peer", &made, [&chains[..], &short].concat(), 3),
        Line::new("updates", &made, Vec::new(), 0),
    ]);
}

/// Numbers that are alike in their last 16 bits: sorted by those bits all are in one place.
fn measure_last_bits() {
    let alike: Vec<u32> = (0..=65_535).map(|first| first << 16 | 5).collect();
    let mixed = shuffled(alike.clone());
    measure_hostile("alike in 16 bits", &mixed[..FULL], shuffled(mixed[..FULL].to_vec()), FULL);
    measure_halves("alike in 16 bits", &mixed);
    measure_hostile("alike in 16 bits with one number many times", &alike[1..], vec![5; FULL], 0);
}

/// Few values of the last 16 bits, each with few of the first. With small ones the sum and the
/// difference of the two have few values, too.
fn measure_grids() {
    let small: Vec<u32> = (0..256).collect();
    let any = shuffled((0..=65_535).collect());
    measure_grid("a grid of small halves", &small, &small);
    measure_grid("a grid of any halves", &any[..256], &any[256..512]);
}

fn measure_grid(name: &str, first: &[u32], last: &[u32]) {
    let grid = first.iter().flat_map(|first| last.iter().map(move |last| first << 16 | last));
    let grid = shuffled(grid.collect());
    measure_hostile(name, &grid[..FULL], shuffled(grid[..FULL].to_vec()), FULL);
    measure_halves(name, &grid);
}

/// Numbers whose distances are powers of two as large as can be, in that order: each new one is
/// like those before it in as many last bits as it can.
fn measure_steps() {
    let steps = (0..=65_535_u16).map(|count| u32::from(count.reverse_bits()) << 16 | 5);
    let steps: Vec<u32> = steps.collect();
    measure_hostile("steps of powers of two", &steps[..FULL], steps[..FULL].to_vec(), FULL);
    measure_halves("steps of powers of two", &steps);
}

/// Sixteen numbers, each alike to this one in a bit more, from the 17th last on. Whoever goes by one
/// bit after the other passes all of them before it comes to this one.
fn before(number: u32) -> impl Iterator<Item = u32> {
    (16..32).map(move |bit| number ^ 1 << bit)
}

/// As many chains as the list of a full table has room for, and all peers the last of one.
fn measure_chains() {
    let mut random = Random::new(37);
    let lasts = (0..FULL as u32 / 17).map(|last| (random.next() as u32) << 16 | last);
    let lasts: Vec<u32> = lasts.collect();
    let list: Vec<u32> = lasts.iter().flat_map(|last| before(*last).chain([*last])).collect();
    measure_hostile("the last of chains", &lasts, list, FULL);
}

/// A list of twice as many numbers as a table can have peers; what a room for so many leaves out
/// are the peers' numbers.
fn measure_past_the_room() {
    let list = different(&mut Random::new(34), 2 * FULL, &[]);
    let numbers = shuffled(list[FULL..].to_vec());
    measure_hostile("the second half of the list", &numbers, list, FULL);
}

/// Half of the numbers on the list, and the others the peers': none is found, and all have to be
/// told from numbers that are like them.
fn measure_halves(name: &str, numbers: &[u32]) {
    let (list, others) = numbers.split_at(FULL / 2);
    measure_hostile(name, &others[..FULL - FULL / 2], list.to_vec(), 0);
}

/// A full table of peers with these numbers, some of them more than once if they are too few.
fn measure_hostile(name: &str, numbers: &[u32], list: Vec<u32>, muted: usize) {
    let mut random = Random::new(35);
    let mut peers = made::peers(&mut random, FULL);
    for (peer, number) in peers.iter_mut().zip(numbers.iter().cycle()) {
        peer.wide_as = true;
        peer.renumber(*number);
    }
    let made = made::drawn_table(&mut random, FULL_SIZE, &peers);
    measure(vec![Line::new(&format!("full table, {name}"), &made, list, muted)]);
}

fn shuffled(mut numbers: Vec<u32>) -> Vec<u32> {
    Random::new(36).shuffle(&mut numbers);
    numbers
}

/// So many numbers, all different and none of those `besides`.
fn different(random: &mut Random, count: usize, besides: &[u32]) -> Vec<u32> {
    let mut met: HashSet<u32> = besides.iter().copied().collect();
    let mut numbers = Vec::with_capacity(count);
    while numbers.len() < count {
        let number = random.next() as u32;
        if met.insert(number) {
            numbers.push(number);
        }
    }
    numbers
}

/// So many peers, a fourth of them with numbers of 16 bits, all different.
fn different_peers(random: &mut Random, count: usize) -> Vec<Peer> {
    let mut peers = made::peers(random, count);
    let mut met = HashSet::new();
    for peer in &mut peers {
        while !met.insert(peer.number()) {
            peer.renumber(random.next() as u32);
        }
    }
    peers
}

/// A cut that is timed.
struct Line<'a> {
    name: String,
    dump: &'a [u8],
    ask: Ask,
    /// How many octets are left.
    left: usize,
    series: Series,
}

impl Line<'_> {
    /// All times, without the peers on the list, which must be so many. Both cuts must be the same.
    fn new<'a>(name: &str, made: &'a Made, list: Vec<u32>, muted: usize) -> Line<'a> {
        let listed: HashSet<u32> = list.iter().copied().collect();
        let found = made.numbers.iter().filter(|number| listed.contains(number)).count();
        assert_eq!(found, muted, "{name}: so many peers are muted");
        let (listed, peers) = (list.len(), made.numbers.len());
        let name = format!("{name}, a list of {listed}, {muted} of {peers} peers muted");
        let ask = Ask { from: 0, to: u64::MAX, list };
        let (answer, left) = ask.both(&name, &made.dump, made.dump.len());
        assert_eq!(answer.fault, 0, "{name}");
        assert_eq!(left == made.dump, muted == 0, "{name}");
        Line { name, dump: &made.dump, ask, left: left.len(), series: Series::new() }
    }

    fn time(&mut self, buffers: &mut [Vec<u8>; 3]) {
        let Line { dump, ask, left, .. } = self;
        let [rattle, plain, copy] = buffers.each_mut().map(|buffer| &mut buffer[..dump.len()]);
        self.series.time(
            || _ = black_box(ask.proved(black_box(dump), black_box(rattle))),
            || _ = black_box(ask.plain(black_box(dump), black_box(plain))),
            || black_box(&mut copy[..*left]).copy_from_slice(black_box(&dump[..*left])),
        );
    }

    /// Nanoseconds an octet, Rattle's and plain Rust's.
    fn an_octet(&self) -> [f64; 2] {
        let [rattle, plain, _] = self.series.seconds();
        [rattle, plain].map(|seconds| 1e9 * seconds / self.dump.len() as f64)
    }

    fn print(&self) {
        let Line { name, dump, left, series, .. } = self;
        let (octets, runs) = (dump.len(), series.runs());
        println!("cut, {name}: {octets} octets, {left} are left, best of {runs}");
        timing::print(series.seconds(), octets, *left);
    }
}

/// Times the lines in turn, so that what else the machine does falls on all of them, and prints
/// each; those after the first with their times an octet over its.
fn measure(mut lines: Vec<Line>) {
    let longest = lines.iter().map(|line| line.dump.len()).max().unwrap_or(0);
    // Not 0: memory that was never written is got in a first run, which would take longer for it.
    let mut buffers = [(); 3].map(|_| vec![1; longest]);
    while lines.iter().any(|line| line.series.goes_on()) {
        for line in lines.iter_mut().filter(|line| line.series.goes_on()) {
            line.time(&mut buffers);
        }
    }
    let [first_rattle, first_plain] = lines[0].an_octet();
    for (place, line) in lines.iter().enumerate() {
        line.print();
        let [rattle, plain] = line.an_octet();
        println!("  time an octet: Rattle {rattle:.3} ns, plain {plain:.3} ns");
        if place > 0 {
            let ratios = [rattle / first_rattle, plain / first_plain];
            println!("  over the first's: Rattle {:.2}, plain {:.2}", ratios[0], ratios[1]);
        }
    }
}
