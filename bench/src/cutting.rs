//! The cut: compared, and timed.

use crate::made::Made;
use crate::plain_cut::Answer;
use crate::random::Random;
use crate::{plain_cut, proved, small, timing};
use std::hint::black_box;

const DAMAGED: usize = 20_000;
const CANARY: u8 = 0xa5;
const BEHIND: usize = 64;

/// A window and a list.
pub struct Ask {
    pub from: u64,
    pub to: u64,
    pub list: Vec<u32>,
}

impl Ask {
    /// Every time, without every tenth peer.
    pub fn whole(made: &Made) -> Ask {
        Ask { from: 0, to: u64::MAX, list: made.numbers.iter().copied().step_by(10).collect() }
    }

    /// The middle half of the time, without every tenth peer.
    pub fn half(made: &Made) -> Ask {
        let [first, last] = [made.seconds.start(), made.seconds.end()];
        let [first, last] = [first, last].map(|second| u64::from(*second) * 1_000_000);
        let quarter = (last - first) / 4;
        Ask { from: first + quarter, to: last - quarter, ..Ask::whole(made) }
    }

    /// Times from 0 to 6 seconds, about the small dumps' ones, and at the end of all times.
    fn random(random: &mut Random) -> Ask {
        let mut time = || match random.within(0, 9) {
            0..=6 => random.within(0, 6) as u64 * 1_000_000,
            7 => random.within(0, 6_000_000) as u64,
            8 => u64::from(u32::MAX) + 4_000_000,
            _ => u64::MAX,
        };
        let (one, other) = (time(), time());
        let (from, to) = (one.min(other), one.max(other));
        let (from, to) = if random.once_in(20) { (to, from) } else { (from, to) };
        let list = if random.once_in(50) { long_list(random) } else { short_list(random) };
        Ask { from, to, list }
    }

    pub fn proved(&self, dump: &[u8], out: &mut [u8]) -> Answer {
        proved::cut(dump, self.from, self.to, &self.list, out)
    }

    pub fn plain(&self, dump: &[u8], out: &mut [u8]) -> Answer {
        plain_cut::cut(dump, self.from, self.to, &self.list, out)
    }

    /// Both cuts, which must be the same in all octets of a buffer longer than the room.
    pub fn both(&self, name: &str, dump: &[u8], room: usize) -> (Answer, Vec<u8>) {
        let mut buffers = [(); 2].map(|_| vec![CANARY; room + BEHIND]);
        let [one, other] = &mut buffers;
        let answer = self.plain(dump, &mut one[..room]);
        assert_eq!(self.proved(dump, &mut other[..room]), answer, "{name}");
        assert!(one == other, "{name}: other octets in the buffers");
        let written = answer.written as usize;
        assert!(one[written..].iter().all(|octet| *octet == CANARY), "{name}: past the end");
        let [mut octets, _] = buffers;
        octets.truncate(written);
        (answer, octets)
    }
}

/// Up to 3 of the small dumps' numbers.
fn short_list(random: &mut Random) -> Vec<u32> {
    (0..random.within(0, 3)).map(|_| small::number(random)).collect()
}

/// The same among some hundred others: any numbers, numbers alike in their last 16 bits with the
/// small dumps' ones, and repeats.
fn long_list(random: &mut Random) -> Vec<u32> {
    let mut list = short_list(random);
    for count in list.len()..random.within(300, 1000) {
        list.push(match random.within(0, 3) {
            0 if count > 0 => list[random.within(0, count - 1)],
            1 => random.next() as u32,
            _ => small::number(random) ^ (random.next() as u32) << 16,
        });
    }
    random.shuffle(&mut list);
    list
}

pub fn compare() {
    let mut random = Random::new(2);
    let mut answers = [0; 18];
    let mut changed = 0;
    for number in 0..DAMAGED {
        let mut dump = small::dump(&mut random);
        if random.once_in(2) {
            small::damage(&mut random, &mut dump);
        }
        let ask = Ask::random(&mut random);
        let room = if random.once_in(2) { random.within(0, dump.len() + 20) } else { dump.len() };
        let (answer, octets) = ask.both(&format!("small dump {number}"), &dump, room);
        answers[answer.fault as usize] += 1;
        changed += (answer.fault == 0 && !octets.is_empty() && octets != dump) as usize;
    }
    let is_met = |answer: usize| answers[answer] != 0 || answer == 16;
    assert!((0..18).all(is_met), "an answer that no small cut has: {answers:?}");
    println!(
        "{DAMAGED} cuts of small dumps: the same answers and octets. How often each from 0 on:"
    );
    println!("  {answers:?}; {changed} leave something else than all or nothing");
}

pub fn measure(name: &str, dump: &[u8], ask: &Ask) {
    let (answer, left) = ask.both(name, dump, dump.len());
    assert_eq!(answer.fault, 0, "{name}");
    assert!(!left.is_empty() && left.len() < dump.len(), "{name}");
    let mut buffers = [(); 3].map(|_| vec![0; dump.len()]);
    let [rattle, plain, copy] = &mut buffers;
    let seconds = timing::best(
        dump.len(),
        || _ = black_box(ask.proved(black_box(dump), black_box(rattle))),
        || _ = black_box(ask.plain(black_box(dump), black_box(plain))),
        || black_box(&mut copy[..left.len()]).copy_from_slice(black_box(&left)),
    );
    println!("cut, {name}: {} octets, {} are left", dump.len(), left.len());
    timing::print(seconds, dump.len(), left.len());
}
