//! Lists of numbers that part as late as they can: whoever tells numbers apart
//! by one bit after the other needs all bits for them, from either end.

use super::lists::{case, reversed, shuffled};
use super::Book;

/// The same lower half behind upper halves of all sorts; the first fits in two
/// octets.
const LASTS: [(&str, u32); 3] =
    [("zeros", 0x0000_2b67), ("ones", 0xffff_2b67), ("mixed", 0xa5c3_2b67)];

pub fn add(book: &mut Book) {
    for (what, last) in LASTS {
        whole(book, what, last);
    }
    without_one(book, "up", &chain(LASTS[2].1));
    without_one(book, "down", &reversed(&chain(LASTS[1].1)));
    two(book);
}

/// Seventeen numbers alike in 16 bits, each alike to the last one in one bit
/// more than the number before it is.
pub fn chain(last: u32) -> Vec<u32> {
    (16..32).map(|bit| last ^ 1 << bit).chain([last]).collect()
}

/// Numbers that part from the last one at each depth but the deepest, where only
/// a number of the chain does; none is in the chain.
pub fn parting(last: u32) -> Vec<u32> {
    (16..31).map(|bit| last ^ 3 << bit).collect()
}

fn whole(book: &mut Book, what: &str, last: u32) {
    let chain = chain(last);
    let lists =
        [("up", chain.clone()), ("down", reversed(&chain)), ("shuffled", shuffled(&chain, 7))];
    for (order, list) in lists {
        case(book, &format!("chain-{what}-{order}"), &list, &chain, &parting(last));
    }
}

/// All but one, which is the number that parts at that depth and is not listed.
fn without_one(book: &mut Book, order: &str, chain: &[u32]) {
    for place in 0..chain.len() {
        let mut list = chain.to_vec();
        let missing = list.remove(place);
        case(book, &format!("chain-{order}-without-{place}"), &list, &list, &[missing]);
    }
}

/// Two chains with one lower half, listed in turn.
fn two(book: &mut Book) {
    let [zeros, ones] = [LASTS[0].1, LASTS[1].1];
    let list: Vec<u32> =
        chain(zeros).into_iter().zip(chain(ones)).flat_map(|(one, other)| [one, other]).collect();
    case(book, "chain-two", &list, &list, &[parting(zeros), parting(ones)].concat());
}
