//! Every layout inside the window, outside it, and muted.

use super::{Ask, Book};
use crate::vectors::shapes::{self, Depth, Shape};

/// When the records are, in whole seconds.
const SECOND: u32 = 5;

pub fn add(book: &mut Book) {
    for shape in shapes::all() {
        in_time(book, &shape);
        if peer_as(&shape).is_some() {
            muted(book, &shape);
        }
    }
}

fn code(shape: &Shape) -> &str {
    shape.name.split('-').next().unwrap_or_default()
}

/// The microseconds that the shapes come with.
fn time(shape: &Shape) -> u64 {
    let micro = match code(shape) {
        "17" => 999_999,
        "33" | "49" => 250_000,
        _ => 0,
    };
    u64::from(SECOND) * 1_000_000 + micro
}

/// The peer AS that the shapes come with.
fn peer_as(shape: &Shape) -> Option<u32> {
    match code(shape) {
        "12" => Some(64_499),
        "16" | "17" => Some(64_496),
        _ => None,
    }
}

fn dump(shape: &Shape) -> Vec<Vec<u8>> {
    [&shape.before[..], &[shape.sketch.clone().at(SECOND).record()]].concat()
}

/// What stays at any time.
fn tables(shape: &Shape) -> Vec<Vec<u8>> {
    if shape.name.starts_with("13-1-") {
        dump(shape)
    } else {
        shape.before.clone()
    }
}

fn in_time(book: &mut Book, shape: &Shape) {
    let (dump, tables, time) = (dump(shape), tables(shape), time(shape));
    let name = |what| format!("type-{}-{what}", shape.name);
    book.left(name("at-start"), &Ask::window(time, time + 1), &dump, &dump);
    book.left(name("at-end"), &Ask::window(0, time), &dump, &tables);
    if shape.depth == Depth::Full {
        book.left(name("too-early"), &Ask::window(time + 1, u64::MAX), &dump, &tables);
    }
}

fn muted(book: &mut Book, shape: &Shape) {
    let (dump, asn) = (dump(shape), peer_as(shape).unwrap_or_default());
    let name = |what| format!("type-{}-{what}", shape.name);
    book.left(name("muted"), &Ask::whole().muting(&[asn]), &dump, &[]);
    // Local AS, interface and numbers next to the peer's; none of them counts.
    let others = [64_497, 7, asn - 1, asn + 65_536, asn << 16];
    if shape.depth != Depth::Few {
        book.left(name("others-muted"), &Ask::whole().muting(&others), &dump, &dump);
    }
}
