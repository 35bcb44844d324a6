//! Every layout as it should be, too short, and too long.

use super::rng::Rng;
use super::shapes::{self, state_change, Depth, Shape};
use super::sketch::Span;
use super::slip::Slip;
use super::Suite;
use crate::net::Family::V4;

pub fn add(suite: &mut Suite) {
    let mut rng = Rng::seeded(6396);
    for shape in shapes::all() {
        good(suite, &shape);
        ends_early(suite, &shape, &mut rng);
        file_ends(suite, &shape, &mut rng);
        too_long(suite, &shape);
    }
}

/// Every layout that stops at every octet, alone, before a good record and behind one
/// with microseconds: more than are worth a file.
pub fn at_every_octet(suite: &mut Suite) {
    shapes::all().iter().for_each(|shape| at_every_octet_of(suite, shape));
}

fn at_every_octet_of(suite: &mut Suite, shape: &Shape) {
    let other = state_change(17, 5, V4).record();
    let later = [std::slice::from_ref(&other), &shape.before[..]].concat();
    for size in shape.sizes_too_short() {
        let slip = shape.sketch.cut_short(size);
        let name = |how| format!("{}-{size}-{how}", shape.name);
        suite.bad(name("alone"), &shape.before, slip.clone());
        suite.bad(name("first"), &shape.before, slip.clone().then(&other));
        suite.bad(name("later"), &later, slip);
    }
}

fn good(suite: &mut Suite, shape: &Shape) {
    let records = [&shape.before[..], &[shape.sketch.record()]].concat();
    suite.good(format!("{}-good", shape.name), &records);
}

/// The message stops in some field, and Length says so.
fn ends_early(suite: &mut Suite, shape: &Shape, rng: &mut Rng) {
    for span in picked(shape, rng) {
        let size = span.end - span.start;
        if shape.depth == Depth::Full || size == 1 {
            ends_at(suite, shape, "ends-before", &span, span.start);
        }
        if size > 1 {
            ends_at(suite, shape, "ends-inside", &span, span.start + 1 + rng.below(size - 1));
        }
        if shape.depth == Depth::Full && size > 2 && span.name != "contents" {
            ends_at(suite, shape, "ends-one-into", &span, span.start + 1);
            ends_at(suite, shape, "ends-one-short-of", &span, span.end - 1);
        }
    }
}

fn picked(shape: &Shape, rng: &mut Rng) -> Vec<Span> {
    let mut spans = shape.sketch.spans();
    spans.retain(|span| span.end > span.start);
    if shape.depth == Depth::Few {
        while spans.len() > 2 {
            spans.remove(rng.below(spans.len()));
        }
    }
    spans
}

fn ends_at(suite: &mut Suite, shape: &Shape, how: &str, span: &Span, size: usize) {
    let name = format!("{}-{how}-{}", shape.name, span.name);
    if span.name == "contents" {
        let record = shape.sketch.ending_at(size).record();
        suite.good(name, &[&shape.before[..], &[record]].concat());
    } else {
        suite.bad(name, &shape.before, shape.sketch.cut_short(size));
    }
}

/// The file stops, and Length does not say so.
fn file_ends(suite: &mut Suite, shape: &Shape, rng: &mut Rng) {
    let record = shape.sketch.record();
    let inside = 12 + rng.below(record.len() - 12);
    let header = 1 + rng.below(11);
    let name = |what| format!("{}-file-{what}", shape.name);
    suite.bad(name("ends-in-message"), &shape.before, Slip::whole(2, &record[..inside]));
    if shape.depth == Depth::Full {
        let shorter = Slip::whole(2, &record[..record.len() - 1]);
        suite.bad(name("lacks-last-octet"), &shape.before, shorter);
        suite.bad(name("ends-in-header"), &shape.before, Slip::whole(1, &record[..header]));
    }
}

fn too_long(suite: &mut Suite, shape: &Shape) {
    let name = format!("{}-one-too-many", shape.name);
    if shape.is_unread() {
        let record = shape.sketch.followed_by(&[0]).record();
        suite.good(name, &[&shape.before[..], &[record]].concat());
    } else {
        suite.bad(name, &shape.before, shape.too_long(&[0]));
    }
}
