//! The documents' examples, and their neighbours.

use super::parts::{changes, counted, own};
use super::Book;
use crate::report::Report;
use crate::sample;

pub fn add(book: &mut Book) {
    book.adds("example-empty", &Report::default(), &[], &own(0, 0, &[]));
    book.adds("example-empty-counted", &counted(), &[], &own(0, 0, &[]));
    book.refused("example-11-zero-octets", &counted(), &[0; 11], (1, 0));
    document_02(book);
    book.chance("sample", &Report::default(), sample::octets());
    book.chance("sample-counted", &counted(), sample::octets());
}

/// Changes 3 to 4 twice and 4 to 6 once, in each order, and added to others.
fn document_02(book: &mut Book) {
    let meant = own(3, 0, &[(3, 4), (3, 4), (4, 6)]);
    let orders = [
        ("last", [(3, 4), (3, 4), (4, 6)]),
        ("between", [(3, 4), (4, 6), (3, 4)]),
        ("first", [(4, 6), (3, 4), (3, 4)]),
    ];
    for (name, order) in orders {
        let name = format!("example-changes-4-6-{name}");
        book.adds(name, &Report::default(), &changes(&order), &meant);
    }
    let dump = changes(&orders[0].1);
    book.adds("example-changes-counted", &counted(), &dump, &meant);
    book.adds("example-changes-twice", &meant, &dump, &meant);
}
