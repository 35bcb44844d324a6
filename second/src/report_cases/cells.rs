//! State changes: every cell of the table, every kind of record.

use super::parts::{changes, counted, own, states};
use super::Book;
use crate::net::Family;
use crate::report::Report;
use crate::vectors::shapes::{
    bgp_message, family_name, state_change, withdrawal, FAMILIES, MESSAGES, STATE_CHANGES,
};

pub fn add(book: &mut Book) {
    alone(book);
    together(book);
    kinds(book);
    messages(book);
}

/// Old and new states, rising.
pub fn all_cells() -> Vec<(u16, u16)> {
    (1..=6).flat_map(|old| (1..=6).map(move |new| (old, new))).collect()
}

/// Each type, subtype and family of a state change.
fn all_kinds() -> Vec<(u16, u16, Family)> {
    let mut kinds = Vec::new();
    for code in [16, 17] {
        for subtype in STATE_CHANGES {
            kinds.extend(FAMILIES.map(|family| (code, subtype, family)));
        }
    }
    kinds
}

fn alone(book: &mut Book) {
    let kinds = all_kinds();
    for ((old, new), (code, subtype, family)) in all_cells().into_iter().zip(kinds.iter().cycle()) {
        let record = states(&state_change(*code, *subtype, *family), old, new).record();
        let name = format!("cell-{old}-{new}");
        book.adds(name, &counted(), &[record], &own(1, 0, &[(old, new)]));
    }
}

fn together(book: &mut Book) {
    let rising = all_cells();
    let falling: Vec<_> = rising.iter().rev().copied().collect();
    let none = Report::default();
    book.adds("cells-all", &none, &changes(&rising), &own(36, 0, &rising));
    book.adds("cells-all-falling", &counted(), &changes(&falling), &own(36, 0, &rising));
    // The first cell once, the next twice, and so on.
    let more: Vec<_> = (1..).zip(&rising).flat_map(|(count, cell)| vec![*cell; count]).collect();
    book.adds("cells-all-different", &none, &changes(&more), &own(more.len(), 0, &more));
    let few = [(6, 1), (1, 6), (6, 1), (2, 2), (6, 6), (1, 1), (6, 1)];
    book.adds("cells-few", &none, &changes(&few), &own(7, 0, &few));
}

fn kinds(book: &mut Book) {
    for (code, subtype, family) in all_kinds() {
        let record = |old, new| states(&state_change(code, subtype, family), old, new).record();
        let dump = [record(5, 6), record(6, 1)];
        let name = format!("change-{code}-{subtype}-{}", family_name(family));
        book.adds(name, &Report::default(), &dump, &own(2, 0, &[(5, 6), (6, 1)]));
    }
}

/// Messages are no state changes, whatever they end in.
fn messages(book: &mut Book) {
    for code in [16, 17] {
        for subtype in MESSAGES {
            let like = bgp_message(code, subtype, Family::V4, 2, &[0, 3, 0, 4]).record();
            let dump = [like, withdrawal(code, subtype, Family::V6).record()];
            let name = format!("message-{code}-{subtype}");
            book.adds(name, &counted(), &dump, &own(2, 0, &[]));
        }
    }
}
