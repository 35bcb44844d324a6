//! State changes and BGP messages, field by field.

use super::fields::{shorten, Call, Field};
use super::parts::{from, session, SECONDS};
use super::tables::{micro, seconds};
use super::Book;
use crate::net::Family::{self, V4, V6};
use crate::vectors::shapes;
use crate::writers::{Change, Given, Message, Session};

pub fn add(book: &mut Book) {
    change("change-0-v4", 0, false, V4).add(book);
    change("change-5-v6-micro", 5, true, V6).add(book);
    change("change-5-v4", 5, false, V4).add_short(book);
    change("change-0-v6-micro", 0, true, V6).add_short(book);
    message("message-1-v4", 1, false, V4).add(book);
    message("message-4-v6-micro", 4, true, V6).add_short(book);
    message("message-6-v6", 6, false, V6).add_short(book);
    message("message-7-v4-micro", 7, true, V4).add_short(book);
    lengths(book);
}

/// A writer's fields that start with a session.
trait WithSession: Clone + 'static {
    fn session(&mut self) -> &mut Session;
}

impl WithSession for Change {
    fn session(&mut self) -> &mut Session {
        &mut self.session
    }
}

impl WithSession for Message {
    fn session(&mut self) -> &mut Session {
        &mut self.session
    }
}

/// `others` are subtypes of another layout, or of none.
fn head<T: WithSession>(subtype: u16, timed: bool, others: &[u64]) -> Vec<Field<T>> {
    let mut fields = vec![
        Field::carried("timestamp", 4, SECONDS, |given: &mut T| seconds(&mut given.session().time)),
        Field::number("subtype", 2, subtype.into(), |given: &mut T| &mut given.session().subtype)
            .not(others, 4),
    ];
    if timed {
        fields.push(Field::carried("micro", 4, 999_999, |given: &mut T| {
            micro(&mut given.session().time)
        }));
    }
    fields
}

fn ends<T: WithSession>(subtype: u16, family: Family) -> Vec<Field<T>> {
    let width = if matches!(subtype, 4 | 5 | 7) { 4 } else { 2 };
    vec![
        Field::carried("peer-as", width, 64_496, |given: &mut T| &mut given.session().peer_as),
        Field::carried("local-as", width, 64_497, |given: &mut T| &mut given.session().local_as),
        Field::carried("interface", 2, 7, |given: &mut T| &mut given.session().interface),
        Field::number("family", 2, family.code().into(), |given: &mut T| {
            &mut given.session().family
        })
        .not(&[0, 3, 257, 65_535], 7),
        Field::sized("peer-address", |given: &mut T| &mut given.session().peer_address),
        Field::sized("local-address", |given: &mut T| &mut given.session().local_address),
    ]
}

fn change(name: &'static str, subtype: u16, timed: bool, family: Family) -> Call<Change> {
    let mut fields = head(subtype, timed, &[1, 2, 3, 4, 6, 7, 8, 256]);
    fields.extend(ends(subtype, family));
    let state = |name, fine, at: fn(&mut Change) -> &mut u64| {
        Field::number(name, 2, fine, at).not(&[0, 7, 65_535, 259], 9).or(&[1, 2, 5, 6])
    };
    fields.push(state("old-state", 3, |given| &mut given.old));
    fields.push(state("new-state", 4, |given| &mut given.new));
    Call {
        name,
        good: Change { session: session(subtype, timed, family), old: 3, new: 4 },
        sketch: shapes::state_change(if timed { 17 } else { 16 }, subtype, family),
        fields,
        given: Given::Change,
    }
}

fn message(name: &'static str, subtype: u16, timed: bool, family: Family) -> Call<Message> {
    let mut fields = head(subtype, timed, &[0, 2, 3, 5, 8, 257]);
    fields.extend(ends(subtype, family));
    fields.push(
        Field::part("message")
            .slip("short", 5, |given: &mut Message| shorten(&mut given.message))
            .slip("length-18", 10, |given| given.message[17] = 18)
            .slip("long", 6, |given| given.message.push(0))
            .slip("none", 5, |given| given.message.clear())
            .slip("18", 5, |given| given.message.truncate(18))
            .slip("length-4097", 10, |given| given.message[16..18].copy_from_slice(&[16, 1])),
    );
    let sketch = shapes::withdrawal(if timed { 17 } else { 16 }, subtype, family);
    Call {
        name,
        good: Message {
            session: session(subtype, timed, family),
            message: from(&sketch, "marker"),
        },
        sketch,
        fields,
        given: Given::Message,
    }
}

/// A message whose length field says `claimed`, of `there` octets.
fn claiming(claimed: u16, there: usize) -> Given {
    let mut message = vec![0xff; 16];
    message.extend(claimed.to_be_bytes());
    message.resize(there, 4);
    Given::Message(Message { session: session(1, false, V4), message })
}

/// The length field at its bounds, and beside what is there.
fn lengths(book: &mut Book) {
    let faults = [
        (19, 19, 0),
        (18, 19, 10),
        (18, 18, 5),
        (0, 19, 10),
        (20, 19, 5),
        (19, 20, 6),
        (4_096, 4_096, 0),
        (4_096, 4_095, 5),
        (4_096, 4_097, 6),
        (4_097, 4_097, 10),
        (4_097, 19, 10),
        (275, 19, 5),
        (19, 275, 6),
        (65_535, 19, 10),
    ];
    for (claimed, there, fault) in faults {
        let name = format!("bgp-length-{claimed}-of-{there}");
        if fault == 0 {
            let kind = shapes::bgp_message(16, 1, V4, 4, &vec![4; there - 19]);
            book.good(name, claiming(claimed, there), 8_192, &kind.record());
        } else {
            book.bad(name, claiming(claimed, there), 8_192, fault);
        }
    }
}
