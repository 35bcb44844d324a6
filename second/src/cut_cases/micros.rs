//! Microseconds that are more than a second, and octets that only look so.

use super::parts::{change, withdrawal};
use super::{Ask, Book};
use crate::vectors::shapes::unread;
use crate::vectors::sketch::Sketch;

pub fn add(book: &mut Book) {
    timed(book);
    untimed(book);
}

fn record(code: u16) -> Sketch {
    let sketch = match code {
        17 => withdrawal(17, 4, 10),
        _ => unread(code, 1, b"hello"),
    };
    sketch.at(1)
}

fn timed(book: &mut Book) {
    for code in [17, 33, 49] {
        for micro in [999_999, 1_000_000, 1_500_000, 4_294_967_295] {
            edges(book, &format!("micro-{code}-{micro}"), code, micro);
        }
    }
}

/// Windows that start and end at the record's time, and the second that its
/// Timestamp alone names.
fn edges(book: &mut Book, name: &str, code: u16, micro: u64) {
    let dump = [record(code).set_n("micro", micro).record()];
    let time = 1_000_000 + micro;
    let second = Ask::window(1_000_000, 2_000_000);
    let in_second: &[Vec<u8>] = if micro < 1_000_000 { &dump } else { &[] };
    book.left(format!("{name}-at-start"), &Ask::window(time, time + 1), &dump, &dump);
    book.left(format!("{name}-at-end"), &Ask::window(0, time), &dump, &[]);
    book.left(format!("{name}-own-second"), &second, &dump, in_second);
}

/// Contents that open like 1,500,000 microseconds, in types that have none.
fn untimed(book: &mut Book) {
    let contents = [0, 0x16, 0xe3, 0x60, 1, 2, 3];
    let mut records = [11, 32, 48].map(|code| (code, unread(code, 1, &contents).at(1))).to_vec();
    records.push((16, change(16, 5, 1_500_000).at(1)));
    for (code, sketch) in records {
        let dump = [sketch.record()];
        let name = |what| format!("micro-none-{code}-{what}");
        book.left(name("own-time"), &Ask::window(1_000_000, 1_000_001), &dump, &dump);
        book.left(name("as-if"), &Ask::window(2_500_000, 2_500_001), &dump, &[]);
    }
}
