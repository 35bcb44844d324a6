//! The text that shows a dump.

use crate::dump::{Dump, Located};

/// Dumps above this many octets are not listed.
pub const LARGEST: usize = 65_536;

pub fn listing(octets: &[u8]) -> String {
    if octets.len() > LARGEST {
        return "too large\n".to_string();
    }
    let dump = Dump::read(octets);
    let mut text: String = dump.records.iter().map(line).collect();
    text.push_str(&format!("fault={} place={}\n", dump.end.number(), dump.end.place));
    text
}

fn line(located: &Located) -> String {
    let record = &located.record;
    format!(
        "at={} time={} type={} subtype={} length={}\n",
        located.offset,
        record.time(),
        record.kind.code,
        record.kind.subtype,
        record.length()
    )
}
