//! What a cut did, and who is still to be seen in the clip, for a person.

use crate::muting::{Muting, Resolved};
use crate::number::grouped;
use crate::sides::Sides;
use crate::tally::{Count, Of, KINDS};
use dagsumilat::Kind;
use std::fmt::Write;

/// As many lines of a list are shown if it is to be brief.
const BRIEF: usize = 20;

/// The last words of a report: a mute is by peer.
pub const PATHS: &str = "Muted AS numbers may still stand inside other peers' paths.";

/// A row of the report: what is counted, before and after.
pub type Row = (&'static str, u64, u64);

/// A dump before and after its cut.
pub struct Outcome<'a> {
    pub clip: &'a str,
    pub sides: Sides<'a>,
    /// Octets before and after.
    pub octets: (u64, u64),
    pub is_brief: bool,
}

impl Outcome<'_> {
    /// Kept and gone, who was muted, who is left.
    pub fn report(&self) -> String {
        let (before, after) = (self.sides.before.records(), self.sides.after.records());
        let (clip, period) = (self.clip, self.sides.period.shown());
        let mut text = format!("{clip}: {after} of {before} records kept, {period}\n");
        text.push_str(&self.kept_and_gone());
        text.push_str(&self.muted());
        text.push_str(&self.out_of_reach());
        let left = self.sides.peers_after.iter();
        let _ = writeln!(text, "  peer AS numbers still in the clip: {}", left.len());
        text.push_str(&self.lines(left.map(as_line)));
        if !self.sides.muting.numbers.is_empty() {
            let _ = writeln!(text, "  {PATHS}");
        }
        text.pop();
        text
    }

    /// What is counted, in the order in which it is shown.
    pub fn rows(&self) -> Vec<Row> {
        let (before, after) = (self.sides.before, self.sides.after);
        let kinds = KINDS.iter().zip(before.kinds).zip(after.kinds);
        let mut rows: Vec<Row> = kinds.map(|(((_, name), old), new)| (*name, old, new)).collect();
        rows.push(("RIB entries", before.entries, after.entries));
        rows.push(("peers in tables", before.peers, after.peers));
        rows.push(("octets", self.octets.0, self.octets.1));
        rows
    }

    fn kept_and_gone(&self) -> String {
        let mut text = format!("  {:<16}{:>14}{:>14}\n", "", "kept", "gone");
        for (name, old, new) in self.rows() {
            let _ = writeln!(text, "  {name:<16}{new:>14}{:>14}", old - new);
        }
        text
    }

    /// The muted, by rising number, as they stood in the dump.
    pub fn gone(&self) -> impl Iterator<Item = (&u32, &Of)> {
        self.sides
            .peers_before
            .iter()
            .filter(|(number, _)| self.sides.muting.numbers.binary_search(number).is_ok())
    }

    fn muted(&self) -> String {
        let Muting { numbers, addresses, agreed } = self.sides.muting;
        let mut text = String::new();
        if let Some(agreed) = agreed {
            let here = agreed.iter().filter(|it| self.sides.peers_before.contains_key(it)).count();
            let _ = writeln!(
                text,
                "  AS numbers that agreed: {}, in the dump: {here}; every other peer AS of the dump \
                 is muted: {}",
                agreed.len(),
                numbers.len()
            );
            text.push_str(&self.lines(self.gone().map(as_line)));
            return text;
        }
        if !addresses.is_empty() {
            let _ = writeln!(text, "  addresses to mute: {}", addresses.len());
            text.push_str(&self.lines(addresses.iter().map(address_line)));
        }
        let nowhere = numbers.len() - self.gone().count();
        let listed = numbers.len();
        let _ = writeln!(text, "  AS numbers to mute: {listed}, in no table or record: {nowhere}");
        text
    }

    /// What no mute takes, where there is one: that it stays should be no surprise.
    fn out_of_reach(&self) -> String {
        if self.sides.muting.numbers.is_empty() {
            return String::new();
        }
        let unread = self.sides.after.kinds[Kind::Unread as usize];
        let rows = [
            ("RIB records that came with no entries, and stay", self.sides.after.empty_ribs),
            ("records of OSPF and IS-IS, which have no peer AS, and stay", unread),
        ];
        let rows = rows.iter().filter(|(_, count)| *count > 0);
        rows.map(|(words, count)| format!("  {words}: {}\n", grouped(*count))).collect()
    }

    /// All lines, or the first of them and how many more there are.
    fn lines(&self, lines: impl Iterator<Item = String>) -> String {
        let lines: Vec<String> = lines.collect();
        let most = if self.is_brief { BRIEF } else { lines.len() };
        let mut text: String =
            lines.iter().take(most).map(|line| format!("    {line}\n")).collect();
        match lines.len().saturating_sub(most) {
            0 => {}
            more => {
                let _ =
                    writeln!(text, "    and {} more (without --brief all)", grouped(more as u64));
            }
        }
        text
    }
}

fn as_line((number, of): (&u32, &Of)) -> String {
    let Count { peers, entries, records, .. } = of.count;
    format!("AS{number} (peers {peers}, entries {entries}, records {records})")
}

fn address_line(resolved: &Resolved) -> String {
    let numbers: Vec<String> = resolved.numbers.iter().map(|it| format!("AS{it}")).collect();
    let who = if numbers.is_empty() { "nobody's".to_string() } else { numbers.join(", ") };
    format!("{}: {who}", resolved.address)
}
