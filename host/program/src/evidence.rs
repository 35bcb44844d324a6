//! The report of a cut that is kept with the clip: what was asked, what was read, what came of it.

use crate::arguments::CutOrder;
use crate::beside::both;
use crate::digest;
use crate::help;
use crate::input::{Part, Recording};
use crate::json::Json;
use crate::moment;
use crate::muting::{Muting, Resolved};
use crate::outcome::{Outcome, PATHS};
use crate::tally::{Count, Of};
use crate::warnings::Warning;
use std::time::{SystemTime, UNIX_EPOCH};

/// All that a report tells.
pub struct Evidence<'a> {
    pub order: &'a CutOrder,
    pub recording: &'a Recording,
    pub clip: &'a [u8],
    pub outcome: &'a Outcome<'a>,
    pub warnings: &'a [Warning],
}

impl Evidence<'_> {
    pub fn text(&self) -> String {
        let (dump, clip) = self.digests();
        let outcome = self.outcome;
        let report = Json::Object(vec![
            ("program", program()),
            ("made", Json::maybe(now(), moment_of)),
            ("order", self.order()),
            ("files", Json::list(&self.recording.parts, |part| self.file(part, &dump))),
            ("dump", sized(self.recording.octets.len(), &dump)),
            ("clip", self.clip(&clip)),
            ("counts", self.counts()),
            ("peers_left", Json::list(outcome.sides.peers_after, peer)),
            ("peers_muted", Json::list(outcome.gone(), peer)),
            ("warnings", Json::list(self.warnings, warning)),
            ("note", Json::text(PATHS)),
        ]);
        format!("{report}\n")
    }

    /// Of all octets read, unpacked, and of the clip.
    fn digests(&self) -> (Option<String>, Option<String>) {
        both(|| digest::sha256(&self.recording.octets), || digest::sha256(self.clip))
    }

    fn order(&self) -> Json {
        let words = self.order.given.iter().map(|word| word.to_string_lossy());
        let given = ["cut".into()].into_iter().chain(words);
        let Muting { numbers, addresses, agreed } = self.outcome.sides.muting;
        let period = self.order.period;
        Json::Object(vec![
            ("given", Json::list(given, Json::text)),
            ("from", Json::maybe(period.from, moment_of)),
            ("up_to_not_including", Json::maybe(period.to, moment_of)),
            ("muted", Json::list(numbers, as_number)),
            ("muted_addresses", Json::list(addresses, address)),
            ("only", Json::maybe(agreed.as_ref(), |agreed| Json::list(agreed, as_number))),
        ])
    }

    /// A file that is not packed is part of the dump as it stands.
    fn file(&self, part: &Part, dump: &Option<String>) -> Json {
        let octets = &self.recording.octets[part.start..part.end];
        let unpacked = match (part.archive, self.recording.parts.len()) {
            (None, _) => part.sha256.clone(),
            (Some(_), 1) => dump.clone(),
            (Some(_), _) => digest::sha256(octets),
        };
        Json::Object(vec![
            ("name", Json::text(&part.name)),
            ("size", Json::Number(part.size)),
            ("sha256", digest_of(&part.sha256)),
            ("packed_by", Json::maybe(part.archive, |archive| Json::text(archive.program()))),
            ("unpacked", sized(octets.len(), &unpacked)),
        ])
    }

    fn clip(&self, digest: &Option<String>) -> Json {
        Json::Object(vec![
            ("name", Json::text(self.outcome.clip)),
            ("size", Json::Number(self.clip.len() as u64)),
            ("sha256", digest_of(digest)),
        ])
    }

    fn counts(&self) -> Json {
        let outcome = self.outcome;
        let records = ("records", outcome.sides.before.records(), outcome.sides.after.records());
        let rows = [records].into_iter().chain(outcome.rows());
        let row = |(name, before, after)| {
            Json::Object(vec![
                ("of", Json::text(name)),
                ("before", Json::Number(before)),
                ("kept", Json::Number(after)),
                ("gone", Json::Number(before - after)),
            ])
        };
        Json::Object(vec![
            ("rows", Json::list(rows, row)),
            ("rib_records_without_entries_kept", Json::Number(outcome.sides.after.empty_ribs)),
        ])
    }
}

fn program() -> Json {
    let version = help::VERSION.trim_end().trim_start_matches("dagsumilat ");
    Json::Object(vec![("name", Json::text("dagsumilat")), ("version", Json::text(version))])
}

/// None on a machine that takes its time for one before 1970.
fn now() -> Option<u64> {
    let since = SystemTime::now().duration_since(UNIX_EPOCH).ok()?;
    u64::try_from(since.as_micros()).ok()
}

fn moment_of(time: u64) -> Json {
    Json::Object(vec![
        ("time", Json::text(moment::shown(time))),
        ("microseconds", Json::Number(time)),
    ])
}

fn sized(size: usize, digest: &Option<String>) -> Json {
    Json::Object(vec![("size", Json::Number(size as u64)), ("sha256", digest_of(digest))])
}

fn digest_of(digest: &Option<String>) -> Json {
    Json::maybe(digest.as_ref(), Json::text)
}

fn as_number(number: &u32) -> Json {
    Json::Number(u64::from(*number))
}

fn address(resolved: &Resolved) -> Json {
    Json::Object(vec![
        ("address", Json::text(resolved.address)),
        ("as_numbers", Json::list(&resolved.numbers, as_number)),
    ])
}

fn peer((number, of): (&u32, &Of)) -> Json {
    let Count { peers, entries, records, span } = of.count;
    Json::Object(vec![
        ("as", as_number(number)),
        ("peers", Json::Number(peers)),
        ("entries", Json::Number(entries)),
        ("records", Json::Number(records)),
        ("first", Json::maybe(span, |span| moment_of(span.first))),
        ("last", Json::maybe(span, |span| moment_of(span.last))),
        ("addresses", Json::list(&of.addresses, Json::text)),
    ])
}

fn warning(warning: &Warning) -> Json {
    Json::Object(vec![
        ("serious", Json::Bool(warning.is_serious)),
        ("words", Json::text(&warning.words)),
    ])
}
