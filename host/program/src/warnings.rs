//! What may be wrong with a cut: an order that did not hit, and somebody who may still be seen.

use crate::moment;
use crate::muting::Muting;
use crate::number::grouped;
use crate::period::Period;
use crate::sides::Sides;
use crate::tally::{Count, Peer};
use std::collections::{BTreeMap, BTreeSet, HashMap};
use std::net::IpAddr;

/// Words for a person. Serious is what may publish more than was ordered.
#[derive(Clone, Debug, PartialEq, Eq)]
pub struct Warning {
    pub is_serious: bool,
    pub words: String,
}

fn minor(words: String) -> Warning {
    Warning { is_serious: false, words }
}

fn serious(words: String) -> Warning {
    Warning { is_serious: true, words }
}

/// Stands in 2-octet fields for an AS that needs 4 (RFC 6793).
const AS_TRANS: u32 = 23_456;

/// A collector writes these where it does not know, or cannot write, the peer's number.
const STAND_INS: [u32; 2] = [0, AS_TRANS];

/// More than so many of one kind are counted, and listed only if that is asked for.
const FEW: usize = 3;

/// A cut, as far as it can be judged.
pub struct Judged<'a> {
    pub sides: Sides<'a>,
    pub is_verbose: bool,
}

impl Judged<'_> {
    pub fn warnings(&self) -> Vec<Warning> {
        let mut warnings = Vec::new();
        warnings.extend(self.hit_nobody());
        warnings.extend(self.addresses_of_nobody());
        warnings.extend(self.emptied());
        warnings.extend(self.nothing_ordered());
        warnings.extend(self.shortened());
        warnings.extend(self.local());
        warnings.extend(self.under_stand_ins());
        warnings.extend(self.stand_ins());
        warnings
    }

    fn is_muted(&self, number: u32) -> bool {
        self.sides.muting.numbers.binary_search(&number).is_ok()
    }

    /// A few items in a row, or all of them if that is asked for; none if they are many.
    fn listed(&self, items: &[String]) -> Option<String> {
        (self.is_verbose || items.len() <= FEW).then(|| items.join(", "))
    }

    /// The same, with their number in place of many.
    fn counted(&self, items: &[String], what: &str) -> String {
        self.listed(items).unwrap_or_else(|| {
            format!("{} {what} (--verbose lists them)", grouped(items.len() as u64))
        })
    }

    /// Muted numbers that no peer has. One that is somebody's local AS is no typing error.
    fn hit_nobody(&self) -> Option<Warning> {
        let hit = |number: &u32| {
            self.sides.peers_before.contains_key(number)
                || self.sides.before.local.contains_key(number)
        };
        let all = &self.sides.muting.numbers;
        let missed: Vec<String> =
            all.iter().filter(|it| !hit(it)).map(|number| format!("AS{number}")).collect();
        if missed.is_empty() {
            return None;
        }
        let (count, all) = (grouped(missed.len() as u64), grouped(all.len() as u64));
        Some(minor(match self.listed(&missed) {
            None => format!("{count} of {all} numbers hit nobody: --verbose lists them"),
            Some(listed) => format!(
                "{count} of {all} numbers hit nobody: {listed} (a typing error would leave \
                 somebody in the clip)"
            ),
        }))
    }

    fn addresses_of_nobody(&self) -> Option<Warning> {
        let all = &self.sides.muting.addresses;
        let missed: Vec<String> = all
            .iter()
            .filter(|resolved| resolved.numbers.is_empty())
            .map(|resolved| resolved.address.to_string())
            .collect();
        if missed.is_empty() {
            return None;
        }
        let (count, all) = (grouped(missed.len() as u64), grouped(all.len() as u64));
        let listed = self.listed(&missed).unwrap_or_else(|| "--verbose lists them".to_string());
        Some(minor(format!("{count} of {all} addresses are no peer's in the dump: {listed}")))
    }

    /// A slip in a date leaves a clip that looks well.
    fn emptied(&self) -> Option<Warning> {
        let span = self.sides.before.span.filter(|_| self.sides.after.span.is_none())?;
        let (first, last) = (moment::shown(span.first), moment::shown(span.last));
        Some(minor(format!(
            "no record but peer tables is left; the others of the dump are from {first} to {last}"
        )))
    }

    fn nothing_ordered(&self) -> Option<Warning> {
        let is_whole =
            self.sides.period == Period::default() && *self.sides.muting == Muting::default();
        is_whole.then(|| {
            serious("no time and no peer was ordered: the clip is the whole recording".to_string())
        })
    }

    /// Some producers write a 4-octet AS cut to 16 bits in records of 2 octets. A muted number that
    /// has 16 bits anyway is never left.
    fn shortened(&self) -> Option<Warning> {
        let mut left = BTreeMap::new();
        for number in self.sides.muting.numbers.iter().filter(|number| **number > 0xffff) {
            let short = number & 0xffff;
            if self.sides.peers_after.contains_key(&short) {
                left.entry(short).or_insert(*number);
            }
        }
        let pairs: Vec<String> =
            left.iter().map(|(short, number)| format!("AS{short} of muted AS{number}")).collect();
        if pairs.is_empty() {
            return None;
        }
        let listed = self.counted(&pairs, "numbers");
        Some(serious(format!(
            "still in the clip, and what is left of a muted number in 16 bits: {listed}\n  \
             Some producers write that; see whose records they are"
        )))
    }

    /// A session has two ends, and the muted one may be the other.
    fn local(&self) -> Option<Warning> {
        let local = &self.sides.after.local;
        let mut left: Vec<_> = local.iter().filter(|(number, _)| self.is_muted(**number)).collect();
        if left.is_empty() {
            return None;
        }
        left.sort_unstable();
        let records: u64 = left.iter().map(|(_, records)| **records).sum();
        let named =
            |(number, records): &(&u32, &u64)| format!("AS{number} of {}", grouped(**records));
        let named: Vec<String> = left.iter().map(named).collect();
        let listed = self.counted(&named, "muted numbers");
        Some(serious(format!(
            "muted, and the local AS of {} record(s) still in the clip: {listed}\n  \
             OpenBGPD puts its own AS in the peer's place, and dumps of sent messages name the \
             sender there: see whose routes they are",
            grouped(records)
        )))
    }

    /// The addresses of muted peers, as tables and sessions of the dump gave them.
    fn muted_addresses(&self) -> HashMap<IpAddr, u32> {
        let peers = self.sides.before.by_peer.keys();
        let muted = peers.filter(|peer| self.is_muted(peer.as_number));
        let mut addresses = HashMap::new();
        for Peer { as_number, address } in muted {
            let least = addresses.entry(*address).or_insert(*as_number);
            *least = (*least).min(*as_number);
        }
        addresses
    }

    /// A muted peer that a collector wrote without its number is known by its address.
    fn under_stand_ins(&self) -> Option<Warning> {
        let muted = self.muted_addresses();
        let (mut found, mut sum) = (BTreeSet::new(), Count::default());
        for (peer, count) in &self.sides.after.by_peer {
            if let Some(number) =
                muted.get(&peer.address).filter(|_| STAND_INS.contains(&peer.as_number))
            {
                found.insert((peer.address, *number, peer.as_number));
                sum.add(count);
            }
        }
        if found.is_empty() {
            return None;
        }
        let named = |(address, muted, left): &(IpAddr, u32, u32)| {
            format!("{address} of muted AS{muted} under AS{left}")
        };
        let named: Vec<String> = found.iter().map(named).collect();
        let listed = self.counted(&named, "addresses");
        let Count { peers, entries, records, .. } = sum;
        Some(serious(format!(
            "addresses of muted peers still stand in the clip under AS0 or AS{AS_TRANS}: {listed} \
             (peers {}, entries {}, records {})\n  To do: mute that number too, if others may go \
             with it",
            grouped(peers),
            grouped(entries),
            grouped(records)
        )))
    }

    /// Where somebody is to be muted, these may be them.
    fn stand_ins(&self) -> Vec<Warning> {
        if *self.sides.muting == Muting::default() {
            return Vec::new();
        }
        let mut warnings = Vec::new();
        if self.sides.peers_after.contains_key(&0) {
            warnings.push(serious(
                "AS0 is still in the clip: often the collector itself, or a peer whose AS was not \
                 known yet"
                    .to_string(),
            ));
        }
        if self.sides.peers_after.contains_key(&AS_TRANS) {
            let wide = self.sides.muting.numbers.iter().any(|number| *number > 0xffff);
            let who = if wide { "a muted one too" } else { "anybody with a 4-octet AS" };
            warnings.push(serious(format!(
                "AS{AS_TRANS} is still in the clip: it stands for an AS that needs 4 octets, so it \
                 may be {who}"
            )));
        }
        warnings
    }
}
