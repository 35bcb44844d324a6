//! Who goes: from the lists of an order to the AS numbers that the library is given.

use crate::arguments::{Listed, Whose};
use crate::as_number;
use crate::input::Source;
use crate::lists;
use crate::stop::Stop;
use crate::tally::Of;
use crate::warnings::Warning;
use std::collections::{BTreeMap, BTreeSet};
use std::net::IpAddr;

/// The lists of an order, read: each item once, rising.
#[derive(Debug)]
pub enum Wanted {
    Muted { numbers: Vec<u32>, addresses: Vec<IpAddr> },
    AllBut(Vec<u32>),
}

/// An address that is to be muted, and the AS numbers that it stands behind in the dump.
#[derive(Clone, Debug, PartialEq, Eq)]
pub struct Resolved {
    pub address: IpAddr,
    pub numbers: Vec<u32>,
}

/// Who goes, and why.
#[derive(Clone, Debug, Default, PartialEq, Eq)]
pub struct Muting {
    /// What the library is given: each number once, rising.
    pub numbers: Vec<u32>,
    pub addresses: Vec<Resolved>,
    /// Those who agreed, if everybody else goes.
    pub agreed: Option<Vec<u32>>,
}

/// Reads the lists; a warning tells of a file that lists nothing.
pub fn read(whose: &Whose) -> Result<(Wanted, Vec<Warning>), Stop> {
    let mut warnings = Vec::new();
    let wanted = match whose {
        Whose::Muted { numbers, addresses } => {
            let numbers = all(numbers, as_number::parse, |file| {
                warnings.push(empty(file, "lists no AS number: nobody is muted by it", true));
            })?;
            let addresses = all(addresses, address, |file| {
                warnings.push(empty(file, "lists no address: nobody is muted by it", true));
            })?;
            Wanted::Muted { numbers, addresses }
        }
        Whose::AllBut(agreed) => Wanted::AllBut(all(agreed, as_number::parse, |file| {
            warnings.push(empty(file, "lists no AS number: nobody has agreed by it", false));
        })?),
    };
    Ok((wanted, warnings))
}

/// An IP address as people write it.
pub fn address(text: &str) -> Result<IpAddr, String> {
    text.parse().map_err(|_| "is no IP address; write one as 192.0.2.1 or 2001:db8::1".to_string())
}

/// Who forgot to fill a list of the muted publishes them.
fn empty(file: &Source, words: &str, is_serious: bool) -> Warning {
    Warning { is_serious, words: format!("{} {words}", file.shown()) }
}

fn all<T: Copy + Ord>(
    listed: &Listed<T>,
    item: fn(&str) -> Result<T, String>,
    mut if_empty: impl FnMut(&Source),
) -> Result<Vec<T>, Stop> {
    let mut items = listed.items.clone();
    for file in &listed.files {
        let found = lists::read(file, item)?;
        if found.is_empty() {
            if_empty(file);
        }
        items.extend(found);
    }
    items.sort_unstable();
    items.dedup();
    Ok(items)
}

/// The files of the lists, which are inputs too.
pub fn files(whose: &Whose) -> Vec<&Source> {
    match whose {
        Whose::Muted { numbers, addresses } => {
            numbers.files.iter().chain(&addresses.files).collect()
        }
        Whose::AllBut(agreed) => agreed.files.iter().collect(),
    }
}

impl Muting {
    /// Somebody who must not be in a clip that has these peers.
    pub fn left_in(&self, peers: &BTreeMap<u32, Of>) -> Option<u32> {
        let is_muted = |number: &u32| self.numbers.binary_search(number).is_ok();
        let is_stranger = |number: &u32| {
            self.agreed.as_ref().is_some_and(|agreed| agreed.binary_search(number).is_err())
        };
        peers.keys().copied().find(|number| is_muted(number) || is_stranger(number))
    }
}

impl Wanted {
    /// The numbers, if nobody has to be looked up in the dump for them.
    pub fn at_once(&self) -> Option<Muting> {
        match self {
            Wanted::Muted { numbers, addresses } if addresses.is_empty() => {
                Some(Muting { numbers: numbers.clone(), ..Muting::default() })
            }
            _ => None,
        }
    }

    /// The numbers, by the peers of the dump. Words, where others would be muted with somebody.
    pub fn resolve(&self, peers: &BTreeMap<u32, Of>, is_forced: bool) -> Result<Muting, String> {
        match self {
            Wanted::Muted { numbers, addresses } => {
                let resolved = resolve(addresses, peers);
                if !is_forced {
                    refuse_shared(numbers, addresses, &resolved, peers)?;
                }
                let behind = resolved.iter().flat_map(|it| &it.numbers);
                let all: BTreeSet<u32> = numbers.iter().chain(behind).copied().collect();
                let numbers = all.into_iter().collect();
                Ok(Muting { numbers, addresses: resolved, agreed: None })
            }
            Wanted::AllBut(agreed) => {
                let others = peers.keys().filter(|number| agreed.binary_search(number).is_err());
                let numbers = others.copied().collect();
                Ok(Muting { numbers, addresses: Vec::new(), agreed: Some(agreed.clone()) })
            }
        }
    }
}

fn resolve(addresses: &[IpAddr], peers: &BTreeMap<u32, Of>) -> Vec<Resolved> {
    let mut behind: BTreeMap<IpAddr, Vec<u32>> = BTreeMap::new();
    for (number, of) in peers {
        of.addresses.iter().for_each(|address| behind.entry(*address).or_default().push(*number));
    }
    let resolved = |address: &IpAddr| Resolved {
        address: *address,
        numbers: behind.get(address).cloned().unwrap_or_default(),
    };
    addresses.iter().map(resolved).collect()
}

/// As many of the others are named.
const NAMED: usize = 5;

/// A mute is by AS number, and takes all peers of that AS.
fn refuse_shared(
    numbers: &[u32],
    addresses: &[IpAddr],
    resolved: &[Resolved],
    peers: &BTreeMap<u32, Of>,
) -> Result<(), String> {
    for Resolved { address, numbers: behind } in resolved {
        for number in behind.iter().filter(|number| numbers.binary_search(number).is_err()) {
            let all = peers.get(number).into_iter().flat_map(|of| &of.addresses);
            let others: Vec<_> = all.filter(|it| addresses.binary_search(it).is_err()).collect();
            if !others.is_empty() {
                return Err(shared(*address, *number, &others));
            }
        }
    }
    Ok(())
}

fn shared(address: IpAddr, number: u32, others: &[&IpAddr]) -> String {
    let named: Vec<String> = others.iter().take(NAMED).map(|other| other.to_string()).collect();
    let more = match others.len().saturating_sub(NAMED) {
        0 => String::new(),
        more => format!(" and {more} more"),
    };
    format!(
        "--mute-address {address}: it is a peer of AS{number}, and so is {}{more}: a mute is by AS \
         number and would take them too\n  To do: --force mutes AS{number} all the same, \
         --mute {number} does so in clear words",
        named.join(", ")
    )
}

#[cfg(test)]
mod tests {
    use super::*;

    fn ip(last: u8) -> IpAddr {
        IpAddr::from([192, 0, 2, last])
    }

    /// AS10 at one address, AS20 at two, AS30 and AS23456 at the same one.
    fn peers() -> BTreeMap<u32, Of> {
        let of = |octets: &[u8]| Of {
            addresses: octets.iter().map(|it| ip(*it)).collect(),
            ..Of::default()
        };
        [(10, of(&[1])), (20, of(&[2, 3])), (30, of(&[4])), (23_456, of(&[4, 5]))].into()
    }

    fn muted(numbers: &[u32], addresses: &[u8], is_forced: bool) -> Result<Vec<u32>, String> {
        let addresses = addresses.iter().map(|it| ip(*it)).collect();
        let wanted = Wanted::Muted { numbers: numbers.to_vec(), addresses };
        wanted.resolve(&peers(), is_forced).map(|muting| muting.numbers)
    }

    #[test]
    fn everybody_else_goes() {
        let muting = Wanted::AllBut(vec![20, 40]).resolve(&peers(), false).unwrap();
        assert_eq!(muting.numbers, [10, 30, 23_456]);
        let nobody = Wanted::AllBut(Vec::new()).resolve(&peers(), false).unwrap();
        assert_eq!(nobody.numbers, [10, 20, 30, 23_456]);
    }

    #[test]
    fn who_is_left_is_seen() {
        let muting = |numbers: &[u32], agreed: Option<&[u32]>| Muting {
            numbers: numbers.to_vec(),
            addresses: Vec::new(),
            agreed: agreed.map(<[u32]>::to_vec),
        };
        assert_eq!(muting(&[], None).left_in(&peers()), None);
        assert_eq!(muting(&[7, 40], None).left_in(&peers()), None);
        assert_eq!(muting(&[7, 30], None).left_in(&peers()), Some(30));
        assert_eq!(muting(&[], Some(&[10, 20, 30, 23_456])).left_in(&peers()), None);
        assert_eq!(muting(&[], Some(&[10, 30, 23_456])).left_in(&peers()), Some(20));
        assert_eq!(muting(&[], Some(&[])).left_in(&BTreeMap::new()), None);
    }

    #[test]
    fn addresses_are_resolved() {
        assert_eq!(muted(&[], &[1], false), Ok(vec![10]));
        assert_eq!(muted(&[7], &[2, 3], false), Ok(vec![7, 20]));
        assert_eq!(muted(&[7], &[9], false), Ok(vec![7]));
        assert_eq!(muted(&[], &[4, 5], false), Ok(vec![30, 23_456]));
    }

    #[test]
    fn others_are_not_muted_without_force() {
        let words = muted(&[], &[2], false).unwrap_err();
        assert!(words.contains("192.0.2.2: it is a peer of AS20, and so is 192.0.2.3:"), "{words}");
        assert_eq!(muted(&[], &[2], true), Ok(vec![20]));
        assert_eq!(muted(&[20], &[2], false), Ok(vec![20]), "the whole AS is to be muted");
        let words = muted(&[], &[4], false).unwrap_err();
        assert!(words.contains("AS23456, and so is 192.0.2.5"), "{words}");
    }

    #[test]
    fn many_others_are_counted() {
        let of = Of { addresses: (1..=9).map(ip).collect(), ..Of::default() };
        let wanted = Wanted::Muted { numbers: Vec::new(), addresses: vec![ip(1)] };
        let words = wanted.resolve(&[(5, of)].into(), false).unwrap_err();
        assert!(
            words.contains("192.0.2.2, 192.0.2.3, 192.0.2.4, 192.0.2.5, 192.0.2.6 and 3 more"),
            "{words}"
        );
    }

    #[test]
    fn numbers_alone_need_no_dump() {
        let numbers = Wanted::Muted { numbers: vec![7], addresses: Vec::new() };
        assert_eq!(numbers.at_once().unwrap().numbers, [7]);
        let addresses = Wanted::Muted { numbers: vec![7], addresses: vec![ip(1)] };
        assert!(addresses.at_once().is_none() && Wanted::AllBut(vec![7]).at_once().is_none());
    }
}
