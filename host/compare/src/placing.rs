//! Where a dump's first fault is, and what its field is called, by both programs.

use crate::desk::{Desk, FirstFaultCall, Spots};
use crate::expected;
use crate::making::ended;
use crate::tally::Tally;
use crate::telling::{same, Told};
use dagsumilat::{Fault, FirstFault};
use second::dump::Dump;
use second::vectors::rng::Rng;

/// A dump made for its place: a record of it ends inside a field.
pub fn compare_ended(
    call: FirstFaultCall,
    rng: &mut Rng,
    desk: &mut Desk,
    tally: &mut Tally,
) -> Result<(), (Vec<u8>, String)> {
    let dump = ended(rng);
    desk.lay(&dump, Spots::draw(rng));
    compare(call, &dump, &Dump::read(&dump), desk, tally).map_err(|told| (dump, told))
}

/// The laid dump: number, place, records and the faulty record; then the field's name.
pub fn compare(
    call: FirstFaultCall,
    dump: &[u8],
    read: &Dump,
    desk: &mut Desk,
    tally: &mut Tally,
) -> Told<()> {
    let words = desk.first_fault_by(call)?;
    same(|| "first fault".into(), words, expected::first_fault(read))?;
    let name = found(words).and_then(|found| found.field(dump));
    same(|| format!("the field at {words:?}"), name, read.end.field)?;
    name.into_iter().for_each(|name| tally.failed(words[0] as u8, name));
    Ok(())
}

/// The call's words as the crate gives them; none of a good dump.
pub fn found([number, place, records, record]: [u64; 4]) -> Option<FirstFault> {
    let fault = Fault::of_number(number)?;
    Some(FirstFault { fault, place: place as usize, record: record as usize, records })
}
