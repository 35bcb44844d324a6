//! The library against itself. The check looks at a record in a fast way, and asks the exact reader
//! only where it is not sure of it; to go from record to record is to ask that reader each time.

use crate::desk::Desk;
use crate::telling::Told;
use dagsumilat::calls::NONE;

/// Fault, place, number of records and the faulty record of the laid dump, found in three ways.
pub fn compare(desk: &mut Desk) -> Told<()> {
    let [checked, found] = [desk.check()?.to_vec(), desk.first_fault()?.to_vec()];
    let stepped = step(desk)?;
    if checked == stepped[..3] && found == stepped {
        return Ok(());
    }
    Err(format!(
        "check and first fault against record\ncheck: {checked:?}\nfirst fault: {found:?}\n\
         from record to record: {stepped:?}"
    ))
}

/// What a check must answer, by the exact reader, and where it stopped.
fn step(desk: &mut Desk) -> Told<[u64; 4]> {
    let (mut at, mut table, mut records) = (0, NONE, 0);
    loop {
        let [fault, next, behind, ..] = desk.record(at as usize, table)?;
        if fault != 0 || next <= at {
            return Ok([fault, next, records, at]);
        }
        (at, table, records) = (next, behind, records + 1);
    }
}
