//! The command that counts over many recordings, each by itself.

use crate::advice;
use crate::arguments::ReportOrder;
use crate::input::Reading;
use crate::progress::Progress;
use crate::session_table;
use crate::stop::Stop;
use dagsumilat::Report;
use std::fmt::Write as _;
use std::io::{self, Write as _};

pub fn report(order: &ReportOrder) -> Result<(), Stop> {
    let (mut total, mut left_out) = (Report::default(), Vec::new());
    for reading in &order.readings {
        if let Err(stop) = add(&mut total, reading) {
            stop.tell();
            left_out.push(stop);
        }
    }
    let text = if order.table { session_table::drawn(&total) } else { lines(&total) };
    let printed = io::stdout().lock().write_all(text.as_bytes());
    printed.map_err(|error| Stop::printing(&error))?;
    end(&left_out, order.readings.len())
}

/// A recording that is refused or cannot be read adds nothing.
fn add(total: &mut Report, reading: &Reading) -> Result<(), Stop> {
    let recording = reading.read(&mut Progress::new(reading.progress))?;
    total
        .add(&recording.octets)
        .map_err(|refusal| Stop::Refused(advice::dump_refused(&recording, refusal.fault)))
}

/// One line for each total, and for each cell that is not zero.
fn lines(report: &Report) -> String {
    let Report { records, changes, breaks, cells } = report;
    let mut text = format!("records={records}\nchanges={changes}\nbreaks={breaks}\n");
    for (old, row) in (1..).zip(cells) {
        for (new, count) in (1..).zip(row).filter(|(_, count)| **count != 0) {
            let _ = writeln!(text, "change.{old}.{new}={count}");
        }
    }
    text
}

/// What is missing in the report is said last, so that nobody overlooks it.
fn end(left_out: &[Stop], all: usize) -> Result<(), Stop> {
    if left_out.is_empty() {
        return Ok(());
    }
    let words = format!("NOT IN THE REPORT: {} of {all} recording(s), see above", left_out.len());
    if left_out.iter().all(|stop| matches!(stop, Stop::Refused(_))) {
        Err(Stop::Refused(words))
    } else {
        Err(Stop::Trouble(words))
    }
}

#[cfg(test)]
mod tests {
    use super::*;

    #[test]
    fn zero_cells_are_left_out() {
        let mut report = Report { records: 5, changes: 3, breaks: 1, ..Report::default() };
        assert_eq!(lines(&report), "records=5\nchanges=3\nbreaks=1\n");
        report.cells[5][0] = 1;
        report.cells[2][3] = 2;
        let cells = "change.3.4=2\nchange.6.1=1\n";
        assert_eq!(lines(&report), format!("records=5\nchanges=3\nbreaks=1\n{cells}"));
    }

    #[test]
    fn what_cannot_be_read_weighs_more_than_what_is_refused() {
        let refused = || Stop::Refused(String::new());
        let unread = || Stop::Trouble(String::new());
        assert!(end(&[], 1).is_ok());
        assert!(matches!(end(&[refused(), refused()], 2), Err(Stop::Refused(_))));
        assert!(matches!(end(&[refused(), unread()], 3), Err(Stop::Trouble(_))));
    }
}
