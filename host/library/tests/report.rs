//! The session report: document 02's example, sums past 64 bits, and the second program's report
//! of the sample incident and of made-up dumps.

use dagsumilat::{Fault, Refusal, Report};
use second::report_cases::Book;

/// A state change at second 1 between IPv4 addresses.
fn change(old: u8, new: u8) -> Vec<u8> {
    let mut octets = vec![0, 0, 0, 1, 0, 16, 0, 0, 0, 0, 0, 20];
    octets.extend([0xfb, 0xf4, 0xfb, 0xff, 0, 0, 0, 1, 192, 0, 2, 1, 192, 0, 2, 254]);
    octets.extend([0, old, 0, new]);
    octets
}

/// 3 to 4 twice and 4 to 6 once.
fn three_changes() -> Vec<u8> {
    [change(3, 4), change(3, 4), change(4, 6)].concat()
}

fn of_second(report: &second::report::Report) -> Report {
    let second::report::Report { records, changes, breaks, table } = *report;
    Report { records, changes, breaks, cells: table }
}

#[test]
fn document_02_example() {
    let mut report = Report::default();
    assert_eq!(report.add(&three_changes()), Ok(()));
    let mut expected = Report { records: 3, changes: 3, ..Report::default() };
    expected.cells[2][3] = 2;
    expected.cells[3][5] = 1;
    assert_eq!(report, expected);
}

#[test]
fn a_refused_dump_adds_nothing() {
    let mut report = Report::default();
    report.add(&three_changes()).unwrap();
    let before = report;
    let state = [three_changes(), change(0, 1)].concat();
    assert_eq!(report.add(&state), Err(Refusal { fault: Fault::State, place: 96 + 28 }));
    assert_eq!(report, before);
    assert_eq!(report.add(&[]), Ok(()));
    assert_eq!(report, before);
}

#[test]
fn sums_past_64_bits() {
    let mut report = Report { records: 7, ..Report::default() };
    report.cells[3][5] = u64::MAX;
    let before = report;
    let past = Refusal { fault: Fault::Report, place: 0 };
    assert_eq!(report.add(&three_changes()), Err(past));
    assert_eq!(report, before);
    assert_eq!(past.fault.to_string(), "16 (report too large)");
    report.cells[3][5] -= 1;
    assert_eq!(report.add(&three_changes()), Ok(()));
    assert_eq!((report.records, report.cells[3][5]), (10, u64::MAX));
}

#[test]
fn as_the_second_program() {
    for (name, case) in Book::generate().iter() {
        let expected = case.answer();
        let mut report = of_second(&case.lent);
        let refusal = report.add(&case.dump).err();
        let good = (0, case.dump.len());
        let found = refusal.map_or(good, |refusal| (refusal.fault.number(), refusal.place));
        assert_eq!(found, (expected.fault, expected.place), "{name}");
        assert_eq!(report, of_second(&expected.report), "{name}");
    }
}
