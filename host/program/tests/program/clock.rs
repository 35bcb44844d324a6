//! Times as the program shows them, read by another way of counting days.

/// Microseconds since 1970 of a time as 2026-03-01T12:00:00.011000Z.
#[track_caller]
pub fn micros(shown: &str) -> u64 {
    assert_eq!((shown.len(), &shown[26..]), (27, "Z"), "{shown}");
    let number = |from: usize, to: usize| shown[from..to].parse::<u64>().unwrap();
    let days = days(number(0, 4), number(5, 7), number(8, 10));
    let seconds = number(11, 13) * 3_600 + number(14, 16) * 60 + number(17, 19);
    (days * 86_400 + seconds) * 1_000_000 + number(20, 26)
}

/// Years are counted from March on, so that a leap day is the last of its year.
fn days(year: u64, month: u64, day: u64) -> u64 {
    let year = if month > 2 { year } else { year - 1 };
    let month = (month + 9) % 12;
    let in_year = (153 * month + 2) / 5 + day - 1;
    365 * year + year / 4 - year / 100 + year / 400 + in_year - 719_468
}

#[test]
fn a_time_that_is_known() {
    assert_eq!(micros("1970-01-01T00:00:00.000000Z"), 0);
    assert_eq!(micros("2026-03-01T12:00:00.011000Z"), 1_772_366_400_011_000);
    assert_eq!(micros("2000-02-29T00:00:01.000000Z"), 951_782_401_000_000);
}
