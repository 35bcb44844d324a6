//! Times: as they are given on the command line, and as they are shown.

const SECOND: u64 = 1_000_000;
const DAY: u64 = 86_400;
/// As microseconds, whole numbers below this are the first day and a bit of 1970; as seconds, they
/// are all times up to the year 5138.
const MAY_BE_SECONDS: u64 = 100_000_000_000;
/// As microseconds, whole numbers below this are before March 1973, when there was no BGP; as
/// milliseconds, they too are all times up to the year 5138.
const MAY_BE_MILLISECONDS: u64 = 100_000_000_000_000;

/// Microseconds since 1970 of a TIME: a whole number is microseconds, a number with a point is
/// seconds, anything else has to be RFC 3339.
pub fn parse(text: &str) -> Result<u64, String> {
    if is_digits(text) {
        let time = text.parse().map_err(|_| "does not fit in 64 bits".to_string())?;
        return refuse_seconds(text, time);
    }
    match text.split_once('.') {
        Some((whole, part)) if is_digits(whole) && part.bytes().all(|b| b.is_ascii_digit()) => {
            let seconds = whole.parse().map_err(|_| "does not fit in 64 bits".to_string())?;
            join(seconds, fraction(part)?)
        }
        _ => date_and_time(text),
    }
}

/// Who writes a small whole number means seconds, as other programs print them: taken as
/// microseconds it would open the window to all of the dump. 0 is the same moment either way.
fn refuse_seconds(text: &str, time: u64) -> Result<u64, String> {
    if !(1..MAY_BE_SECONDS).contains(&time) {
        return Ok(time);
    }
    let (whole, part) = (time / SECOND, time % SECOND);
    Err(format!(
        "can be read in two ways: as seconds it is {}, written {text}.0; as microseconds it is {}, \
         written {whole}.{part:06}",
        shown(time * SECOND),
        shown(time)
    ))
}

/// Microseconds of a length of time in seconds, with a fraction or without; it is not none.
pub fn seconds(text: &str) -> Result<u64, String> {
    let (whole, part) = text.split_once('.').unwrap_or((text, "0"));
    if !is_digits(whole) {
        return Err("is no number of seconds; write one as 90 or 0.5".to_string());
    }
    let seconds = whole.parse().map_err(|_| "does not fit in 64 bits".to_string())?;
    match join(seconds, fraction(part)?)? {
        0 => Err("is no time at all".to_string()),
        micros => Ok(micros),
    }
}

/// What is doubtful about a TIME that was taken: its writer may have meant milliseconds.
pub fn doubt(text: &str) -> Option<String> {
    let number = text.parse().ok().filter(|_| is_digits(text));
    let time: u64 = number.filter(|time| (1..MAY_BE_MILLISECONDS).contains(time))?;
    let (micros, millis) = (shown(time), shown(time * 1_000));
    Some(format!("{text} is taken as microseconds, {micros}; as milliseconds it is {millis}"))
}

fn is_digits(text: &str) -> bool {
    !text.is_empty() && text.bytes().all(|b| b.is_ascii_digit())
}

fn join(seconds: u64, micros: u64) -> Result<u64, String> {
    let time = seconds.checked_mul(SECOND).and_then(|whole| whole.checked_add(micros));
    time.ok_or_else(|| "is more microseconds than fit in 64 bits".to_string())
}

/// Microseconds of the digits behind a point. Nothing is rounded: a marker must not slip.
fn fraction(digits: &str) -> Result<u64, String> {
    if !is_digits(digits) {
        return Err("has no digits after the point".to_string());
    }
    if digits.len() > 6 {
        return Err("has more than 6 digits after the point; times go down to microseconds".into());
    }
    let number: u64 = digits.parse().map_err(|_| "is no time".to_string())?;
    Ok(number * 10_u64.pow(6 - digits.len() as u32))
}

/// YYYY-MM-DD, then T or a space, HH:MM:SS, a fraction or none, and Z or an offset as +01:00.
fn date_and_time(text: &str) -> Result<u64, String> {
    const FORM: &str = "is no time; write one as 2026-03-01T12:00:00.011Z, as microseconds \
                        (1772366400011000) or as seconds with a point (1772366400.011)";
    if !text.is_ascii() || text.len() < 19 || !matches!(text.as_bytes()[10], b'T' | b't' | b' ') {
        return Err(FORM.to_string());
    }
    let days = date(&text[..10]).ok_or(FORM)??;
    let seconds = clock(&text[11..19]).ok_or(FORM)??;
    let (micros, offset) = behind_the_clock(&text[19..])?;
    let seconds = (days * DAY + seconds).checked_add_signed(-offset);
    join(seconds.ok_or(BEFORE_1970)?, micros)
}

const BEFORE_1970: &str = "is before 1970; MRT has no such times";

/// The numbers between separators, each of so many digits; none if the text has another form.
fn numbers<const N: usize>(text: &str, separator: char, sizes: [usize; N]) -> Option<[u64; N]> {
    let parts: Vec<&str> = text.split(separator).collect();
    let mut found = [0; N];
    if parts.len() != N {
        return None;
    }
    for ((part, size), number) in parts.iter().zip(sizes).zip(&mut found) {
        if part.len() != size || !is_digits(part) {
            return None;
        }
        *number = part.parse().ok()?;
    }
    Some(found)
}

/// Days since 1970.
fn date(text: &str) -> Option<Result<u64, String>> {
    let [year, month, day] = numbers(text, '-', [4, 2, 2])?;
    Some(if year < 1970 {
        Err(BEFORE_1970.to_string())
    } else if !(1..=12).contains(&month) {
        Err(format!("has month {month}"))
    } else if day < 1 || day > days_in_month(year, month) {
        Err(format!("has day {day}, and month {month} of {year} has no such day"))
    } else {
        let before: u64 = (1..month).map(|month| days_in_month(year, month)).sum();
        Ok(days_before_year(year) + before + day - 1)
    })
}

/// Seconds since midnight.
fn clock(text: &str) -> Option<Result<u64, String>> {
    let [hour, minute, second] = numbers(text, ':', [2, 2, 2])?;
    Some(if hour > 23 || minute > 59 {
        Err("has an hour above 23 or a minute above 59".to_string())
    } else if second == 60 {
        Err("is a leap second; MRT does not count them: name the second before or after"
            .to_string())
    } else if second > 60 {
        Err(format!("has second {second}"))
    } else {
        Ok(hour * 3600 + minute * 60 + second)
    })
}

/// Microseconds of the fraction, if there is one, and the seconds that the clock is ahead of UTC.
fn behind_the_clock(text: &str) -> Result<(u64, i64), String> {
    let zone_at = text.find(|c: char| c != '.' && !c.is_ascii_digit()).unwrap_or(text.len());
    let (digits, zone) = text.split_at(zone_at);
    let offset = offset(zone)?;
    match digits.strip_prefix('.') {
        Some(digits) => Ok((fraction(digits)?, offset)),
        None if digits.is_empty() => Ok((0, offset)),
        None => Err("has more than 2 digits of seconds".to_string()),
    }
}

fn offset(zone: &str) -> Result<i64, String> {
    let (sign, clock) = match zone.split_at_checked(1) {
        None => return Err("does not say that it is UTC: put Z behind it".to_string()),
        Some(("Z" | "z", "")) => return Ok(0),
        Some(("+", clock)) => (1, clock),
        Some(("-", clock)) => (-1, clock),
        Some(_) => (0, ""),
    };
    match numbers(clock, ':', [2, 2]) {
        Some([hours @ ..24, minutes @ ..60]) => Ok(sign * (hours * 3600 + minutes * 60) as i64),
        _ => Err(format!("ends in '{zone}'; write Z for UTC, or an offset as +01:00")),
    }
}

fn is_leap(year: u64) -> bool {
    year.is_multiple_of(4) && (!year.is_multiple_of(100) || year.is_multiple_of(400))
}

fn days_in_month(year: u64, month: u64) -> u64 {
    match month {
        2 if is_leap(year) => 29,
        2 => 28,
        4 | 6 | 9 | 11 => 30,
        _ => 31,
    }
}

/// Days from 1970 to the first day of a year.
fn days_before_year(year: u64) -> u64 {
    let leap_days = |year: u64| year / 4 - year / 100 + year / 400;
    365 * (year - 1970) + leap_days(year - 1) - leap_days(1969)
}

/// A time in UTC, to the microsecond.
pub fn shown(time: u64) -> String {
    let (seconds, micros) = (time / SECOND, time % SECOND);
    let (days, rest) = (seconds / DAY, seconds % DAY);
    let mut year = 1970 + days / 366;
    while days_before_year(year + 1) <= days {
        year += 1;
    }
    let mut day = days - days_before_year(year);
    let mut month = 1;
    while day >= days_in_month(year, month) {
        day -= days_in_month(year, month);
        month += 1;
    }
    let (hour, minute, second) = (rest / 3600, rest / 60 % 60, rest % 60);
    let day = day + 1;
    format!("{year:04}-{month:02}-{day:02}T{hour:02}:{minute:02}:{second:02}.{micros:06}Z")
}

#[cfg(test)]
mod tests {
    use super::*;

    const NOON: u64 = 1_772_366_400_000_000;

    fn assert_refused(text: &str, words: &str) {
        let error = parse(text).expect_err(text);
        assert!(error.contains(words), "{text}: {error}");
    }

    #[test]
    fn whole_numbers_are_microseconds() {
        assert_eq!(parse("0"), Ok(0));
        assert_eq!(parse("00"), Ok(0));
        assert_eq!(parse("100000000000"), Ok(100_000_000_000));
        assert_eq!(parse("1772366400011000"), Ok(NOON + 11_000));
        assert_eq!(parse("18446744073709551615"), Ok(u64::MAX));
        assert_refused("18446744073709551616", "64 bits");
        for text in ["", "-1", "+1", " 1", "1 ", "0x10", "1e6", "1_000", "1,5"] {
            assert_refused(text, "is no time");
        }
    }

    #[test]
    fn numbers_with_a_point_are_seconds() {
        assert_eq!(parse("1772366400.0"), Ok(NOON));
        assert_eq!(parse("1772366400.011"), Ok(NOON + 11_000));
        assert_eq!(parse("1.000001"), Ok(1_000_001));
        assert_eq!(parse("18446744073709.551615"), Ok(u64::MAX));
        assert_refused("18446744073709.551616", "64 bits");
        assert_refused("18446744073710.0", "64 bits");
        assert_refused("99999999999999999999.0", "64 bits");
        assert_refused("1772366400.", "no digits");
        assert_refused("1.0000000", "more than 6");
        assert_refused(".5", "is no time");
        assert_refused("1.5.5", "is no time");
    }

    #[test]
    fn small_whole_numbers_are_refused_with_both_readings() {
        assert_refused(
            "1794708900",
            "as seconds it is 2026-11-15T02:15:00.000000Z, written 1794708900.0;",
        );
        assert_refused(
            "1794708900",
            "as microseconds it is 1970-01-01T00:29:54.708900Z, written 1794.708900",
        );
        assert_eq!(parse("1794708900.0"), Ok(1_794_708_900_000_000));
        assert_eq!(parse("1794.708900"), Ok(1_794_708_900));
        for text in ["1", "01", "99999999999"] {
            assert_refused(text, "two ways");
        }
    }

    #[test]
    fn lengths_of_time() {
        assert_eq!(seconds("90"), Ok(90_000_000));
        assert_eq!(seconds("0.5"), Ok(500_000));
        for text in ["0", "0.0", "", "-1", "x", "1.", ".5", "1.1234567", "99999999999999999999"] {
            assert!(seconds(text).is_err(), "{text}");
        }
    }

    #[test]
    fn milliseconds_are_doubted() {
        let doubt = doubt("1772366400011").unwrap();
        assert!(doubt.contains("microseconds, 1970-01-21T12:19:26.400011Z"), "{doubt}");
        assert!(doubt.ends_with("milliseconds it is 2026-03-01T12:00:00.011000Z"), "{doubt}");
        for text in ["0", "100000000000000", "1772366400.0", "2026-03-01T12:00:00Z"] {
            assert_eq!(super::doubt(text), None, "{text}");
        }
    }

    #[test]
    fn offsets_are_taken() {
        for text in [
            "2026-03-01T13:00:00+01:00",
            "2026-03-01T17:30:00+05:30",
            "2026-03-01T00:00:00-12:00",
            "2026-03-02T11:59:00+23:59",
            "2026-03-01T12:00:00-00:00",
        ] {
            assert_eq!(parse(text), Ok(NOON), "{text}");
        }
        assert_eq!(parse("2026-03-01T13:00:00.011+01:00"), Ok(NOON + 11_000));
        assert_eq!(parse("1970-01-01T01:00:00+01:00"), Ok(0));
        assert_refused("1970-01-01T00:59:59+01:00", "before 1970");
    }

    #[test]
    fn dates_and_times() {
        for text in [
            "2026-03-01T12:00:00Z",
            "2026-03-01t12:00:00z",
            "2026-03-01 12:00:00Z",
            "2026-03-01T12:00:00+00:00",
            "2026-03-01T12:00:00.0Z",
            "2026-03-01T12:00:00.000000+00:00",
        ] {
            assert_eq!(parse(text), Ok(NOON), "{text}");
        }
        assert_eq!(parse("2026-03-01T12:00:00.011Z"), Ok(NOON + 11_000));
        assert_eq!(parse("2026-03-01T12:00:00.000001Z"), Ok(NOON + 1));
        assert_eq!(parse("1970-01-01T00:00:00Z"), Ok(0));
        assert_eq!(parse("1970-01-01T23:59:59.999999Z"), Ok(86_399_999_999));
        assert_eq!(parse("2106-02-07T06:28:15Z"), Ok(4_294_967_295_000_000));
        assert_eq!(parse("9999-12-31T23:59:59.999999Z"), Ok(253_402_300_799_999_999));
    }

    #[test]
    fn days_that_are_not_there() {
        assert_eq!(parse("2024-02-29T00:00:00Z"), Ok(1_709_164_800_000_000));
        assert_eq!(parse("2000-02-29T00:00:00Z"), Ok(951_782_400_000_000));
        assert_refused("2026-02-29T00:00:00Z", "has day 29");
        assert_refused("2100-02-29T00:00:00Z", "has day 29");
        assert_refused("2026-04-31T00:00:00Z", "has day 31");
        assert_refused("2026-01-00T00:00:00Z", "has day 0");
        assert_refused("2026-00-01T00:00:00Z", "has month 0");
        assert_refused("2026-13-01T00:00:00Z", "has month 13");
        assert_refused("1969-12-31T23:59:59Z", "before 1970");
    }

    #[test]
    fn clocks_that_are_not_there() {
        assert_refused("2016-12-31T23:59:60Z", "leap second");
        assert_refused("2026-03-01T12:00:61Z", "second 61");
        assert_refused("2026-03-01T24:00:00Z", "above 23");
        assert_refused("2026-03-01T12:60:00Z", "above 59");
        assert_refused("2026-03-01T12:00:00.Z", "no digits");
        assert_refused("2026-03-01T12:00:00.1234567Z", "more than 6");
        assert_refused("2026-03-01T12:00:00.1.2Z", "no digits");
        assert_refused("2026-03-01T12:00:000Z", "more than 2 digits");
    }

    #[test]
    fn other_forms_and_other_zones() {
        assert_refused("2026-03-01T12:00:00", "put Z behind it");
        for zone in ["+0000", "+01", "+24:00", "+01:60", "+1:00", "CET", "Z ", "ZZ", "+00:00Z", "é"]
        {
            assert_refused(&format!("2026-03-01T12:00:00{zone}"), "");
        }
        assert_refused("2026-03-01T12:00:00+0100", "an offset as +01:00");
        for text in [
            "2026-03-01",
            "2026-03-01T12:00Z",
            "2026-3-1T12:00:00Z00",
            "2026/03/01T12:00:00Z",
            "2026-03-01_12:00:00Z",
            "02026-03-01T12:00:00Z",
            "+026-03-01T12:00:00Z",
            "2026-03-01T+2:00:00Z",
            "2026-03-01T12:00:0éZ",
            "now",
        ] {
            assert_refused(text, "is no time");
        }
    }

    #[test]
    fn what_is_shown_reads_as_the_same_time() {
        let mut time = MAY_BE_SECONDS;
        while time < 253_402_300_800_000_000 {
            assert_eq!(parse(&shown(time)), Ok(time));
            time = time * 17 / 16 + 999_983;
        }
        assert_eq!(shown(NOON + 11_000), "2026-03-01T12:00:00.011000Z");
        assert_eq!(shown(u64::MAX), "586524-01-19T08:01:49.551615Z");
    }
}
