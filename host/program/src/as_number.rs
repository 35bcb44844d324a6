//! AS numbers as people write them.

/// 64500, AS64500 or, as in RFC 5396's asdot, 1.10 for 65546.
pub fn parse(text: &str) -> Result<u32, String> {
    let marked = text.get(..2).is_some_and(|mark| mark.eq_ignore_ascii_case("as"));
    let digits = if marked { &text[2..] } else { text };
    match digits.split_once('.') {
        None => part(digits, u32::MAX),
        Some((high, low)) => Ok(part(high, 65_535)? << 16 | part(low, 65_535)?),
    }
}

fn part(digits: &str, most: u32) -> Result<u32, String> {
    if digits.is_empty() || !digits.bytes().all(|b| b.is_ascii_digit()) {
        return Err("is no AS number; write one as 64500, AS64500 or 1.10".to_string());
    }
    match digits.parse() {
        Ok(number) if number <= most => Ok(number),
        _ => Err(format!("has a number above {most}")),
    }
}

#[cfg(test)]
mod tests {
    use super::*;

    #[test]
    fn plain_and_marked() {
        for text in ["64500", "AS64500", "as64500", "As64500", "0064500", "0.64500", "AS0.64500"] {
            assert_eq!(parse(text), Ok(64_500), "{text}");
        }
        assert_eq!(parse("0"), Ok(0));
        assert_eq!(parse("4294967295"), Ok(u32::MAX));
        assert!(parse("4294967296").unwrap_err().contains("above 4294967295"));
        assert!(parse("99999999999999999999").unwrap_err().contains("above 4294967295"));
    }

    #[test]
    fn with_a_point() {
        assert_eq!(parse("1.10"), Ok(65_546));
        assert_eq!(parse("as1.0"), Ok(65_536));
        assert_eq!(parse("65535.65535"), Ok(u32::MAX));
        assert!(parse("1.65536").unwrap_err().contains("above 65535"));
        assert!(parse("65536.1").unwrap_err().contains("above 65535"));
    }

    #[test]
    fn anything_else_is_refused() {
        for text in [
            "",
            "AS",
            "-1",
            "+1",
            " 1",
            "1 ",
            "1,2",
            "64500,64501",
            "1.",
            ".1",
            "1.2.3",
            "0x10",
            "ASN1",
            "é1",
            "aé",
        ] {
            assert!(parse(text).unwrap_err().contains("is no AS number"), "{text}");
        }
    }
}
