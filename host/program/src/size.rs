//! Sizes as people write them: 500M, 8G, 8GB, 8GiB.

use crate::number::grouped;

/// The letters and how many octets each stands for, as a power of 1,000 or 1,024.
const POWERS: [(char, u32); 4] = [('k', 1), ('m', 2), ('g', 3), ('t', 4)];

/// In octets. K, M, G and T are powers of 1,000, with B behind them or not; KiB, MiB, GiB and TiB
/// are powers of 1,024.
pub fn parse(text: &str) -> Result<u64, String> {
    let end = text.find(|c: char| !c.is_ascii_digit()).unwrap_or(text.len());
    let (digits, unit) = text.split_at(end);
    let unit = unit_of(&unit.to_ascii_lowercase()).filter(|_| !digits.is_empty());
    let unit = unit.ok_or("is no size; write one as 500M, 8G or 8GiB")?;
    let size = digits.parse().ok().and_then(|number: u64| number.checked_mul(unit));
    match size {
        Some(0) => Err("is no size: nothing could be read".to_string()),
        Some(size) => Ok(size),
        None => Err(format!("has a size above {}", grouped(u64::MAX))),
    }
}

fn unit_of(letters: &str) -> Option<u64> {
    let mut letters = letters.chars();
    let Some(first) = letters.next() else {
        return Some(1);
    };
    let (_, power) = POWERS.iter().find(|(letter, _)| *letter == first)?;
    match letters.as_str() {
        "" | "b" => Some(1_000_u64.pow(*power)),
        "ib" => Some(1_024_u64.pow(*power)),
        _ => None,
    }
}

#[cfg(test)]
mod tests {
    use super::*;

    #[test]
    fn decimal_and_binary() {
        for (text, size) in [
            ("1", 1),
            ("500M", 500_000_000),
            ("8G", 8_000_000_000),
            ("8GB", 8_000_000_000),
            ("8gb", 8_000_000_000),
            ("8GiB", 8 << 30),
            ("1K", 1_000),
            ("1kib", 1_024),
            ("3MiB", 3 << 20),
            ("2T", 2_000_000_000_000),
            ("16777215TiB", 16_777_215 << 40),
            ("18446744073709551615", u64::MAX),
        ] {
            assert_eq!(parse(text), Ok(size), "{text}");
        }
    }

    #[test]
    fn anything_else_is_refused() {
        for text in
            ["", "G", "8 G", "8X", "1.5G", "-1", "+1", "8Gi", "8GBB", "8B", "8é", "é", "1e9"]
        {
            assert!(parse(text).unwrap_err().contains("is no size"), "{text}");
        }
        assert!(parse("0").unwrap_err().contains("nothing could be read"));
        assert!(parse("0G").unwrap_err().contains("nothing could be read"));
        for text in ["18446744073709551616", "18446745T", "16777216TiB"] {
            assert!(parse(text).unwrap_err().contains("above 18,446,744,073,709"), "{text}");
        }
    }
}
