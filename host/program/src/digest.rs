//! SHA-256, by the system's sha256sum.

use crate::filter;

const DIGITS: usize = 64;

/// None if the system has no such program, or it does not do its work.
pub fn sha256(octets: &[u8]) -> Option<String> {
    let mut out = Vec::new();
    let passed = filter::pass(&["sha256sum"], octets, (&mut out, 1_000), |_| {}).ok()?;
    digits(&out).filter(|_| passed.status.success())
}

/// The digits are followed by a blank and the name of what was read.
fn digits(out: &[u8]) -> Option<String> {
    let (digits, rest) = out.split_at_checked(DIGITS)?;
    let is_digit = |octet: &u8| matches!(octet, b'0'..=b'9' | b'a'..=b'f');
    let good = digits.iter().all(is_digit) && rest.first() == Some(&b' ');
    good.then(|| String::from_utf8_lossy(digits).into_owned())
}

#[cfg(test)]
mod tests {
    use super::*;

    #[test]
    fn only_digits_are_a_digest() {
        let good = "0123456789abcdef".repeat(4);
        assert_eq!(digits(format!("{good}  -\n").as_bytes()), Some(good.clone()));
        for bad in [&good, "", "sha256sum: no\n", &format!("{good}0  -"), &"g".repeat(70)] {
            assert_eq!(digits(bad.as_bytes()), None, "{bad}");
        }
    }

    #[test]
    fn the_digest_of_three_letters() {
        // As in FIPS 180's first example.
        let expected = "ba7816bf8f01cfea414140de5dae2223b00361a396177a9cb410ff61f20015ad";
        assert!(sha256(b"abc").is_none_or(|digest| digest == expected));
    }
}
