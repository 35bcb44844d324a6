//! Whether octets are text in UTF-8. RFC 3629 tells how a character's number is
//! laid out in one to four octets; here it is taken out of them again, and then
//! judged as a number.

use crate::fault::Fault;
use crate::reader::Reader;

/// The least number that asks for so many octets, one octet's first.
const LEAST: [u32; 4] = [0, 0x80, 0x800, 0x1_0000];

/// The largest number of a character.
const LARGEST: u32 = 0x10_ffff;

/// Passes only text; the empty one too.
pub fn judge(octets: &[u8]) -> Result<(), Fault> {
    let mut reader = Reader::over(octets);
    while !reader.is_empty() {
        character(&mut reader).ok_or(Fault::NameNotText)?;
    }
    Ok(())
}

/// The number of the next character, if there is one.
fn character(reader: &mut Reader) -> Option<u32> {
    let first = reader.u8().ok()?;
    let behind = octets_behind(first)?;
    let mut number = u32::from(first & low_bits(first));
    for _ in 0..behind {
        number = number << 6 | six_bits(reader.u8().ok()?)?;
    }
    (number >= LEAST[behind] && is_character(number)).then_some(number)
}

/// How many octets follow the first one of a sequence. Its leading one bits
/// tell how many there are in all; a single one opens no sequence.
fn octets_behind(first: u8) -> Option<usize> {
    match first.leading_ones() {
        0 => Some(0),
        2 => Some(1),
        3 => Some(2),
        4 => Some(3),
        _ => None,
    }
}

/// The bits behind the leading ones and the zero that ends them.
fn low_bits(first: u8) -> u8 {
    0x7f >> first.leading_ones()
}

/// What an octet behind the first one adds; it has to start with the bits 10.
fn six_bits(octet: u8) -> Option<u32> {
    (octet >> 6 == 0b10).then_some(u32::from(octet & 0x3f))
}

/// The numbers of surrogates are halves of UTF-16's pairs and no characters.
fn is_character(number: u32) -> bool {
    number <= LARGEST && !(0xd800..=0xdfff).contains(&number)
}
