//! The numbers with which a dump or a call is refused, and what they mean.

pub use crate::faults::Fault;
use std::error::Error;
use std::fmt;

impl Fault {
    /// The fault of a number; none for 0 and for numbers that no fault has.
    ///
    /// ```
    /// use dagsumilat::Fault;
    ///
    /// assert_eq!(Fault::of_number(9), Some(Fault::State));
    /// assert_eq!(Fault::of_number(0), None);
    /// assert_eq!(Fault::of_number(u64::MAX), None);
    /// ```
    pub fn of_number(number: u64) -> Option<Fault> {
        Fault::ALL.into_iter().find(|fault| u64::from(fault.number()) == number)
    }

    /// Reads the first number of an answer: 0 refuses nothing.
    pub(crate) fn of_answer(number: u64) -> Option<Fault> {
        (number != 0).then(|| Fault::of_number(number).expect("the calls answer 0 or a fault"))
    }

    pub fn number(self) -> u8 {
        self as u8
    }

    pub fn name(self) -> &'static str {
        self.entry().name
    }

    /// What it means: a sentence without its full stop.
    pub fn words(self) -> &'static str {
        self.entry().words
    }

    /// What its place is the first octet of, in words; "none" for one that is no fault of a dump.
    pub fn place_words(self) -> &'static str {
        self.entry().place
    }

    /// What it often comes from: a hint, never a verdict.
    ///
    /// ```
    /// use dagsumilat::Fault;
    ///
    /// assert!(Fault::State.cause().contains("dump bgp all"));
    /// ```
    pub fn cause(self) -> &'static str {
        self.entry().cause
    }

    /// What a person can do about it.
    pub fn remedy(self) -> &'static str {
        self.entry().remedy
    }
}

impl fmt::Display for Fault {
    fn fmt(&self, f: &mut fmt::Formatter) -> fmt::Result {
        write!(f, "{} ({})", self.number(), self.name())
    }
}

impl Error for Fault {}

/// A fault, and its place: the first octet of the field that failed, counted from the dump's first
/// octet, or from the record's where one record is read; 0 if it is no fault of a dump.
///
/// A field of which nothing is there has the place where it would start, just past the record. Where
/// the faulty record of a dump starts is told by [`first_fault`](crate::first_fault).
#[derive(Clone, Copy, Debug, PartialEq, Eq, Hash)]
pub struct Refusal {
    pub fault: Fault,
    pub place: usize,
}

impl Refusal {
    /// Reads the first two numbers of an answer: 0 refuses nothing.
    pub(crate) fn of_answer(number: u64, place: u64) -> Option<Refusal> {
        Fault::of_answer(number).map(|fault| Refusal { fault, place: place as usize })
    }
}

impl fmt::Display for Refusal {
    fn fmt(&self, f: &mut fmt::Formatter) -> fmt::Result {
        write!(f, "fault {} at octet {}", self.fault, self.place)
    }
}

impl Error for Refusal {}

#[cfg(test)]
mod tests {
    use super::*;

    #[test]
    fn numbers_and_faults_belong_together() {
        for fault in Fault::ALL {
            assert_eq!(Fault::of_number(fault.number().into()), Some(fault));
        }
        assert!(Fault::ALL.is_sorted_by(|one, next| one.number() < next.number()));
        assert_eq!(Fault::of_number(u64::MAX), None);
    }

    #[test]
    fn a_refusal_names_number_and_place() {
        let refusal = Refusal::of_answer(9, 32).unwrap();
        assert_eq!(refusal.to_string(), "fault 9 (FSM state) at octet 32");
        assert_eq!(Refusal::of_answer(0, 32), None);
    }
}
