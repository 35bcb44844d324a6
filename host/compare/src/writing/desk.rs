//! The library's writers on lent memory, each part in a loan of its own.

use super::words::{self, Flag, PARTS};
use crate::lending::{self, Loan, Spot};
use crate::telling::Told;
use dagsumilat::calls::writers as calls;
use second::vectors::rng::Rng;
use second::writers::Given;

/// Where the loans lie.
#[derive(Clone, Copy, Debug)]
pub struct Spots {
    pub parts: [Spot; PARTS],
    pub out: Spot,
    pub answer: Spot,
}

impl Spots {
    pub fn draw(rng: &mut Rng) -> Spots {
        let mut spot = || Spot::draw(rng);
        Spots { parts: [spot(), spot(), spot()], out: spot(), answer: spot() }
    }
}

/// The library's writer of what it is given, or one in its place.
pub type WriteCall<'a> = &'a dyn Fn(&calls::Given, &mut [u8], &mut [u64; 2]);

#[derive(Default)]
pub struct WritingDesk {
    parts: [Loan<u8>; PARTS],
    out: Loan<u8>,
    answer: Loan<u64>,
}

impl WritingDesk {
    /// The answer for a buffer of so many octets; what was written is [`WritingDesk::written`].
    pub fn write(
        &mut self,
        given: &Given,
        flag: Flag,
        room: usize,
        spots: &Spots,
    ) -> Told<[u64; 2]> {
        self.write_by(&written, given, flag, room, spots)
    }

    pub fn write_by(
        &mut self,
        call: WriteCall,
        given: &Given,
        flag: Flag,
        room: usize,
        spots: &Spots,
    ) -> Told<[u64; 2]> {
        let laid = words::parts(given);
        for ((loan, part), spot) in self.parts.iter_mut().zip(laid).zip(spots.parts) {
            loan.lay(part, spot);
        }
        self.out.clear(room, spots.out);
        self.answer.clear(2, spots.answer);
        let answer = lending::words(self.answer.lent_mut());
        let parts = self.parts.each_ref().map(Loan::lent);
        call(&words::lent(given, parts, flag), self.out.lent_mut(), answer);
        let answer = *answer;
        self.is_sound(answer, laid, room)?;
        Ok(answer)
    }

    /// The first octets of the buffer.
    pub fn written(&self, size: usize) -> &[u8] {
        &self.out.lent()[..size]
    }

    /// Nothing was written but the octets that the answer reports.
    fn is_sound(&self, answer: [u64; 2], laid: [&[u8]; PARTS], room: usize) -> Told<()> {
        let fenced = [&self.parts[0], &self.parts[1], &self.parts[2], &self.out];
        if !fenced.iter().all(|loan| loan.is_fenced()) || !self.answer.is_fenced() {
            return Err("write: past a part, the buffer or the answer".into());
        }
        if self.parts.iter().zip(laid).any(|(loan, part)| loan.lent() != part) {
            return Err("write changed a part".into());
        }
        match usize::try_from(answer[1]) {
            Ok(size) if size > room => Err(format!("write answers {answer:?} in {room} octets")),
            Ok(size) if self.out.is_clear_from(size) => Ok(()),
            _ => Err(format!("write answers {answer:?} and writes behind what it reports")),
        }
    }
}

/// The library's own writer.
pub fn written(given: &calls::Given, out: &mut [u8], answer: &mut [u64; 2]) {
    given.write(out, answer);
}
