//! The proved library's calls on lent memory. After each call it is asked whether the fences
//! stand and whether what was only to be read is as it was.

use crate::lending::{words, Loan, Spot};
use crate::telling::Told;
use dagsumilat::calls;
use second::cut_cases;
use second::vectors::rng::Rng;

/// A longer dump is not held against its copy after every call, but by [`Desk::is_unchanged`].
const SHORT: usize = 4096;

/// The call for a report, or one in its place.
pub type ReportCall<'a> = &'a dyn Fn(&[u8], &mut [u64; 39], &mut [u64; 2]);

/// The call for a check, or one in its place.
pub type CheckCall<'a> = &'a dyn Fn(&[u8], &mut [u64; 3]);

/// The call for a dump's first fault, or one in its place.
pub type FirstFaultCall<'a> = &'a dyn Fn(&[u8], &mut [u64; 4]);

/// A cut: of a dump, with a window's start and end and a list, into a buffer; and the answer.
pub type Cut = dyn Fn(&[u8], u64, u64, &[u32], &mut [u8], &mut [u64; 3]);

/// The call for a cut, or one in its place.
pub type CutCall<'a> = &'a Cut;

/// A window and a list.
#[derive(Clone, Debug, PartialEq, Eq)]
pub struct Ask {
    pub from: u64,
    pub to: u64,
    pub list: Vec<u32>,
}

impl From<&cut_cases::Ask> for Ask {
    fn from(ask: &cut_cases::Ask) -> Ask {
        Ask { from: ask.start, to: ask.end, list: ask.list.clone() }
    }
}

#[derive(Default)]
pub struct Desk {
    dump: Loan<u8>,
    mutes: Loan<u32>,
    out: Loan<u8>,
    report: Loan<u64>,
    answer: Loan<u64>,
    spots: Spots,
    copy: Vec<u8>,
}

/// Where the loans lie.
#[derive(Clone, Copy, Debug)]
pub struct Spots {
    pub dump: Spot,
    pub mutes: Spot,
    pub out: Spot,
    pub answer: Spot,
}

impl Default for Spots {
    fn default() -> Spots {
        Spots { dump: Spot::Last, mutes: Spot::Last, out: Spot::Last, answer: Spot::Last }
    }
}

impl Spots {
    pub fn draw(rng: &mut Rng) -> Spots {
        let mut spot = || Spot::draw(rng);
        Spots { dump: spot(), mutes: spot(), out: spot(), answer: spot() }
    }
}

impl Desk {
    /// The dump of the calls to come.
    pub fn lay(&mut self, dump: &[u8], spots: Spots) {
        self.spots = spots;
        self.dump.lay(dump, spots.dump);
        self.copy.clear();
        self.copy.extend_from_slice(dump);
    }

    pub fn check(&mut self) -> Told<[u64; 3]> {
        self.check_by(&calls::check)
    }

    pub fn check_by(&mut self, call: CheckCall) -> Told<[u64; 3]> {
        self.call("check", call)
    }

    pub fn first_fault(&mut self) -> Told<[u64; 4]> {
        self.first_fault_by(&calls::first_fault)
    }

    pub fn first_fault_by(&mut self, call: FirstFaultCall) -> Told<[u64; 4]> {
        self.call("first fault", call)
    }

    pub fn record(&mut self, at: usize, table: u64) -> Told<[u64; 10]> {
        self.call("record", |dump, answer| calls::record(dump, at, table, answer))
    }

    pub fn peer(&mut self, at: usize) -> Told<[u64; 7]> {
        self.call("peer", |dump, answer| calls::peer(dump, at, answer))
    }

    pub fn entry(&mut self, at: usize) -> Told<[u64; 6]> {
        self.call("entry", |dump, answer| calls::entry(dump, at, answer))
    }

    /// The record that starts at `at`, in all the octets from there on; none past the end.
    pub fn read(&mut self, at: usize, table: u64) -> Told<[u64; 20]> {
        self.call("read", |dump, answer| {
            calls::read(dump.get(at..).unwrap_or_default(), table, answer)
        })
    }

    /// The answer, and the lent report afterwards.
    pub fn report(
        &mut self,
        call: ReportCall,
        lent: &[u64; 39],
        spot: Spot,
    ) -> Told<([u64; 2], [u64; 39])> {
        self.report.lay(lent, spot);
        self.answer.clear(2, self.spots.answer);
        let (report, answer) = (words(self.report.lent_mut()), words(self.answer.lent_mut()));
        call(self.dump.lent(), report, answer);
        let after = (*answer, *report);
        self.is_fenced("report")?;
        if !self.report.is_fenced() {
            return Err("report wrote past the report".into());
        }
        Ok(after)
    }

    /// The answer; what was written is [`Desk::written`].
    pub fn cut(&mut self, ask: &Ask, room: usize) -> Told<[u64; 3]> {
        self.cut_by(&calls::cut, ask, room)
    }

    pub fn cut_by(&mut self, call: CutCall, ask: &Ask, room: usize) -> Told<[u64; 3]> {
        self.mutes.lay(&ask.list, self.spots.mutes);
        self.out.clear(room, self.spots.out);
        let (mutes, out) = (self.mutes.lent(), self.out.lent_mut());
        self.answer.clear(3, self.spots.answer);
        let answer = words(self.answer.lent_mut());
        call(self.dump.lent(), ask.from, ask.to, mutes, out, answer);
        let answer = *answer;
        self.is_fenced("cut")?;
        if self.mutes.lent() != ask.list {
            return Err("cut changed the list".into());
        }
        if !self.out.is_clear_from(written_size(answer, room)?) {
            return Err(format!("cut answers {answer:?} and writes behind what it reports"));
        }
        Ok(answer)
    }

    /// The first octets of the buffer after a cut.
    pub fn written(&self, size: usize) -> &[u8] {
        &self.out.lent()[..size]
    }

    /// Whether the whole dump is as it was laid.
    pub fn is_unchanged(&self) -> Told<()> {
        if self.dump.lent() != self.copy {
            return Err("the dump was changed".into());
        }
        Ok(())
    }

    fn call<const N: usize>(
        &mut self,
        name: &str,
        call: impl FnOnce(&[u8], &mut [u64; N]),
    ) -> Told<[u64; N]> {
        self.answer.clear(N, self.spots.answer);
        let answer = words(self.answer.lent_mut());
        call(self.dump.lent(), answer);
        let answer = *answer;
        self.is_fenced(name)?;
        Ok(answer)
    }

    fn is_fenced(&self, name: &str) -> Told<()> {
        let fenced = [
            self.dump.is_fenced(),
            self.mutes.is_fenced(),
            self.out.is_fenced(),
            self.answer.is_fenced(),
        ];
        if fenced != [true; 4] {
            return Err(format!("{name} wrote past dump, list, buffer or answer: {fenced:?}"));
        }
        if self.copy.len() <= SHORT {
            self.is_unchanged()?;
        }
        Ok(())
    }
}

fn written_size(answer: [u64; 3], room: usize) -> Told<usize> {
    match usize::try_from(answer[2]) {
        Ok(size) if size <= room => Ok(size),
        _ => Err(format!("cut answers {answer:?}, more than a room of {room}")),
    }
}
