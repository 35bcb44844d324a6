//! The proved library's answers, in the words of the plain ones.

use crate::{plain, plain_cut, plain_report};
use dagsumilat::calls;

pub fn check(dump: &[u8]) -> plain::Answer {
    let mut answer = [0; 3];
    calls::check(dump, &mut answer);
    let [fault, place, records] = answer;
    plain::Answer { fault, place, records }
}

pub fn report(dump: &[u8], report: &mut plain_report::Report) -> plain_report::Answer {
    let mut answer = [0; 2];
    calls::report(dump, report, &mut answer);
    let [fault, place] = answer;
    plain_report::Answer { fault, place }
}

pub fn cut(dump: &[u8], from: u64, to: u64, list: &[u32], out: &mut [u8]) -> plain_cut::Answer {
    let mut answer = [0; 3];
    calls::cut(dump, from, to, list, out, &mut answer);
    let [fault, place, written] = answer;
    plain_cut::Answer { fault, place, written }
}
