//! The times that are asked for: a window that may be open on either side.

use crate::advice;
use crate::moment;
use crate::stop::Stop;
use dagsumilat::Window;

#[derive(Clone, Copy, Debug, Default, PartialEq, Eq)]
pub struct Period {
    /// None: all times before the end.
    pub from: Option<u64>,
    /// None: all times from the start on.
    pub to: Option<u64>,
}

impl Period {
    /// So many microseconds before and after a moment.
    pub fn around(time: u64, micros: u64) -> Period {
        Period { from: Some(time.saturating_sub(micros)), to: Some(time.saturating_add(micros)) }
    }

    /// A record's time has 53 bits, so that all times are before the last one of 64.
    pub fn window(self) -> Window {
        Window { from: self.from.unwrap_or(0), to: self.to.unwrap_or(u64::MAX) }
    }

    /// Asks the library, with no dump yet: no file need be read for an order that cannot be met.
    pub fn refuse_backward(self) -> Result<(), Stop> {
        let window = self.window();
        dagsumilat::cut(&[], window, &[]).map(drop).map_err(|refusal| {
            let (from, to) = (moment::shown(window.from), moment::shown(window.to));
            Stop::Refused(advice::order_refused(refusal.fault, &from, &to))
        })
    }

    pub fn holds(self, time: u64) -> bool {
        let Window { from, to } = self.window();
        (from..to).contains(&time)
    }

    pub fn shown(self) -> String {
        let [from, to] = [self.from, self.to].map(|time| time.map(moment::shown));
        match (from, to) {
            (Some(from), Some(to)) => format!("from {from} up to but not including {to}"),
            (Some(from), None) => format!("from {from} on (--to was left out)"),
            (None, Some(to)) => format!("up to but not including {to} (--from was left out)"),
            (None, None) => "of all times (--from and --to were left out)".to_string(),
        }
    }
}

#[cfg(test)]
mod tests {
    use super::*;

    #[test]
    fn an_open_side_holds_all_times() {
        let latest = u64::from(u32::MAX) * 1_000_000 + u64::from(u32::MAX);
        assert!(Period::default().holds(0) && Period::default().holds(latest));
        let on = Period { from: Some(5), to: None };
        assert!(!on.holds(4) && on.holds(5) && on.holds(latest));
        let until = Period { from: None, to: Some(5) };
        assert!(until.holds(0) && until.holds(4) && !until.holds(5));
    }

    #[test]
    fn around_a_moment() {
        let around = Period::around(10, 3);
        assert_eq!(around.window(), Window { from: 7, to: 13 });
        assert_eq!(Period::around(2, 3).from, Some(0));
        assert_eq!(Period::around(u64::MAX, 3).to, Some(u64::MAX));
    }
}
