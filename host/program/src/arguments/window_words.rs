//! The options that say which times are meant.

use super::{once, value, Refused};
use crate::moment;
use crate::period::Period;
use crate::words::Words;

#[derive(Default)]
pub struct WindowWords {
    from: Option<u64>,
    to: Option<u64>,
    around: Option<u64>,
    micros: Option<u64>,
    /// What is doubtful about a time.
    pub doubts: Vec<String>,
}

impl WindowWords {
    pub fn option(&mut self, option: &str, words: &mut Words) -> Result<(), Refused> {
        let place = match option {
            "--from" => &mut self.from,
            "--to" => &mut self.to,
            "--around" => &mut self.around,
            "--seconds" => {
                let micros = value(words, option, moment::seconds)?;
                return Ok(once(&mut self.micros, micros, option)?);
            }
            _ => return Err(Refused::Unknown(option.to_string())),
        };
        let doubts = &mut self.doubts;
        let time = value(words, option, |text| {
            doubts.extend(moment::doubt(text).map(|doubt| format!("{option} {doubt}")));
            moment::parse(text)
        })?;
        Ok(once(place, time, option)?)
    }

    pub fn period(&self) -> Result<Period, String> {
        let WindowWords { from, to, around, micros, .. } = *self;
        match (around, micros) {
            (Some(_), Some(_)) if from.is_some() || to.is_some() => {
                Err("--around has no --from and no --to beside it".to_string())
            }
            (Some(time), Some(micros)) => Ok(Period::around(time, micros)),
            (None, None) => Ok(Period { from, to }),
            (Some(_), None) => Err("how long? --around needs --seconds N beside it".to_string()),
            (None, Some(_)) => Err("of when? --seconds needs --around TIME beside it".to_string()),
        }
    }
}
