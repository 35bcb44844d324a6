//! The command that cuts.

use crate::advice;
use crate::arguments::CutOrder;
use crate::beside::both;
use crate::evidence::Evidence;
use crate::input::Recording;
use crate::muting::{self, Muting, Wanted};
use crate::outcome::Outcome;
use crate::output::{Draft, Target};
use crate::progress::Progress;
use crate::room::Room;
use crate::sides::Sides;
use crate::stop::{self, tell, Stop};
use crate::tally::{Of, Tally};
use crate::warnings::{Judged, Warning};
use dagsumilat::Fault;
use std::collections::BTreeMap;

pub fn cut(order: &CutOrder) -> Result<(), Stop> {
    order.period.refuse_backward()?;
    refuse_outputs(order)?;
    let (wanted, warnings) = muting::read(&order.whose)?;
    let mut progress = Progress::new(order.reading.progress);
    let recording = order.reading.read(&mut progress)?;
    progress.stage("cutting", None);
    progress.at(recording.octets.len() as u64);
    let done = Cut::make(order, &wanted, &recording)?;
    let (draft, after) = draft_and_count(order, &done.clip, &mut progress)?;
    progress.clear();
    let counted = Counted { done: &done, peers: after.by_as(), after };
    finish(order, &recording, &counted, warnings, draft)
}

fn refuse_outputs(order: &CutOrder) -> Result<(), Stop> {
    let mut inputs = order.reading.metadata()?;
    for file in muting::files(&order.whose) {
        inputs.push(file.metadata()?);
    }
    if let Some(target) = &order.target {
        target.refuse_early(&inputs)?;
        target.refuse_terminal()?;
    }
    if let Some(report) = &order.report {
        report.refuse_early(&inputs)?;
    }
    match (&order.target, &order.report) {
        (Some(target), Some(report)) if target.is_also(report) => {
            Err(Stop::writing(report.name(), &"it is OUT too"))
        }
        _ => Ok(()),
    }
}

/// A cut in memory, with what stood in the dump.
struct Cut {
    muting: Muting,
    before: Tally,
    peers: BTreeMap<u32, Of>,
    clip: Vec<u8>,
}

impl Cut {
    fn make(order: &CutOrder, wanted: &Wanted, recording: &Recording) -> Result<Cut, Stop> {
        match wanted.at_once() {
            Some(muting) => Cut::beside(order, muting, recording),
            None => Cut::behind(order, wanted, recording),
        }
    }

    /// Counts while the library cuts.
    fn beside(order: &CutOrder, muting: Muting, recording: &Recording) -> Result<Cut, Stop> {
        let room = Room::of(recording, &muting)?;
        let count = || Tally::of(&recording.octets);
        let (before, clip) = both(count, || room.cut(order.period, recording, &muting));
        let clip = clip.map_err(|refusal| refused(recording, refusal.fault))?;
        Ok(Cut { muting, peers: before.by_as(), before, clip })
    }

    /// Counts first: the peers of the dump decide who goes.
    fn behind(order: &CutOrder, wanted: &Wanted, recording: &Recording) -> Result<Cut, Stop> {
        let before = Tally::of(&recording.octets);
        if let Some(refusal) = before.refusal {
            return Err(refused(recording, refusal.fault));
        }
        let peers = before.by_as();
        let muting = wanted.resolve(&peers, order.is_forced).map_err(Stop::Refused)?;
        let clip = Room::of(recording, &muting)?.cut(order.period, recording, &muting);
        let clip = clip.map_err(|refusal| refused(recording, refusal.fault))?;
        Ok(Cut { muting, peers, before, clip })
    }
}

fn refused(recording: &Recording, fault: Fault) -> Stop {
    Stop::Refused(advice::dump_refused(recording, fault))
}

/// What is written has no name yet: whoever counts may still say no.
fn draft_and_count<'a>(
    order: &'a CutOrder,
    clip: &'a [u8],
    progress: &mut Progress,
) -> Result<(Option<Draft<'a>>, Tally), Stop> {
    let target = order.target.as_ref().filter(|_| !order.is_dry);
    let write = || target.map(|target| target.draft(clip, progress)).transpose();
    let (after, draft) = both(|| Tally::of(clip), write);
    Ok((draft?, after))
}

/// A cut, and what stands in the clip.
struct Counted<'a> {
    done: &'a Cut,
    after: Tally,
    peers: BTreeMap<u32, Of>,
}

impl Counted<'_> {
    fn sides(&self, order: &CutOrder) -> Sides<'_> {
        Sides {
            period: order.period,
            muting: &self.done.muting,
            before: &self.done.before,
            after: &self.after,
            peers_before: &self.done.peers,
            peers_after: &self.peers,
        }
    }

    fn warnings(&self, order: &CutOrder) -> Vec<Warning> {
        Judged { sides: self.sides(order), is_verbose: order.is_verbose }.warnings()
    }

    /// The library leaves out the numbers that it is given; that these are all who should go is the
    /// shell's word, so the clip is looked at once more.
    fn refuse_left(&self) -> Result<(), Stop> {
        match self.done.muting.left_in(&self.peers) {
            None => Ok(()),
            Some(number) => Err(Stop::Trouble(format!(
                "nothing is written: AS{number} should not be in the clip, and is; please report this"
            ))),
        }
    }
}

/// Judges the cut, then gives the files their names: first the clip, then its report.
fn finish(
    order: &CutOrder,
    recording: &Recording,
    counted: &Counted,
    mut warnings: Vec<Warning>,
    draft: Option<Draft>,
) -> Result<(), Stop> {
    counted.refuse_left()?;
    let doubts = order.doubts.iter().cloned();
    warnings.extend(doubts.map(|words| Warning { is_serious: true, words }));
    warnings.extend(counted.warnings(order));
    // The sort keeps the order of those that are alike.
    warnings.sort_by_key(|warning| warning.is_serious);
    let name = clip_name(order);
    let outcome = Outcome {
        clip: &name,
        sides: counted.sides(order),
        octets: (recording.octets.len() as u64, counted.done.clip.len() as u64),
        is_brief: order.is_brief,
    };
    let refused = order.is_strict && !warnings.is_empty();
    if !refused && !order.is_dry {
        let clip = &counted.done.clip[..];
        let evidence = Evidence { order, recording, clip, outcome: &outcome, warnings: &warnings };
        place(order.report.as_ref(), &evidence, draft)?;
    }
    tell_all(order, &outcome, &warnings);
    match refused {
        true => Err(Stop::Refused(format!(
            "--strict: nothing is written, for {} warning(s)",
            warnings.len()
        ))),
        false => Ok(()),
    }
}

fn clip_name(order: &CutOrder) -> String {
    let name = order.target.as_ref().map_or_else(|| "the clip".to_string(), Target::shown);
    match order.is_dry {
        true => format!("{name} (dry run, nothing is written)"),
        false => name,
    }
}

/// The report is whole before the clip has its name.
fn place(report: Option<&Target>, evidence: &Evidence, draft: Option<Draft>) -> Result<(), Stop> {
    let text = report.map(|_| evidence.text()).unwrap_or_default();
    let quiet = &mut Progress::new(false);
    let report = report.map(|target| target.draft(text.as_bytes(), quiet)).transpose()?;
    draft.map_or(Ok(()), Draft::place)?;
    report.map_or(Ok(()), |report| {
        report.place().map_err(|stop| stop.after("the clip is written, its report is not"))
    })
}

fn tell_all(order: &CutOrder, outcome: &Outcome, warnings: &[Warning]) {
    if !order.is_quiet {
        tell(&outcome.report());
    }
    let (minor, serious) = warnings.split_at(warnings.partition_point(|it| !it.is_serious));
    minor.iter().for_each(|warning| tell(&format!("warning: {}", warning.words)));
    if !serious.is_empty() {
        stop::apart();
    }
    serious.iter().for_each(|warning| tell(&format!("WARNING: {}", warning.words)));
}
