//! All that the page shows of one listing, as the words have it.

use crate::diagnose::frames::{is_marked, line_of};
use crate::words::text::{rows, Row};
use crate::words::why::sentences;
use border::lines::{all, Reason, Rule, Step, Target, Why};
use border::{owned, Refusal, Settings};
use std::collections::{BTreeMap, BTreeSet};

pub struct Run {
    /// The first line of the listing is 7D02, and no statement.
    is_marked: bool,
    pub rewrites: usize,
    /// Bytes of image.
    pub before: usize,
    pub after: usize,
    pub long: Vec<Row>,
    pub short: Vec<Row>,
    pub stems: Vec<u16>,
    /// What was done at each place, first to last: the number of the rewrite, and the rule.
    pub done: BTreeMap<usize, Vec<(usize, Rule)>>,
    /// Each statement that stays, by its place, and why.
    pub stays: Vec<(usize, String)>,
    pub change_jumps: BTreeSet<usize>,
    pub targets: Vec<Target>,
    /// Those of a run without folds: every transfer of the listing has its line.
    pub written: Vec<Target>,
}

/// The lines are the archive's own, each of which is one.
fn typed<L: std::str::FromStr<Err = border::lines::NoSuchLine>>(answer: &[u8]) -> Vec<L> {
    all(answer).unwrap_or_default()
}

impl Run {
    pub fn of(settings: Settings, listing: &[u8]) -> Result<Run, Refusal> {
        let (run, stems) = owned::optimize_stems(Settings { comments: true, ..settings }, listing)?;
        let mut done: BTreeMap<usize, Vec<(usize, Rule)>> = BTreeMap::new();
        for (k, step) in typed::<Step>(&owned::steps(settings, listing)?).into_iter().enumerate() {
            done.entry(step.place.into()).or_default().push((k + 1, step.rule));
        }
        let whys: Vec<Why> = typed(&owned::why(settings, listing)?);
        let targets = |settings| owned::targets(settings, listing).map(|(lines, _)| typed(&lines));
        let is_marked = is_marked(listing);
        Ok(Run {
            is_marked,
            rewrites: run.rewrites,
            before: owned::assemble(listing)?.len(),
            after: run.image.len(),
            long: rows(listing)?,
            short: rows(&run.listing)?,
            stems,
            done,
            stays: sentences(&whys, is_marked),
            change_jumps: whys.iter().filter(|why| why.reason == Reason::ChangeJump).map(|why| why.place.into()).collect(),
            targets: targets(settings)?,
            written: targets(Settings { folds: false, ..settings })?,
        })
    }

    /// The line of a statement in its file, from 1: messages name both.
    pub fn line(&self, place: usize) -> usize {
        line_of(place, self.is_marked) + 1
    }

    /// The targets that name another byte than before, or none: as many as standard error counts.
    pub fn marked(&self) -> impl Iterator<Item = &Target> {
        self.targets.iter().filter(|target| target.marked)
    }
}
