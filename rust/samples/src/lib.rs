//! Samples for comparing checkers: sheets with records that are valid, or damaged with an aim, or
//! damaged without one. The same seed always gives the same samples.
#![forbid(unsafe_code)]

pub mod damage;
pub mod draft;
pub mod examples;
pub mod greatest;
pub mod longer;
pub mod outcome;
pub mod random;
pub mod searching;
pub mod sheets;
pub mod trimming;
pub mod turning;
pub mod weights;
pub mod widening;
pub mod writing;

use damage::Damage;
use draft::{Draft, Files};
use planner::padding::Mix;
use planner::{format, long, search, tree, Plan, Problem};
use random::Random;

/// How many numbers a judgement may have: 0 and those of its refusals. Three answers have 0: see [`outcome::Outcome`].
pub const NUMBERS: usize = 25;

/// What the samples say that nothing was done to, and those of which some resolutions were made wider than they have to be.
pub const VALID: &str = "accepted valid";
pub const WIDENED: &str = "accepted widened";

#[derive(Clone, Debug, PartialEq, Eq)]
pub struct Sample {
    pub sheet: Vec<u8>,
    pub record: Vec<u8>,
    /// What was done. It begins with what that alone would meet: a refusal's number, "accepted" or "within"; but for
    /// several faults at once, and for blind ones.
    pub aimed: &'static str,
}

impl Sample {
    fn new(files: Files, aimed: &'static str) -> Self {
        Sample {
            sheet: files.sheet,
            record: files.record,
            aimed,
        }
    }
}

/// An endless stream of samples.
pub fn stream(seed: u64) -> impl Iterator<Item = Sample> {
    let random = Random::new(seed);
    Stream {
        random,
        base: None,
        left: 0,
        other: Vec::new(),
    }
}

/// An accepted sample whose record has about `size` bytes. The sheet is unmarked, here and where no loss is asked for, and the
/// same seed gives what it gave before there were losses: so times that were measured on such samples can be compared.
pub fn long(seed: u64, size: usize, mix: Mix) -> Sample {
    long_with_loss(None, seed, size, mix)
}

/// The same with a standing loss, where there is to be one.
pub fn long_with_loss(loss: Option<u32>, seed: u64, size: usize, mix: Mix) -> Sample {
    let shape = match mix {
        Mix::Long | Mix::LongOf(_) => sheets::LENGTHY,
        Mix::Mixed | Mix::Resolution => sheets::ROOMY,
    };
    let mut problem = sheets::problem(&shape, &mut Random::new(seed));
    problem.loss = loss;
    let plan = search::plan(&problem);
    let record = long::record(&problem, &plan, seed, size, mix);
    Sample {
        sheet: format::sheet(&problem),
        record,
        aimed: "accepted long",
    }
}

/// A long sample of all kinds, and more than half of it steps of kind 5 with weights of every sort. The sheet is smaller, since
/// such a step may cite all of it.
pub fn long_with_weights(loss: Option<u32>, seed: u64, size: usize) -> Sample {
    let mut random = Random::new(seed);
    let shape = sheets::middle_shape(&mut random);
    let mut problem = sheets::problem(&shape, &mut random);
    problem.loss = loss;
    let plan = search::plan(&problem);
    let record = long::record(&problem, &plan, seed, size * 2 / 5, Mix::Mixed);
    let mut draft = drafted(&problem, &record);
    weights::steps::fill(&mut draft, size.saturating_sub(record.len()), &mut random);
    Sample::new(draft.files(), "accepted long with weights")
}

/// A long sample whose resolutions were made wider than they have to be, by which the record has grown.
pub fn long_widened(loss: Option<u32>, seed: u64, size: usize, mix: Mix) -> Sample {
    let mut random = Random::new(seed);
    let mut problem = sheets::problem(&sheets::ROOMY, &mut random);
    problem.loss = loss;
    let plan = search::plan(&problem);
    let mut draft = drafted(&problem, &long::record(&problem, &plan, seed, size, mix));
    widening::records::widen(&mut draft, &mut random);
    Sample::new(draft.files(), "accepted long widened")
}

fn drafted(problem: &Problem, record: &[u8]) -> Draft {
    Draft::new(problem, record).expect("the planner's records are well formed")
}

/// Planning takes longer than damaging, so that one plan serves for many samples.
struct Stream {
    random: Random,
    base: Option<Draft>,
    left: usize,
    /// The record of the base before this one.
    other: Vec<u8>,
}

impl Iterator for Stream {
    type Item = Sample;

    fn next(&mut self) -> Option<Sample> {
        if self.left == 0 {
            if let Some(before) = self.base.take() {
                self.other = before.files().record;
            }
            let base = self.new_base();
            let (files, wider) = (base.files(), widening::count(&base, base.steps.len()));
            self.base = Some(base);
            return Some(Sample::new(files, if wider > 0 { WIDENED } else { VALID }));
        }
        self.left -= 1;
        let draft = self.base.take()?;
        let sample = self.damaged(&draft);
        self.base = Some(draft);
        Some(sample)
    }
}

impl Stream {
    fn new_base(&mut self) -> Draft {
        let (problem, left) = match self.random.below(200) {
            0 => (sheets::wide(&mut self.random), 8),
            1..=4 => (sheets::middle(&mut self.random), 16),
            _ => (sheets::small(&mut self.random), 48),
        };
        self.left = left;
        let plan = self.plan(&problem);
        // Steps that the plan does not need bring every kind into every record.
        let size = plan.record().len() + self.random.below(800);
        let record = long::record(&problem, &plan, self.random.next_u64(), size, Mix::Mixed);
        let mut draft = drafted(&problem, &record);
        weights::steps::join(&mut draft, &mut self.random);
        if self.random.percent(60) {
            widening::records::join(&mut draft, &mut self.random);
        }
        draft
    }

    fn plan(&mut self, problem: &Problem) -> Plan {
        if problem.variables() <= 6 && self.random.percent(30) {
            return tree::plan(problem);
        }
        search::plan(problem)
    }

    /// Draws faults until one applies; "2 sheet under four bytes" always does.
    fn damaged(&mut self, draft: &Draft) -> Sample {
        if self.random.percent(1) {
            let sheet = draft.files().sheet;
            let record = self.other.clone();
            return Sample::new(Files { sheet, record }, "blind record of another sheet");
        }
        loop {
            let (faults, aimed) = self.faults();
            if let Some(files) = damage::apply(&faults, draft, &mut self.random) {
                return Sample::new(files, aimed);
            }
        }
    }

    fn faults(&mut self) -> (Vec<Damage>, &'static str) {
        let random = &mut self.random;
        match random.below(20) {
            0..=13 => {
                let fault = damage::aimed(random);
                (vec![fault], fault.aimed)
            }
            14..=17 => {
                let fault = damage::blind(random);
                (vec![fault], fault.aimed)
            }
            // Two faults at once show which of them is told.
            18 => (
                vec![damage::aimed(random), damage::aimed(random)],
                "two faults",
            ),
            _ => (
                vec![damage::aimed(random), damage::blind(random)],
                "two faults, one blind",
            ),
        }
    }
}
