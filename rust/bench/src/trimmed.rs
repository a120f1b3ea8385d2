//! The records that the trimmers are measured on. They differ in how many of their steps are kept.

mod chains;
mod sides;

use planner::{format, search, Plan, Problem};
use samples::random::Random;
use samples::sheets::{problem, ROOMY};
use samples::Sample;

/// The sets by their names, with the share of kept steps in 100.
pub const SETS: [(&str, usize); 3] = [("all", 100), ("half", 50), ("tenth", 10)];

const SEED: u64 = 11;
const LOSS: u32 = 1_000;

/// The sample of a set whose record has about `size` bytes, the same at every call. It is accepted.
pub fn sample(set: &str, size: usize) -> Option<Sample> {
    let (_, share) = SETS.into_iter().find(|(name, _)| *name == set)?;
    let (problem, assignment) = solved();
    let steps = chains::steps(&problem, SEED, share, size);
    let assignment = format::assignment_bytes(&assignment);
    Some(Sample {
        sheet: format::sheet(&problem),
        record: format::record_from(LOSS.into(), &assignment, &steps),
        aimed: "accepted to be trimmed",
    })
}

/// A problem with an assignment of least cost. Its true variables cost nothing, so that it costs the loss alone: no bound is
/// below that, and whatever steps are resolved down to no literals, the last one bears the claim out.
fn solved() -> (Problem, Vec<bool>) {
    let mut problem = problem(&ROOMY, &mut Random::new(SEED));
    let Plan { assignment, .. } = search::plan(&problem);
    for (cost, value) in problem.costs.iter_mut().zip(&assignment) {
        *cost *= u32::from(!value);
    }
    problem.loss = Some(LOSS);
    (problem, assignment)
}
