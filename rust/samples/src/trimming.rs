//! Records to be trimmed: good ones of every answer, with idle steps, which the last step does not rest on, between the others.

pub mod idle;

use crate::draft::Draft;
use crate::random::Random;
use crate::{drafted, sheets, weights, widening};
use idle::padded;
use planner::{search, tree, Problem, NONE};

/// How many steps there are for each that is kept, where a record is padded to a share: all are kept, half, or a tenth.
pub const SHARES: [usize; 3] = [1, 2, 10];

/// A record with idle steps more than it had.
#[derive(Clone, Debug)]
pub struct Padded {
    pub draft: Draft,
    pub what: &'static str,
}

/// An endless stream of good records with and without idle steps. The same seed always gives the same ones.
pub fn stream(seed: u64) -> impl Iterator<Item = Padded> {
    let mut random = Random::new(seed);
    std::iter::repeat_with(move || {
        let draft = base(&mut random);
        let (what, draft) = match random.below(4) {
            0 => ("as planned", draft),
            1 => ("half of the steps kept", to_share(&draft, 2, &mut random)),
            2 => (
                "a tenth of the steps kept",
                to_share(&draft, 10, &mut random),
            ),
            _ => {
                let count = random.between(1, 5);
                ("a few idle steps", padded(&draft, count, &mut random))
            }
        };
        Padded { draft, what }
    })
}

/// How many steps the last one does not rest on.
pub fn idle_count(draft: &Draft) -> usize {
    draft.steps.len() - kept_count(draft)
}

fn kept_count(draft: &Draft) -> usize {
    let kept = widening::rested_on(draft, draft.steps.len() - 1);
    kept.into_iter().filter(|is_kept| *is_kept).count()
}

/// The record with so many idle steps that there are this many steps for each that is kept, or as many as it had where these
/// are more already.
pub fn to_share(draft: &Draft, share: usize, random: &mut Random) -> Draft {
    let wanted = share * kept_count(draft);
    padded(draft, wanted.saturating_sub(draft.steps.len()), random)
}

/// A plan, some of whose steps may be idle already, with wider resolutions or steps of kind 5 at times, or with a gap.
fn base(random: &mut Random) -> Draft {
    let problem = match random.below(50) {
        0 => sheets::middle(random),
        _ => sheets::small(random),
    };
    let mut draft = planned(&problem, random);
    if random.percent(40) {
        weights::steps::join(&mut draft, random);
    }
    if random.percent(40) {
        widening::records::join(&mut draft, random);
    }
    if random.percent(30) {
        dearer(&mut draft, random);
    }
    draft
}

fn planned(problem: &Problem, random: &mut Random) -> Draft {
    let by_tree = problem.variables() <= 6 && random.percent(50);
    let plan = if by_tree {
        tree::plan(problem)
    } else {
        search::plan(problem)
    };
    drafted(problem, &plan.record())
}

/// Makes one variable more true, which costs something and breaks no clause: the steps fall short of the claim by that.
fn dearer(draft: &mut Draft, random: &mut Random) -> Option<()> {
    if draft.claim == NONE {
        return None;
    }
    let (count, first) = (draft.variables(), random.below(draft.variables()));
    for variable in (0..count).map(|turn| (first + turn) % count + 1) {
        if draft.value(variable) || draft.costs[variable - 1] == 0 {
            continue;
        }
        draft.flip(variable)?;
        if draft.satisfied() {
            draft.claim = draft.assignment_cost();
            return Some(());
        }
        draft.flip(variable)?;
    }
    None
}
