//! Counts of a record: what it is made of and how its last step comes about.

use crate::record::Record;
use crate::steps;
use planner::Reason;

#[derive(Clone, Debug, Default, PartialEq, Eq)]
pub struct Stats {
    /// Steps that copy, cost, cite independent sets, resolve, weigh clauses; and bodies that are no step.
    pub kinds: [usize; 6],
    pub literals: usize,
    /// Clauses with weights, over all weighted steps.
    pub entries: usize,
    /// The most steps on a way from the last step back to one that cites no step.
    pub depth: u32,
    /// How many earlier steps the last one rests on, directly or through others.
    pub needed: usize,
    /// How many it does not rest on: those that trimming leaves out.
    pub idle: usize,
}

/// Citations of steps that are not earlier are left out: they lead nowhere.
pub fn stats(record: &Record) -> Stats {
    let count = record.steps.count();
    let mut stats = Stats::default();
    // Place 0 stands for no step, and has the depth 0.
    let mut depths = vec![0u32; count + 1];
    let mut cited = vec![[0; 2]; count + 1];
    for number in 1..=count {
        let step = record.steps.body(number).and_then(steps::read);
        // The last place is for bodies that are no step.
        let kind = step.as_ref().map_or(6, |step| step.reason.kind());
        stats.kinds[usize::from(kind) - 1] += 1;
        if let Some(step) = step {
            stats.literals += step.literals.len();
            cited[number] = cited_by(&step.reason, number);
            if let Reason::Linear { weights, .. } = &step.reason {
                stats.entries += weights.len();
            }
        }
        let [first, second] = cited[number].map(|step| depths[step as usize]);
        depths[number] = 1 + first.max(second);
    }
    stats.depth = depths[count];
    stats.needed = needed(&cited);
    stats.idle = count.saturating_sub(1 + stats.needed);
    stats
}

/// The earlier steps that a step cites.
fn cited_by(reason: &Reason, number: usize) -> [u32; 2] {
    let earlier = |step: u32| if (step as usize) < number { step } else { 0 };
    match reason {
        Reason::Resolution {
            positive, negative, ..
        } => [earlier(*positive), earlier(*negative)],
        _ => [0, 0],
    }
}

fn needed(cited: &[[u32; 2]]) -> usize {
    let last = cited.len() - 1;
    let mut marked = vec![false; cited.len()];
    marked[last] = true;
    for number in (1..=last).rev().filter(|number| cited[*number] != [0, 0]) {
        if marked[number] {
            for step in cited[number] {
                marked[step as usize] = true;
            }
        }
    }
    let earlier = marked.iter().take(last).skip(1);
    earlier.filter(|marked| **marked).count()
}
