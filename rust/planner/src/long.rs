//! Records of a wanted size: a plan's steps spread evenly among steps that it does not need.

use crate::format::{assignment_bytes, record_from, step_body, Bodies, PAIR, RECORD_HEAD};
use crate::padding::{Mix, Padding};
use crate::problem::Problem;
use crate::random::Random;
use crate::Plan;

/// A record of about `size` bytes, never shorter unless the plan's own record is longer already.
pub fn record(problem: &Problem, plan: &Plan, seed: u64, size: usize, mix: Mix) -> Vec<u8> {
    let mut padding = Padding::new(problem, Random::new(seed), mix);
    let mut bodies = Bodies::default();
    let own: usize = plan
        .steps
        .iter()
        .map(|step| step_body(step).len() + PAIR)
        .sum();
    let assignment = assignment_bytes(&plan.assignment);
    let budget = size.saturating_sub(own + RECORD_HEAD + assignment.len());
    let mut padded = 0;
    let mut moved = Vec::with_capacity(plan.steps.len());
    for (place, step) in plan.steps.iter().enumerate() {
        // Wide, because a size times a count may not fit a small machine's word.
        let due = (budget as u128 * (place as u128 + 1) / plan.steps.len() as u128) as usize;
        while padded < due {
            let extra = padding.step();
            let body = step_body(&extra);
            padded += body.len() + PAIR;
            bodies.push(&body);
            padding.remember(bodies.count() as u32, &extra);
        }
        let mut step = step.clone();
        step.reason = step.reason.renumbered(|number| moved[number as usize - 1]);
        bodies.push(&step_body(&step));
        moved.push(bodies.count() as u32);
        padding.remember(bodies.count() as u32, &step);
    }
    record_from(plan.claim, &assignment, &bodies)
}
