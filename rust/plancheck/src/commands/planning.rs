//! The commands that make sheets and records.

use super::{at_line, code, print, Outcome};
use crate::args::Args;
use crate::failure::Failure;
use crate::{files, import, trim};
use planner::search::{self, Bounds};
use planner::{format, tree, Plan, Problem};
use std::io::Write;
use std::path::Path;

/// How many variables every assignment may be tried for.
const FEW: usize = 16;

pub(super) fn planned(args: &Args, out: &mut dyn Write) -> Outcome {
    let [path] = args.files()?;
    let output = args.needed_output()?;
    if args.has("--tree") && args.steps.is_some() {
        let both = "--tree goes to the end, and --steps stops early: take one of them";
        return Err(Failure::Usage(both.into()));
    }
    let bytes = files::read(path)?;
    let problem = files::problem(path, &bytes)?;
    // The planner leaves idle steps out by itself. That none is written is the proved trimmer's word all the same, and not its own.
    let record = trim::without_idle_steps(&bytes, plan(args, path, &problem)?.record());
    files::write(output, &record)?;
    let answer = proved::judge(&bytes, &record);
    print(out, &format!("{}\n", answer.line()))?;
    Ok(code(&answer))
}

/// A plan in the way that is asked for.
fn plan(args: &Args, path: &Path, problem: &Problem) -> Result<Plan, Failure> {
    if args.has("--tree") {
        return by_tree(path, problem);
    }
    let bounds = match args.has("--unweighted") {
        true => Bounds::Independent,
        false => Bounds::Weights,
    };
    let Some(steps) = args.steps else {
        let (plan, _) = search::plan_by(problem, bounds, u64::MAX);
        return Ok(plan.expect("no limit was set"));
    };
    search::plan_in(problem, bounds, steps).ok_or_else(|| {
        Failure::Unfinished(format!(
            "{}: no assignment was found, and {steps} steps do not show that none exists: nothing is written",
            path.display()
        ))
    })
}

fn by_tree(path: &Path, problem: &Problem) -> Result<Plan, Failure> {
    if problem.variables() > FEW {
        let most = format!("{}: --tree takes {FEW} variables at most", path.display());
        return Err(Failure::Content(most));
    }
    Ok(tree::plan(problem))
}

pub(super) fn imported(args: &Args, out: &mut dyn Write) -> Outcome {
    let [path] = args.files()?;
    let output = args.needed_output()?;
    let text = files::read_text(path)?;
    let problem = import::import(&text).map_err(|fault| at_line(path, &fault))?;
    let bytes = format::sheet(&problem);
    files::valid_sheet(output, &bytes)?;
    files::write(output, &bytes)?;
    let (variables, clauses) = (problem.variables(), problem.clauses.len());
    let loss = problem.loss.map(|loss| format!(", loss {loss}"));
    let (output, loss) = (output.display(), loss.unwrap_or_default());
    print(
        out,
        &format!("{output}: {variables} variables, {clauses} clauses{loss}\n"),
    )
}
