//! The cited clause that keeps a step from being an independent set, and what would mend it: refusals 14, 20, 21 and 22.
//!
//! Nothing is decided here: the number is the proved checker's, and where another fault is found, nothing is said.

use crate::places::{added_lines, clause_costs, clause_line, cost};
use crate::record::Record;
use crate::sheet::Sheet;
use crate::steps;
use crate::text::listed;
use planner::{Literal, Reason, Step};
use proved::Answer;
use std::collections::BTreeMap;

/// What is wrong with a cited clause, with everything in it that has this fault: a mend has to see to all of it.
enum Fault {
    /// These literals are true.
    True(Vec<Literal>),
    /// These literals are negative and their variables unsettled.
    Negative(Vec<Literal>),
    AllSettled,
    /// The variables of these literals are unsettled, and each stands in this clause, cited before.
    Shared(Vec<(Literal, u32)>),
}

impl Fault {
    fn number(&self) -> u64 {
        match self {
            Fault::True(_) => 14,
            Fault::Negative(_) => 20,
            Fault::AllSettled => 21,
            Fault::Shared(_) => 22,
        }
    }

    /// The clauses cited before that share a variable, each once.
    fn sharing(&self) -> Vec<u32> {
        let Fault::Shared(shared) = self else {
            return Vec::new();
        };
        let mut clauses: Vec<u32> = shared.iter().map(|(_, clause)| *clause).collect();
        clauses.sort_unstable();
        clauses.dedup();
        clauses
    }
}

/// The lines that follow the step's own; nothing where the answer is about something else.
pub fn lines(sheet: &Sheet, record: &Record, answer: &Answer) -> Option<Vec<String>> {
    let body = record.steps.body(answer.place as usize)?;
    let step = steps::read(body)?;
    let Reason::Independent { clauses } = &step.reason else {
        return None;
    };
    let (clause, fault) = first_fault(sheet, &step.literals, clauses)?;
    if fault.number() != answer.number {
        return None;
    }
    let mut shown = vec![clause];
    shown.extend(fault.sharing());
    let mut lines = Vec::new();
    for number in &shown {
        lines.push(clause_line(sheet, *number as usize));
        lines.extend((*number == clause).then(|| fault_line(&fault)));
        lines.extend(clause_costs(sheet, *number as usize));
    }
    lines.extend(mends(sheet, &step, clauses, clause, &fault));
    let anew = "after a mend, work the bound out anew, and the steps that rest on this one";
    lines.push(anew.to_string());
    let others = clauses.iter().filter(|number| !shown.contains(number));
    let others: Vec<u32> = others.copied().collect();
    lines.extend(added_lines(sheet, &step, &others));
    Some(lines)
}

/// The first clause at fault in the order of the citation, where the step has these literals.
fn first_fault(sheet: &Sheet, literals: &[Literal], cited: &[u32]) -> Option<(u32, Fault)> {
    let mut holders = BTreeMap::new();
    for number in cited {
        let clause = sheet.clause(*number as usize)?;
        if let Some(fault) = fault(literals, &clause, &holders) {
            return Some((*number, fault));
        }
        let variables = clause.iter().map(|literal| literal.variable());
        holders.extend(variables.map(|variable| (variable, *number)));
    }
    None
}

/// The first fault of one clause. `holders` has the variables of the clauses cited before it.
fn fault(step: &[Literal], clause: &[Literal], holders: &BTreeMap<usize, u32>) -> Option<Fault> {
    let in_step = |literal: Literal| step.binary_search(&literal).is_ok();
    let all = clause.iter().copied();
    let made_true: Vec<Literal> = all.clone().filter(|l| in_step(l.negated())).collect();
    if !made_true.is_empty() {
        return Some(Fault::True(made_true));
    }
    // A literal of a settled variable is false from here on, so that the step has it.
    let unsettled = all.filter(|literal| !in_step(*literal));
    let negative: Vec<Literal> = unsettled.clone().filter(|l| !l.is_positive()).collect();
    if !negative.is_empty() {
        return Some(Fault::Negative(negative));
    }
    if unsettled.clone().next().is_none() {
        return Some(Fault::AllSettled);
    }
    let shared = unsettled.filter_map(|l| Some((l, *holders.get(&l.variable())?)));
    let shared: Vec<(Literal, u32)> = shared.collect();
    (!shared.is_empty()).then_some(Fault::Shared(shared))
}

/// What of the clause is at fault.
fn fault_line(fault: &Fault) -> String {
    match fault {
        Fault::True(literals) => {
            let pair = |l: &Literal| format!("{} by the step's {}", name(*l), name(l.negated()));
            format!("  made true: {}", joined(literals, pair))
        }
        Fault::Negative(literals) => format!("  negative and unsettled:{}", listed(literals)),
        Fault::AllSettled => {
            "  nothing unsettled: making the step's literals false breaks it".to_string()
        }
        Fault::Shared(shared) => {
            let pair =
                |(l, clause): &(Literal, u32)| format!("{} with clause {clause}", variable(l));
            format!("  shared: {}", joined(shared, pair))
        }
    }
}

/// What can be done, a line each. Whichever is done, no clause up to this one is at fault any more.
fn mends(sheet: &Sheet, step: &Step, cited: &[u32], clause: u32, fault: &Fault) -> Vec<String> {
    let mut mends = vec![match cited {
        [_] => format!("mend: do not cite clause {clause}; the step cites nothing then and has to be a cost step"),
        _ => format!("mend: do not cite clause {clause}"),
    }];
    if let Fault::AllSettled = fault {
        let copied = "with its literals alone and the bound none";
        mends.push(format!("mend: copy clause {clause} instead, {copied}"));
    }
    if let Fault::Shared(_) = fault {
        let sharing = joined(&fault.sharing(), |number| format!("clause {number}"));
        mends.push(format!("mend: do not cite {sharing}"));
    }
    if let Some((literals, mend)) = resettled(sheet, step, fault) {
        // Other literals can put an earlier clause at fault, or this one in another way: that would mend nothing.
        let earlier = cited.iter().copied().take_while(|number| *number != clause);
        let up_to: Vec<u32> = earlier.chain([clause]).collect();
        if first_fault(sheet, &literals, &up_to).is_none() {
            mends.push(mend);
        }
    }
    mends
}

/// The step's literals changed so that the fault's variables are settled otherwise, and the line that says so.
fn resettled(sheet: &Sheet, step: &Step, fault: &Fault) -> Option<(Vec<Literal>, String)> {
    match fault {
        Fault::True(literals) => {
            let out: Vec<Literal> = literals.iter().map(|l| l.negated()).collect();
            let kept = step.literals.iter().filter(|l| !out.contains(l));
            let (list, then) = (listed(&out), joined(&out, variable));
            let mend =
                format!("mend: take{list} out of the step's literals; unsettled then: {then}");
            Some((kept.copied().collect(), mend))
        }
        Fault::Negative(literals) => {
            let costs = joined(literals, |l| cost(sheet, l.variable()));
            Some(added(step, literals, &format!("true then: {costs}")))
        }
        Fault::AllSettled => None,
        Fault::Shared(shared) => {
            let literals: Vec<Literal> = shared.iter().map(|(literal, _)| *literal).collect();
            let variables = joined(&literals, variable);
            Some(added(step, &literals, &format!("false then: {variables}")))
        }
    }
}

fn added(step: &Step, literals: &[Literal], settled: &str) -> (Vec<Literal>, String) {
    let mut all = [&step.literals, literals].concat();
    all.sort_unstable();
    let list = listed(literals);
    let mend = format!("mend: add{list} to the step's literals; settled {settled}");
    (all, mend)
}

pub(crate) fn joined<T>(items: &[T], words: impl Fn(&T) -> String) -> String {
    items.iter().map(words).collect::<Vec<_>>().join(", ")
}

fn name(literal: Literal) -> String {
    listed(&[literal]).trim_start().to_string()
}

pub(crate) fn variable(literal: &Literal) -> String {
    format!("variable {}", literal.variable())
}
