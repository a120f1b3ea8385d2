//! Explanations of refusals 14, 20, 21 and 22: which cited clause is at fault, and mends that mend.
//!
//! The answers here are the reference checker's, which shares no code with the explanation.

mod common;

use common::judged;
use plancheck::explain::explain;
use plancheck::pack::pack;
use plancheck::sheet::Sheet;
use plancheck::steps;
use planner::bounds::{cost_bound, independent_bound};
use planner::{format, Literal, Problem, Reason, Step, NONE};
use proved::Verdict;
use samples::draft::Draft;
use samples::stream;
use std::collections::BTreeMap;

const FOUR: [u64; 4] = [14, 20, 21, 22];
/// The bound of a resolution and weighted steps have mends too.
const OTHERS: [u64; 3] = [18, 23, 24];
/// And these two where the steps that are cited resolve at all.
const SOMETIMES: [u64; 2] = [16, 17];

/// Document 001's example 2, as in document 01's case C, with a clause without literals and one that shares with two.
const SHEET: &str = "sheet\ncost 1 1\ncost 2 2\ncost 3 3\ncost 4 4\ncost 5 5\ncost 6 6\n\
    clause 1 3 5\nclause 2 4 5 -6\nclause -1 -2\nclause\nclause 3 4\n";

/// The files with this one step.
fn files(step: &str) -> (Vec<u8>, Vec<u8>) {
    let record = format!("record\nvariables 6\nclaim none\nassign\n{step} bound 9\n");
    (pack(SHEET).unwrap().1, pack(&record).unwrap().1)
}

/// The refusal's number, and what stands between the step's line and the costs that are left to show.
fn explained(step: &str) -> (u64, String) {
    let (sheet, record) = files(step);
    let answer = judged(&sheet, &record);
    let lines = explain(&sheet, &record, &answer);
    let end = lines
        .iter()
        .position(|line| line.starts_with("after a mend"));
    (answer.number, lines[3..end.unwrap()].join("\n"))
}

const CLAUSE_1: &str = "clause 1 (sheet, byte 68): 1 3 5";
const COSTS_1: &str = "  costs there: variable 1 costs 1, variable 3 costs 3, variable 5 costs 5";
const CLAUSE_2: &str = "clause 2 (sheet, byte 74): 2 4 5 -6";
const COSTS_2: &str =
    "  costs there: variable 2 costs 2, variable 4 costs 4, variable 5 costs 5, variable 6 costs 6";
const NOT_1: &str = "mend: do not cite clause 1";
const NOT_2: &str = "mend: do not cite clause 2";
const ALONE: &str = "; the step cites nothing then and has to be a cost step";

#[test]
fn a_true_literal_is_named_with_the_literal_that_makes_it_true() {
    let fault = "  made true: 3 by the step's -3, 5 by the step's -5";
    let mend =
        "mend: take -3 -5 out of the step's literals; unsettled then: variable 3, variable 5";
    let lines = [CLAUSE_1, fault, COSTS_1, NOT_1, mend].join("\n");
    assert_eq!(explained("independent 1 2 : -3 -5"), (14, lines));
    // Without 6 in the step the literal is unsettled, and it is negative.
    let fault = "  made true: -6 by the step's 6";
    let lines = [CLAUSE_2, fault, COSTS_2, NOT_2].join("\n");
    assert_eq!(explained("independent 1 2 : 5 6"), (14, lines));
}

#[test]
fn a_negative_literal_is_named() {
    let fault = "  negative and unsettled: -6";
    let mend = "mend: add -6 to the step's literals; settled true then: variable 6 costs 6";
    let lines = [CLAUSE_2, fault, COSTS_2, &(NOT_2.to_string() + ALONE), mend].join("\n");
    assert_eq!(explained("independent 2 :"), (20, lines));
    // With -1 in the step clause 1 would have a true literal, and clause 3 no unsettled variable.
    let lines = "clause 3 (sheet, byte 82): -1 -2\n  negative and unsettled: -1 -2\n  \
        costs there: variable 1 costs 1, variable 2 costs 2\nmend: do not cite clause 3";
    assert_eq!(
        explained("independent 1 2 3 : 5 -6"),
        (20, lines.to_string())
    );
}

#[test]
fn a_clause_without_unsettled_variables_is_named() {
    let fault = "  nothing unsettled: making the step's literals false breaks it";
    let copy = "mend: copy clause 1 instead, with its literals alone and the bound none";
    let lines = [CLAUSE_1, fault, COSTS_1, NOT_1, copy].join("\n");
    assert_eq!(explained("independent 1 2 : 1 3 5 -6"), (21, lines));
    let empty = "clause 4 (sheet, byte 86): no literals";
    let not = format!("mend: do not cite clause 4{ALONE}");
    let lines = [empty, fault, &not, &copy.replace('1', "4")].join("\n");
    assert_eq!(explained("independent 4 : 2"), (21, lines));
}

#[test]
fn a_shared_variable_is_named_with_the_clause_that_has_it_too() {
    let fault = "  shared: variable 5 with clause 1";
    let mend = "mend: add 5 to the step's literals; settled false then: variable 5";
    let shown = [CLAUSE_2, fault, COSTS_2, CLAUSE_1, COSTS_1, NOT_2, NOT_1];
    let lines = [&shown[..], &[mend]].concat().join("\n");
    assert_eq!(explained("independent 1 2 : -6"), (22, lines));
    // With 5 in the step clause 1 would have no unsettled variable, and below, with 3 and 4, clause 5.
    let lines = shown.join("\n");
    assert_eq!(explained("independent 1 2 : 1 3 -6"), (22, lines));
    let lines = [
        "clause 5 (sheet, byte 86): 3 4",
        "  shared: variable 3 with clause 1, variable 4 with clause 2",
        "  costs there: variable 3 costs 3, variable 4 costs 4",
        &[CLAUSE_1, COSTS_1, CLAUSE_2, COSTS_2].join("\n"),
        "mend: do not cite clause 5\nmend: do not cite clause 1, clause 2",
    ];
    let lines = lines.join("\n");
    assert_eq!(explained("independent 1 2 5 : 5 -6"), (22, lines));
}

/// Nothing is said that the checker has not said: an answer with another number gets no mend.
#[test]
fn another_fault_is_not_explained() {
    let (sheet, record) = files("independent 1 2 : -6");
    let mut answer = judged(&sheet, &record);
    assert_eq!(answer.number, 22);
    for number in [14, 15, 20, 21] {
        answer.number = number;
        let lines = explain(&sheet, &record, &answer);
        assert_eq!(lines.iter().filter(|line| *line == CLAUSE_1).count(), 1);
        assert!(!lines.iter().any(|line| line.starts_with("mend: ")));
    }
}

/// A refused record with the step at the refusal's place, to be changed.
struct Case {
    problem: Problem,
    draft: Draft,
    place: usize,
    step: Step,
}

impl Case {
    fn new(sheet: &[u8], record: &[u8], place: usize) -> Case {
        let problem = Sheet::open(sheet).unwrap().problem().unwrap();
        let draft = Draft::new(&problem, record).unwrap();
        let step = steps::read(&draft.steps[place - 1]).unwrap();
        Case {
            problem,
            draft,
            place,
            step,
        }
    }

    fn cited(&self) -> &[u32] {
        match &self.step.reason {
            Reason::Independent { clauses } => clauses,
            _ => panic!("the refusal is about an independent set"),
        }
    }

    /// Whether the step gets through, its bound worked out, when it cites nothing behind this clause.
    fn passes(&self, mut step: Step, clause: u32) -> bool {
        if let Reason::Independent { clauses } = &mut step.reason {
            clauses.retain(|cited| *cited <= clause);
            if clauses.is_empty() {
                step.reason = Reason::Cost;
            }
        }
        let bound = match &step.reason {
            Reason::Independent { clauses } => {
                independent_bound(&self.problem, &step.literals, clauses)
            }
            Reason::Copy { .. } => Some(NONE),
            _ => Some(cost_bound(&self.problem, &step.literals)),
        };
        step.bound = bound.unwrap_or(0);
        let mut draft = self.draft.clone();
        draft.steps[self.place - 1] = format::step_body(&step);
        let files = draft.files();
        let answer = judged(&files.sheet, &files.record);
        // The close is told once every step has passed, and a gap as well: no acceptance is asked for here.
        answer.verdict() != Verdict::Refused
            || answer.number == 19
            || answer.place > self.place as u64
    }

    /// The step after what a line says has been done to it.
    fn mended(&self, line: &str) -> Step {
        let told = line.split(';').next().unwrap();
        let words = told.split_whitespace().map(|word| word.trim_matches(','));
        let numbers: Vec<i64> = words.filter_map(|word| word.parse().ok()).collect();
        assert!(!numbers.is_empty(), "{line}");
        let listed = |literal: &Literal| {
            let sign = if literal.is_positive() { 1 } else { -1 };
            numbers.contains(&(sign * literal.variable() as i64))
        };
        let mut step = self.step.clone();
        match told.split_whitespace().nth(1).unwrap() {
            "do" => {
                let left = self.cited().iter().copied();
                let left = left.filter(|clause| !numbers.contains(&i64::from(*clause)));
                let clauses: Vec<u32> = left.collect();
                assert_eq!(clauses.is_empty(), line.contains("a cost step"), "{line}");
                step.reason = Reason::Independent { clauses };
            }
            "copy" => {
                let clause = numbers[0] as u32;
                step.literals = self.problem.clauses[clause as usize - 1].clone();
                step.reason = Reason::Copy { clause };
            }
            "take" => step.literals.retain(|literal| !listed(literal)),
            _ => {
                let variable = |number: &i64| number.unsigned_abs() as usize;
                let literal = |number: &i64| Literal::new(variable(number), *number > 0);
                step.literals.extend(numbers.iter().map(literal));
                step.literals.sort_unstable();
            }
        }
        assert_ne!(step, self.step, "{line}");
        step
    }
}

/// The number in `clause 2 (sheet, ..`.
fn clause_of(line: &str) -> u32 {
    line.split(' ').nth(1).unwrap().parse().unwrap()
}

/// The step gets as far as the clause that is named and no further; once a mend is done, it gets past this clause.
#[test]
fn mends_mend() {
    let mut met: BTreeMap<(u64, String), usize> = BTreeMap::new();
    for sample in stream(14).take(40_000) {
        let answer = judged(&sample.sheet, &sample.record);
        let lines = explain(&sample.sheet, &sample.record, &answer);
        let mends = lines.iter().filter(|line| line.starts_with("mend: "));
        let mended = FOUR.contains(&answer.number) || OTHERS.contains(&answer.number);
        let open = SOMETIMES.contains(&answer.number);
        assert!(open || (mends.clone().count() > 0) == mended, "{lines:?}");
        if !FOUR.contains(&answer.number) {
            continue;
        }
        let case = Case::new(&sample.sheet, &sample.record, answer.place as usize);
        let clause = clause_of(&lines[3]);
        assert!(case.passes(case.step.clone(), clause - 1), "{lines:?}");
        assert!(!case.passes(case.step.clone(), clause), "{lines:?}");
        for mend in mends {
            assert!(case.passes(case.mended(mend), clause), "{lines:?}");
            let way = mend.split_whitespace().nth(1).unwrap().to_string();
            *met.entry((answer.number, way)).or_default() += 1;
        }
    }
    let ways = [(14, "take"), (20, "add"), (21, "copy"), (22, "add")];
    let left_out = FOUR.map(|number| (number, "do"));
    for (number, way) in ways.into_iter().chain(left_out) {
        let count = met.get(&(number, way.to_string())).copied().unwrap_or(0);
        assert!(count > 20, "{number} {way}: {met:?}");
    }
}
