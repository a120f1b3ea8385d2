//! Small sheets by trying every assignment. Only the reading of the sheet is shared with the judgement; clauses,
//! costs and counts are worked out again, from bit masks.

use crate::layout::number;
use crate::literal::Literal;
use crate::record::ASSIGNMENT_START;
use crate::sheet::{self, Sheet};
use crate::{sheet_is_valid, Answer, Found, NONE};
use std::collections::BTreeSet;

/// The most variables for which all assignments are tried.
pub const MOST_VARIABLES: u32 = 20;

/// The sheet is valid and has at most [`MOST_VARIABLES`] variables. Elsewhere this module has nothing to say.
pub fn within_reach(sheet: &[u8]) -> bool {
    read(sheet).is_some()
}

/// The least cost of an assignment that satisfies every clause, or `None` if every assignment breaks one.
///
/// It speaks only of sheets [`within_reach`]; elsewhere it tries nothing, and its `None` says nothing.
pub fn least_cost(sheet: &[u8]) -> Option<u64> {
    let problem = Problem::of(&read(sheet)?);
    let assignments = 0..1_u32 << problem.costs.len();
    let satisfying = assignments.filter(|assignment| problem.satisfied_by(*assignment));
    satisfying.map(|assignment| problem.cost(assignment)).min()
}

/// The answer is an acceptance of this record, and what it says is true: the record's assignment satisfies every
/// clause at that cost and nothing is cheaper; or, for "none", no assignment satisfies every clause. The counts
/// are the record's. False for a refusal, for an answer with a gap (see [`confirms_within`]) and for a sheet that is
/// not [`within_reach`].
pub fn confirms(sheet: &[u8], record: &[u8], answer: &Answer) -> bool {
    let Some(said) = Said::by(sheet, record) else {
        return false;
    };
    if *answer != said.answer(0) {
        return false;
    }
    if said.claim == NONE {
        said.assignment == 0 && least_cost(sheet).is_none()
    } else {
        said.is_model_at_claim() && least_cost(sheet) == Some(said.claim)
    }
}

/// The answer leaves a gap, and what it says is true: the record's assignment satisfies every clause at that cost, and
/// no assignment that does costs less than the cost minus the gap. The counts are the record's. Whether its steps
/// bear out just this gap is not looked at.
///
/// False for an acceptance, for a refusal and for a sheet that is not [`within_reach`].
pub fn confirms_within(sheet: &[u8], record: &[u8], answer: &Answer) -> bool {
    let Some(said) = Said::by(sheet, record) else {
        return false;
    };
    if answer.gap == 0 || *answer != said.answer(answer.gap) {
        return false;
    }
    // No bound is below 0, so no record leaves a gap greater than its claim.
    let Some(floor) = said.claim.checked_sub(answer.gap) else {
        return false;
    };
    said.is_model_at_claim() && least_cost(sheet).is_some_and(|least| least >= floor)
}

/// A sheet of which every assignment has been tried, so that the answers of many searches can be held to it.
pub struct Tried {
    problem: Problem,
    first_least: Option<u32>,
}

impl Tried {
    /// `None` for a sheet that is not [`within_reach`].
    pub fn on(sheet: &[u8]) -> Option<Tried> {
        let problem = Problem::of(&read(sheet)?);
        let first_least = problem.first_least();
        Some(Tried {
            problem,
            first_least,
        })
    }

    /// The least cost of an assignment that satisfies every clause, if one does, and the first assignment of that cost.
    /// Of two, that one is first which has false for the lowest-numbered variable in which they differ.
    pub fn first_least(&self) -> Option<(u64, u64)> {
        let plan = self.first_least?;
        Some((self.problem.cost(plan), u64::from(plan)))
    }

    /// What the search of this sheet answered to the budget is true, as far as that can be told without the branches:
    ///
    /// - the plan, if any, satisfies every clause;
    /// - the choices are within the budget, and are all of it unless the search ended;
    /// - no assignment that satisfies every clause costs less than the floor;
    /// - if the search ended, its plan is the first of least cost, and the floor is that cost; or there is no plan
    ///   because there is none, and the floor is "none".
    ///
    /// False for a refusal.
    pub fn confirms(&self, budget: u64, found: &Found) -> bool {
        let least = self.first_least();
        let (least_cost, first_plan) = (least.map_or(NONE, |l| l.0), least.map(|l| l.1));
        let is_model = |plan| self.problem.is_model(plan);
        let is_searched = (found.number, found.place) == (0, 0);
        let is_paid = found.choices <= budget && (found.ended || found.choices == budget);
        let is_last = found.plan == first_plan && found.floor == least_cost;
        is_searched
            && is_paid
            && found.plan.is_none_or(is_model)
            && found.floor <= least_cost
            && (!found.ended || is_last)
    }
}

/// What a record on a sheet within reach says, its steps apart.
struct Said {
    problem: Problem,
    claim: u64,
    assignment: u32,
    step_count: u64,
}

impl Said {
    /// `None` for a sheet that is not within reach, and where the assignment is cut short or has a spare bit set.
    fn by(sheet: &[u8], record: &[u8]) -> Option<Said> {
        let problem = Problem::of(&read(sheet)?);
        let byte_count = problem.costs.len().div_ceil(8);
        let stored = record.get(ASSIGNMENT_START..ASSIGNMENT_START + byte_count)?;
        let assignment = number(stored) as u32;
        if assignment >> problem.costs.len() != 0 {
            return None;
        }
        Some(Said {
            problem,
            claim: number(&record[0..8]),
            assignment,
            step_count: number(&record[8..12]),
        })
    }

    /// The answer to such a record if nothing is refused and the steps leave this gap.
    fn answer(&self, gap: u64) -> Answer {
        Answer {
            number: 0,
            place: 0,
            cost: self.claim,
            open_count: u64::from(self.assignment.count_ones()),
            step_count: self.step_count,
            gap,
        }
    }

    /// The assignment satisfies every clause, and costs what is claimed. No cost is "none".
    fn is_model_at_claim(&self) -> bool {
        self.problem.satisfied_by(self.assignment)
            && self.problem.cost(self.assignment) == self.claim
    }
}

/// The sheet, if it is within reach.
fn read(file: &[u8]) -> Option<Sheet<'_>> {
    if !sheet_is_valid(file) {
        return None;
    }
    let sheet = sheet::read(file).ok()?;
    (sheet.variable_count() <= MOST_VARIABLES).then_some(sheet)
}

/// The variables of a clause by the sign they have in it; variable v is bit v - 1.
struct Masks {
    positive: u32,
    negative: u32,
}

struct Problem {
    standing_loss: u64,
    costs: Vec<u64>,
    clauses: Vec<Masks>,
}

impl Problem {
    fn of(sheet: &Sheet) -> Problem {
        let variables = 1..=sheet.variable_count();
        Problem {
            standing_loss: sheet.standing_loss() as u64,
            costs: variables.map(|v| sheet.cost(v) as u64).collect(),
            clauses: sheet.clauses().iter().map(Masks::of).collect(),
        }
    }

    /// A set bit of the assignment is a true variable.
    fn satisfied_by(&self, assignment: u32) -> bool {
        let satisfied = |clause: &Masks| {
            let true_positive = assignment & clause.positive;
            let true_negative = !assignment & clause.negative;
            true_positive != 0 || true_negative != 0
        };
        self.clauses.iter().all(satisfied)
    }

    /// The first, in the order of a search, of the assignments that satisfy every clause at the least cost.
    fn first_least(&self) -> Option<u32> {
        let assignments = 0..1_u32 << self.costs.len();
        let satisfying = assignments.filter(|assignment| self.satisfied_by(*assignment));
        // Turned round, variable 1 is the highest bit: the lesser number has false where two first differ.
        satisfying.min_by_key(|assignment| (self.cost(*assignment), assignment.reverse_bits()))
    }

    /// The plan satisfies every clause, and has no bit but those of the variables.
    fn is_model(&self, plan: u64) -> bool {
        plan >> self.costs.len() == 0 && self.satisfied_by(plan as u32)
    }

    fn cost(&self, assignment: u32) -> u64 {
        let mut cost = self.standing_loss;
        for (index, variable_cost) in self.costs.iter().enumerate() {
            if assignment & (1 << index) != 0 {
                cost += variable_cost;
            }
        }
        cost
    }
}

impl Masks {
    fn of(clause: &BTreeSet<Literal>) -> Masks {
        let mut masks = Masks {
            positive: 0,
            negative: 0,
        };
        for literal in clause {
            let bit = 1 << (literal.variable() - 1);
            if literal.is_positive() {
                masks.positive |= bit;
            } else {
                masks.negative |= bit;
            }
        }
        masks
    }
}
