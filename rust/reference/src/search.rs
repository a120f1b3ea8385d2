//! The search for a plan: refusals 1 to 4 of the sheet, refusal 26, and the branches in their order.
//!
//! Each branch has its own copy of the values, so there is nothing to take back when it is left. A clause that forces a
//! literal is looked for from the first clause on, each time anew.

use crate::judge::check_size;
use crate::literal::Literal;
use crate::refusal::{refuse, Refusal, MANY_PADDLES};
use crate::sheet::{self, Sheet};
use crate::NONE;
use std::collections::BTreeSet;

/// As many variables as a sheet may have to be searched: a plan is one number of 64 bits.
const MOST_SEARCHED: u32 = 64;

/// The answer to a sheet and a budget.
#[derive(Clone, Copy, Debug, PartialEq, Eq)]
pub struct Found {
    /// The refusal's number; 0 where the sheet was searched.
    pub number: u32,
    /// The clause that the refusal names; 0 where the sheet was searched and where there is none to name.
    pub place: u64,
    /// The best assignment that was come upon, if any; variable v is bit v - 1, and a set bit is true.
    pub plan: Option<u64>,
    /// How many choices were made; 0 with a refusal.
    pub choices: u64,
    /// No branch is left untried; false with a refusal.
    pub ended: bool,
    /// The least of the plan's cost and of what is spent, before its own choice, at each branch not yet tried; [`NONE`]
    /// where there is neither; 0 with a refusal.
    pub floor: u64,
}

/// Searches the sheet for a plan of least cost, with as many choices as the budget has.
pub fn search(sheet: &[u8], budget: u64) -> Found {
    match unrefused(sheet, budget) {
        Ok(found) => found,
        Err(refusal) => Found {
            number: refusal.number,
            place: refusal.place,
            plan: None,
            choices: 0,
            ended: false,
            floor: 0,
        },
    }
}

/// What the search comes to, or the first refusal. The order of the lines is the order of the refusals.
fn unrefused(sheet: &[u8], budget: u64) -> Result<Found, Refusal> {
    check_size(sheet, &[])?;
    let sheet = sheet::read(sheet)?;
    check_variables(&sheet)?;
    let mut search = Search {
        sheet: &sheet,
        budget,
        choices: 0,
        best: None,
        untried: vec![],
    };
    search.branch(Values::unsettled(sheet.variable_count()));
    Ok(search.answer())
}

/// Refusal 26.
fn check_variables(sheet: &Sheet) -> Result<(), Refusal> {
    if sheet.variable_count() > MOST_SEARCHED {
        return refuse(MANY_PADDLES, 0);
    }
    Ok(())
}

/// A plan with its cost, the standing loss included.
struct Best {
    plan: u64,
    cost: u64,
}

/// How far a search has come.
struct Search<'a> {
    sheet: &'a Sheet<'a>,
    budget: u64,
    choices: u64,
    best: Option<Best>,
    /// For each branch not yet tried, what is spent where it leaves.
    untried: Vec<u64>,
}

impl Search<'_> {
    /// Tries a branch to its end, with its own choice made and nothing forced yet.
    fn branch(&mut self, mut values: Values) {
        force(&mut values, self.sheet);
        let cost = values.cost(self.sheet);
        if values.falsify_one_of(self.sheet.clauses()) || self.is_too_dear(cost) {
            return;
        }
        match values.lowest_unsettled() {
            Some(variable) => {
                self.choose(&values, Literal::negative(variable));
                self.choose(&values, Literal::positive(variable));
            }
            None => {
                let plan = values.plan();
                self.best = Some(Best { plan, cost });
            }
        }
    }

    /// One unit of the budget for one choice. Once there is none left, every choice that would be due is a branch that
    /// stays untried.
    fn choose(&mut self, values: &Values, literal: Literal) {
        if self.choices == self.budget {
            self.untried.push(values.cost(self.sheet));
            return;
        }
        self.choices += 1;
        let mut chosen = values.clone();
        chosen.settle(literal);
        self.branch(chosen);
    }

    /// No plan in the branch can be cheaper than the best one.
    fn is_too_dear(&self, cost: u64) -> bool {
        match &self.best {
            Some(best) => cost >= best.cost,
            None => false,
        }
    }

    fn answer(&self) -> Found {
        let mut floor = NONE;
        for cost in &self.untried {
            floor = floor.min(*cost);
        }
        if let Some(best) = &self.best {
            floor = floor.min(best.cost);
        }
        Found {
            number: 0,
            place: 0,
            plan: self.best.as_ref().map(|best| best.plan),
            choices: self.choices,
            ended: self.untried.is_empty(),
            floor,
        }
    }
}

/// Makes literals true until no clause forces one.
fn force(values: &mut Values, sheet: &Sheet) {
    while let Some(literal) = first_forced(values, sheet) {
        values.settle(literal);
    }
}

/// The literal that the lowest-numbered clause forces, of those that force one.
fn first_forced(values: &Values, sheet: &Sheet) -> Option<Literal> {
    let mut clauses = sheet.clauses().iter();
    clauses.find_map(|clause| values.forced_by(clause))
}

/// True or false for each settled variable; variable v stands at v - 1.
#[derive(Clone)]
struct Values(Vec<Option<bool>>);

impl Values {
    fn unsettled(variable_count: u32) -> Values {
        Values(vec![None; variable_count as usize])
    }

    /// Makes the literal true.
    fn settle(&mut self, literal: Literal) {
        self.0[literal.variable() as usize - 1] = Some(literal.is_positive());
    }

    /// Whether the literal is true, once its variable is settled.
    fn of(&self, literal: Literal) -> Option<bool> {
        let value = self.0[literal.variable() as usize - 1]?;
        Some(value == literal.is_positive())
    }

    /// The literal of the clause that is unsettled, if there is just one and the rest are false.
    fn forced_by(&self, clause: &BTreeSet<Literal>) -> Option<Literal> {
        let mut unsettled = vec![];
        for literal in clause {
            match self.of(*literal) {
                Some(true) => return None,
                Some(false) => {}
                None => unsettled.push(*literal),
            }
        }
        match unsettled[..] {
            [only] => Some(only),
            _ => None,
        }
    }

    /// Every literal of some clause is false, as of one that has none.
    fn falsify_one_of(&self, clauses: &[BTreeSet<Literal>]) -> bool {
        let is_false = |literal: &Literal| self.of(*literal) == Some(false);
        clauses.iter().any(|clause| clause.iter().all(is_false))
    }

    /// The standing loss, and the costs of the variables that are true by now.
    fn cost(&self, sheet: &Sheet) -> u64 {
        // The file has 4 bytes for each of these numbers, so 65 of them stay far below 64 bits.
        let mut cost = sheet.standing_loss() as u64;
        for variable in 1..=sheet.variable_count() {
            if self.of(Literal::positive(variable)) == Some(true) {
                cost += sheet.cost(variable) as u64;
            }
        }
        cost
    }

    fn lowest_unsettled(&self) -> Option<u32> {
        let index = self.0.iter().position(|value| value.is_none())?;
        Some(index as u32 + 1)
    }

    /// The plan, once every variable is settled.
    fn plan(&self) -> u64 {
        let mut plan = 0;
        for (index, value) in self.0.iter().enumerate() {
            if *value == Some(true) {
                plan |= 1 << index;
            }
        }
        plan
    }
}
