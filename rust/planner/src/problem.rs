//! The optimization problem that a sheet holds: clauses over variables that cost something when true, and a standing loss
//! that every assignment costs.

/// The claim or bound that stands for "no assignment at all"; it is stored as it is.
pub const NONE: u64 = u64::MAX;

/// As many variables and clauses as a sheet may have.
pub const MOST_VARIABLES: usize = 1024;
pub const MOST_CLAUSES: usize = 4096;

/// A variable with a polarity, kept as its code: twice the variable's number, plus one when negative.
///
/// The order of the codes is the order of the variables, so a sorted list is a list in file order.
#[derive(Clone, Copy, Debug, PartialEq, Eq, PartialOrd, Ord, Hash)]
pub struct Literal(u16);

impl Literal {
    /// The greatest variable whose codes have 2 bytes.
    pub const LAST_VARIABLE: usize = (u16::MAX / 2) as usize;

    /// The literal that is true when `variable`, numbered from 1, has the value `value`.
    pub fn new(variable: usize, value: bool) -> Literal {
        let code = 2 * variable + usize::from(!value);
        Literal(u16::try_from(code).expect("a variable's code has 2 bytes"))
    }

    pub fn positive(variable: usize) -> Literal {
        Literal::new(variable, true)
    }

    pub fn negative(variable: usize) -> Literal {
        Literal::new(variable, false)
    }

    pub fn code(self) -> u16 {
        self.0
    }

    pub fn variable(self) -> usize {
        usize::from(self.0 / 2)
    }

    /// Where the variable stands in a list that starts with variable 1.
    pub fn index(self) -> usize {
        self.variable() - 1
    }

    pub fn is_positive(self) -> bool {
        self.0.is_multiple_of(2)
    }

    pub fn negated(self) -> Literal {
        Literal(self.0 ^ 1)
    }

    pub fn is_true(self, assignment: &[bool]) -> bool {
        assignment[self.index()] == self.is_positive()
    }
}

/// Every clause is sorted by code and holds no variable twice.
#[derive(Clone, Debug, PartialEq, Eq)]
pub struct Problem {
    /// The standing loss of a marked sheet; a sheet without a mark has none.
    pub loss: Option<u32>,
    pub costs: Vec<u32>,
    pub clauses: Vec<Vec<Literal>>,
}

impl Problem {
    pub fn variables(&self) -> usize {
        self.costs.len()
    }

    /// What every assignment costs, whatever is true in it.
    pub fn standing_loss(&self) -> u64 {
        self.loss.map_or(0, u64::from)
    }

    /// The cost of the literal's variable when that variable is true.
    pub fn cost_of(&self, literal: Literal) -> u64 {
        u64::from(self.costs[literal.index()])
    }

    pub fn satisfies(&self, assignment: &[bool]) -> bool {
        self.broken(assignment).is_none()
    }

    /// The first clause that the assignment leaves without a true literal, counted from 0.
    pub fn broken(&self, assignment: &[bool]) -> Option<usize> {
        self.clauses
            .iter()
            .position(|clause| !clause.iter().any(|literal| literal.is_true(assignment)))
    }

    /// The standing loss with what the true variables cost.
    pub fn cost(&self, assignment: &[bool]) -> u64 {
        let paid = self
            .costs
            .iter()
            .zip(assignment)
            .filter(|(_, value)| **value);
        self.standing_loss() + paid.map(|(cost, _)| u64::from(*cost)).sum::<u64>()
    }
}
