//! Writers for the two files. Nothing is judged here: wrong parts give wrong files, as damage needs.

use crate::certificate::{Reason, Step};
use crate::problem::{Literal, Problem};

/// How many bytes a pair has, a record before its assignment, and a step before its literals.
pub const PAIR: usize = 8;
pub const RECORD_HEAD: usize = 12;
pub const STEP_HEAD: usize = 12;

/// The bit of a sheet's first number that tells of a standing loss behind the costs; the rest of it counts the variables.
pub const MARK: u16 = 0x8000;

/// Where a record tells how many steps it has.
pub const STEP_COUNT: usize = 8;

/// Bodies in order, with the lengths that their pairs will tell.
#[derive(Clone, Debug, Default)]
pub struct Bodies {
    lengths: Vec<u32>,
    bytes: Vec<u8>,
}

impl Bodies {
    pub fn push(&mut self, body: &[u8]) {
        self.lengths.push(body.len() as u32);
        self.bytes.extend_from_slice(body);
    }

    pub fn count(&self) -> usize {
        self.lengths.len()
    }

    /// What the pairs and the bodies will take in a file.
    pub fn size(&self) -> usize {
        PAIR * self.lengths.len() + self.bytes.len()
    }
}

impl<B: AsRef<[u8]>> FromIterator<B> for Bodies {
    fn from_iter<I: IntoIterator<Item = B>>(bodies: I) -> Self {
        let mut all = Bodies::default();
        for body in bodies {
            all.push(body.as_ref());
        }
        all
    }
}

/// Ends either file: the pairs, whose first offset is where they end, then the bodies.
pub fn append_bodies(file: &mut Vec<u8>, bodies: &Bodies) {
    file.reserve(bodies.size());
    let mut offset = (file.len() + PAIR * bodies.count()) as u32;
    for length in &bodies.lengths {
        file.extend_from_slice(&offset.to_le_bytes());
        file.extend_from_slice(&length.to_le_bytes());
        offset = offset.wrapping_add(*length);
    }
    file.extend_from_slice(&bodies.bytes);
}

pub fn literal_bytes(literals: &[Literal]) -> Vec<u8> {
    literals
        .iter()
        .flat_map(|literal| literal.code().to_le_bytes())
        .collect()
}

/// A sheet from its standing loss, its costs and its clause bodies; it is marked where there is a loss, even one of 0.
pub fn sheet_from(loss: Option<u32>, costs: &[u32], clauses: &Bodies) -> Vec<u8> {
    let mut file = Vec::with_capacity(8 + 4 * costs.len() + clauses.size());
    let mark = loss.map_or(0, |_| MARK);
    file.extend_from_slice(&(costs.len() as u16 | mark).to_le_bytes());
    file.extend_from_slice(&(clauses.count() as u16).to_le_bytes());
    for number in costs.iter().chain(&loss) {
        file.extend_from_slice(&number.to_le_bytes());
    }
    append_bodies(&mut file, clauses);
    file
}

pub fn sheet(problem: &Problem) -> Vec<u8> {
    let clauses = problem
        .clauses
        .iter()
        .map(|clause| literal_bytes(clause))
        .collect();
    sheet_from(problem.loss, &problem.costs, &clauses)
}

/// A record from its claim, the bytes of its assignment and its step bodies.
pub fn record_from(claim: u64, assignment: &[u8], steps: &Bodies) -> Vec<u8> {
    let mut file = Vec::with_capacity(RECORD_HEAD + assignment.len() + steps.size());
    file.extend_from_slice(&claim.to_le_bytes());
    file.extend_from_slice(&(steps.count() as u32).to_le_bytes());
    file.extend_from_slice(assignment);
    append_bodies(&mut file, steps);
    file
}

/// One bit for each variable, lowest bit first, spare bits 0.
pub fn assignment_bytes(assignment: &[bool]) -> Vec<u8> {
    let byte = |values: &[bool]| {
        let bits = values.iter().enumerate();
        bits.fold(0, |byte, (place, value)| byte | u8::from(*value) << place)
    };
    assignment.chunks(8).map(byte).collect()
}

pub fn step_body(step: &Step) -> Vec<u8> {
    let tail = tail_bytes(&step.reason);
    let mut body = Vec::with_capacity(STEP_HEAD + 2 * step.literals.len() + tail.len());
    body.extend_from_slice(&[step.reason.kind(), 0]);
    body.extend_from_slice(&(step.literals.len() as u16).to_le_bytes());
    body.extend_from_slice(&step.bound.to_le_bytes());
    body.extend(literal_bytes(&step.literals));
    body.extend(tail);
    body
}

fn tail_bytes(reason: &Reason) -> Vec<u8> {
    match reason {
        Reason::Copy { clause } => clause.to_le_bytes().to_vec(),
        Reason::Cost => Vec::new(),
        Reason::Independent { clauses } => clauses
            .iter()
            .flat_map(|clause| clause.to_le_bytes())
            .collect(),
        Reason::Resolution {
            positive,
            negative,
            pivot,
        } => {
            let mut tail = positive.to_le_bytes().to_vec();
            tail.extend_from_slice(&negative.to_le_bytes());
            tail.extend_from_slice(&pivot.to_le_bytes());
            tail
        }
        Reason::Linear { divisor, weights } => {
            let mut tail = divisor.to_le_bytes().to_vec();
            for (clause, weight) in weights {
                tail.extend_from_slice(&clause.to_le_bytes());
                tail.extend_from_slice(&weight.to_le_bytes());
            }
            tail
        }
    }
}
