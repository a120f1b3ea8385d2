//! Several faults of cited clauses at once, and such a fault beside a wrong bound: which of them is told. The clauses are made
//! for it, put at the end of the sheet, and cited by a step that was good.

use super::independence::{cite_new, right_bound, unsettled};
use super::statements::bound_off_by_one;
use super::{damage, places, Damage, Way};
use crate::draft::{Body, Draft};
use crate::random::Random;
use planner::NONE;
use Part::{Negative, Positive, Shared, SharedNegative, True};

/// What a literal of a clause is to the step that cites it.
#[derive(Clone, Copy)]
pub enum Part {
    /// Made true by the settling.
    True,
    /// Unsettled, of a variable that no cited clause has.
    Positive,
    Negative,
    /// Unsettled, of a variable that a clause cited before has, which was good.
    Shared,
    SharedNegative,
}

/// Clauses to be cited, each by its parts. A false literal may join them.
pub type Clauses = &'static [&'static [Part]];

/// The bound of a step that cites them: what all its clauses add up to, so that nothing but them is at fault, or another.
#[derive(Clone, Copy)]
pub enum Bound {
    Right,
    Wrong,
}

const fn order(aimed: &'static str, clauses: Clauses) -> Damage {
    damage(aimed, Way::Cite(clauses, Bound::Right))
}

const fn bound_too(aimed: &'static str, clauses: Clauses) -> Damage {
    damage(aimed, Way::Cite(clauses, Bound::Wrong))
}

/// Clauses with one fault each.
const TRUE: &[Part] = &[True, Positive];
const NEGATIVE: &[Part] = &[Negative];
const SETTLED: &[Part] = &[];
const SHARED: &[Part] = &[Shared];

pub const ORDER: &[Damage] = &[
    // In one clause. Where nothing is unsettled, nothing unsettled is negative or shared.
    order("14 true and negative", &[&[True, Negative]]),
    order("14 true and nothing unsettled", &[&[True]]),
    order("14 true and shared", &[&[True, Shared]]),
    order("14 true, negative and shared", &[&[True, SharedNegative]]),
    order("20 negative and shared", &[&[Negative, Shared]]),
    order("20 negative of a shared variable", &[&[SharedNegative]]),
    // In two clauses. The first decides, though the fault of the second would come first in one clause.
    order("20 negative before true", &[NEGATIVE, TRUE]),
    order("21 all settled before true", &[SETTLED, TRUE]),
    order("21 all settled before negative", &[SETTLED, NEGATIVE]),
    order("22 shared before true", &[SHARED, TRUE]),
    order("22 shared before negative", &[SHARED, NEGATIVE]),
    order("22 shared before all settled", &[SHARED, SETTLED]),
    // Between two clauses that share a variable. The later of them has that fault, so it is not told yet.
    order("14 true before shared", &[TRUE, SHARED]),
    order("20 negative before shared", &[NEGATIVE, SHARED]),
    order("21 all settled before shared", &[SETTLED, SHARED]),
    bound_too("14 true and wrong bound", &[TRUE]),
    bound_too("20 negative and wrong bound", &[NEGATIVE]),
    bound_too("21 all settled and wrong bound", &[SETTLED]),
    bound_too("22 shared and wrong bound", &[SHARED]),
];

/// Has a step of kind 3 cite the clauses.
pub fn cite(clauses: Clauses, bound: Bound, draft: &mut Draft, random: &mut Random) -> Option<()> {
    let mut tried = places(3, draft, random).into_iter();
    let (place, mut body, made) = tried.find_map(|place| {
        let mut citing = Citing::new(draft, place)?;
        for parts in clauses {
            citing.make(parts, random)?;
        }
        Some((place, citing.body, citing.made))
    })?;
    for clause in made {
        cite_new(draft, &mut body, &clause);
    }
    body.bound = right_bound(draft, &body)?;
    if let Bound::Wrong = bound {
        bound_off_by_one(draft, place as u32 + 1, &mut body, random)?;
    }
    draft.steps[place] = body.bytes();
    Some(())
}

/// A step with the clauses that it cites and those made for it.
struct Citing<'a> {
    draft: &'a Draft,
    body: Body,
    cited: Vec<Vec<u16>>,
    made: Vec<Vec<u16>>,
}

impl<'a> Citing<'a> {
    fn new(draft: &'a Draft, place: usize) -> Option<Self> {
        let body = Body::read(&draft.steps[place])?;
        let numbers = body.cited().into_iter();
        let cited: Option<_> = numbers.map(|number| draft.clause(number)).collect();
        Some(Citing {
            draft,
            body,
            cited: cited?,
            made: Vec::new(),
        })
    }

    /// Makes a clause. A false literal joins it now and then, and where the assignment would not satisfy it otherwise.
    fn make(&mut self, parts: &[Part], random: &mut Random) -> Option<()> {
        let draft = self.draft;
        let fits = |clause: &[u16]| draft.claim == NONE || draft.satisfies(clause);
        let mut clause = Vec::new();
        for part in parts {
            clause.push(self.literal(*part, &clause, random)?);
        }
        if random.percent(50) || !fits(&clause) {
            clause.extend(self.falsified(&clause, |code| draft.is_true(code), random));
        }
        clause.sort_unstable();
        let fits = fits(&clause);
        self.made.push(clause);
        fits.then_some(())
    }

    fn literal(&mut self, part: Part, clause: &[u16], random: &mut Random) -> Option<u16> {
        match part {
            True => Some(self.falsified(clause, |_| true, random)? ^ 1),
            Positive => Some(2 * self.free(clause, random)?),
            Negative => Some(2 * self.free(clause, random)? + 1),
            Shared => Some(2 * self.used(clause, random)?),
            SharedNegative => Some(2 * self.used(clause, random)? + 1),
        }
    }

    /// A literal of the step that is wanted, of a variable that the clause does not have. Where there is none, a free variable
    /// is settled.
    fn falsified(
        &mut self,
        clause: &[u16],
        wanted: impl Fn(u16) -> bool,
        random: &mut Random,
    ) -> Option<u16> {
        let is_new = |code: u16| clause.iter().all(|held| held / 2 != code / 2);
        let mut found = self.body.literals.clone();
        found.retain(|code| is_new(*code) && wanted(*code));
        if let Some(code) = random.pick(&found) {
            return Some(*code);
        }
        let any = 2 * self.free(clause, random)? + random.below(2) as u16;
        let code = if wanted(any) { any } else { any ^ 1 };
        self.body.add(code);
        Some(code)
    }

    /// A variable that neither the step nor any of the clauses has.
    fn free(&self, clause: &[u16], random: &mut Random) -> Option<u16> {
        let clauses = self.cited.iter().chain(&self.made).flatten();
        let codes = clauses.chain(clause).chain(&self.body.literals);
        let taken: Vec<u16> = codes.map(|code| code / 2).collect();
        let mut free: Vec<u16> = (1..=self.draft.variables() as u16).collect();
        free.retain(|variable| !taken.contains(variable));
        random.pick(&free).copied()
    }

    /// An unsettled variable of the clauses cited before, which this clause does not have.
    fn used(&self, clause: &[u16], random: &mut Random) -> Option<u16> {
        let cited = self.cited.iter();
        let codes = cited.flat_map(|cited| unsettled(&self.body, cited));
        let mut used: Vec<u16> = codes.map(|code| code / 2).collect();
        used.retain(|variable| clause.iter().all(|held| held / 2 != *variable));
        random.pick(&used).copied()
    }
}
