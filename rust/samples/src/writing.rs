//! Sheets for the writer. A sheet says which costs there are, which standing loss and which set of clauses. It may list these
//! clauses in any order and more than once, and have a mark where the loss is 0. A family has sheets that all say the same,
//! sheets that say something else by little, and damaged ones.

pub mod changes;
pub mod contents;
pub mod listings;

use crate::damage::{self, Aim, Damage};
use crate::draft::{assignment_length, code_bytes, codes, sheet_parts, Draft, Parts};
use crate::random::Random;
use changes::CHANGES;
use listings::LISTINGS;
use planner::format::sheet_from;
use planner::{Literal, Problem};
use std::collections::BTreeSet;

/// What a sheet says. Two sheets are to be written as the same bytes exactly where this is the same.
#[derive(Clone, Debug, PartialEq, Eq, PartialOrd, Ord)]
pub struct Content {
    /// 0 where there is no mark.
    pub loss: u32,
    pub costs: Vec<u32>,
    /// Each by its codes.
    pub clauses: BTreeSet<Vec<u16>>,
}

/// A sheet taken apart: what it says, in the way that it does.
#[derive(Clone, Debug, PartialEq, Eq)]
pub struct Listing {
    /// The loss of a marked sheet.
    pub loss: Option<u32>,
    pub costs: Vec<u32>,
    pub clauses: Vec<Vec<u16>>,
}

#[derive(Clone, Debug, PartialEq, Eq)]
pub struct Case {
    pub sheet: Vec<u8>,
    /// How it was made.
    pub what: &'static str,
}

/// Sheets that come of one content.
#[derive(Clone, Debug, PartialEq, Eq)]
pub struct Family {
    pub content: Content,
    /// All of them say it.
    pub same: Vec<Case>,
    /// Each says something else, and listed in any way.
    pub others: Vec<Case>,
    /// Nearly all of them are refused: by what their names begin with, where that is a number, and else by one or none.
    pub damaged: Vec<Case>,
}

impl Content {
    pub fn of(problem: &Problem) -> Content {
        let clause = |clause: &Vec<Literal>| clause.iter().map(|literal| literal.code()).collect();
        Content {
            loss: problem.loss.unwrap_or(0),
            costs: problem.costs.clone(),
            clauses: problem.clauses.iter().map(clause).collect(),
        }
    }

    pub fn variables(&self) -> usize {
        self.costs.len()
    }

    /// The clauses sorted by their codes, a list before the longer ones that begin with it.
    pub fn sorted(&self) -> Vec<Vec<u16>> {
        self.clauses.iter().cloned().collect()
    }

    /// The sheet that lists these clauses, with a mark where it needs one.
    pub fn listed(&self, clauses: Vec<Vec<u16>>) -> Listing {
        Listing {
            loss: Some(self.loss).filter(|loss| *loss > 0),
            costs: self.costs.clone(),
            clauses,
        }
    }
}

impl Listing {
    /// Takes a sheet apart, by its counts and pairs; nothing where these reach past its end.
    pub fn read(sheet: &[u8]) -> Option<Listing> {
        let Parts {
            loss,
            costs,
            clauses,
        } = sheet_parts(sheet)?;
        let clauses = clauses.iter().map(|body| codes(body)).collect();
        Some(Listing {
            loss,
            costs,
            clauses,
        })
    }

    /// The same with a mark, which it may have though it needs none.
    pub fn marked(self) -> Listing {
        let loss = self.loss.or(Some(0));
        Listing { loss, ..self }
    }

    pub fn content(&self) -> Content {
        Content {
            loss: self.loss.unwrap_or(0),
            costs: self.costs.clone(),
            clauses: self.clauses.iter().cloned().collect(),
        }
    }

    fn bodies(&self) -> impl Iterator<Item = Vec<u8>> + '_ {
        self.clauses.iter().map(|clause| code_bytes(clause))
    }

    pub fn sheet(&self) -> Vec<u8> {
        sheet_from(self.loss, &self.costs, &self.bodies().collect())
    }

    /// The problem of a sheet in form.
    pub fn problem(&self) -> Problem {
        let literal = |code: &u16| Literal::new(usize::from(code / 2), code.is_multiple_of(2));
        let clause = |clause: &Vec<u16>| clause.iter().map(literal).collect();
        Problem {
            loss: self.loss,
            costs: self.costs.clone(),
            clauses: self.clauses.iter().map(clause).collect(),
        }
    }

    /// The sheet with a record of nothing, so that what damages files can damage it.
    fn draft(&self) -> Draft {
        Draft {
            loss: self.loss,
            costs: self.costs.clone(),
            clauses: self.bodies().collect(),
            claim: 0,
            assignment: vec![0; assignment_length(self.costs.len())],
            steps: Vec::new(),
        }
    }
}

/// An endless stream of families. The same seed always gives the same ones.
pub fn families(seed: u64) -> impl Iterator<Item = Family> {
    let mut random = Random::new(seed);
    std::iter::repeat_with(move || {
        let content = contents::some(&mut random);
        family(content, &mut random)
    })
}

fn family(content: Content, random: &mut Random) -> Family {
    Family {
        same: same(&content, random),
        others: others(&content, random),
        damaged: damaged(&content, random),
        content,
    }
}

fn case(listing: &Listing, what: &'static str) -> Case {
    let sheet = listing.sheet();
    Case { sheet, what }
}

/// The content listed in every way, and where its loss is 0, sorted with and without a mark. To fill a sheet up takes it to
/// thousands of clauses, which is done now and then.
fn same(content: &Content, random: &mut Random) -> Vec<Case> {
    let sorted = content.sorted();
    let every = LISTINGS.iter().map(|(what, list)| {
        let listed = content.listed(list(&sorted, random));
        case(&perhaps_marked(listed, random), what)
    });
    let mut same: Vec<Case> = every.collect();
    if content.loss == 0 {
        let listed = content.listed(sorted.clone());
        same.push(case(&listed, "without a mark"));
        same.push(case(&listed.marked(), "marked with a loss of 0"));
    }
    if content.variables() <= 40 && random.percent(2) {
        let listed = content.listed(listings::filled_up(&sorted, random));
        same.push(case(&listed, "filled up"));
    }
    same
}

/// A mark that is not needed comes now and then.
fn perhaps_marked(listing: Listing, random: &mut Random) -> Listing {
    match random.percent(30) {
        true => listing.marked(),
        false => listing,
    }
}

/// The content in one of the ways.
fn somehow(content: &Content, random: &mut Random) -> Listing {
    let (_, list) = LISTINGS[random.below(LISTINGS.len())];
    let listed = content.listed(list(&content.sorted(), random));
    perhaps_marked(listed, random)
}

fn others(content: &Content, random: &mut Random) -> Vec<Case> {
    let mut others = Vec::new();
    for (what, change) in CHANGES {
        let mut other = content.clone();
        if change(&mut other, random).is_some() {
            others.push(case(&somehow(&other, random), what));
        }
    }
    others
}

/// A fault for each of the refusals that look at the bytes of a sheet, two of them at once, and one made without looking.
pub(crate) fn damaged(content: &Content, random: &mut Random) -> Vec<Case> {
    let draft = somehow(content, random).draft();
    let any @ [two, three, four] = [2, 3, 4].map(|number| aimed_at(number, random));
    let pair = [any[random.below(3)], any[random.below(3)]];
    let all: [(&[Damage], &str); 5] = [
        (&[two], two.aimed),
        (&[three], three.aimed),
        (&[four], four.aimed),
        (&pair, "two faults"),
        (&[damage::blind(random)], "blind"),
    ];
    let made = all.into_iter().filter_map(|(faults, what)| {
        let sheet = damage::apply(faults, &draft, random)?.sheet;
        Some(Case { sheet, what })
    });
    made.collect()
}

/// One of the faults that are aimed at a refusal, each as likely as the other.
fn aimed_at(number: u32, random: &mut Random) -> Damage {
    let faults: Vec<&Damage> = damage::all_aimed()
        .filter(|fault| fault.aim() == Some(Aim::Refused(number)))
        .collect();
    **random.pick(&faults).expect("a fault for each of them")
}
