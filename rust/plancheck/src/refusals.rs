//! The answers in plain words. The numbers and their meaning are those of docs/FORMATS.md.

use planner::{MOST_CLAUSES, MOST_VARIABLES};
use proved::{Answer, Verdict};

/// What a mend leaves to do.
pub const ANEW: &str = "after a mend, work out anew the steps that rest on this one";

/// As many variables as the search takes.
pub const MOST_SEARCHED: usize = 64;

/// What kind of thing a refusal's place is.
#[derive(Clone, Copy, Debug, PartialEq, Eq)]
pub enum Place {
    File,
    Clause,
    Step,
    Turn,
}

pub fn place_of(number: u64) -> Place {
    match number {
        3 | 4 | 10 => Place::Clause,
        7..=9 | 12..=24 => Place::Step,
        30 => Place::Turn,
        _ => Place::File,
    }
}

/// One sentence for the answer. In a marked sheet a loss stands behind the costs, and it counts in bounds.
pub fn sentence(answer: &Answer, marked: bool) -> String {
    let (place, cost) = (answer.place, answer.cost);
    match (answer.verdict(), answer.number) {
        (Verdict::NoneExists, _) => "Accepted: no assignment satisfies every clause.".to_string(),
        (Verdict::Least, _) => format!(
            "Accepted: the record's assignment satisfies every clause and costs {cost}, and no assignment that satisfies every clause costs less."
        ),
        (Verdict::Within, _) => within(cost, answer.gap),
        (Verdict::Refused, 1..=7) => about_layout(answer.number, place, marked),
        (Verdict::Refused, 8..=11) => about_claim(answer.number, place),
        (Verdict::Refused, 12..=24) => about_step(answer.number, place, marked),
        (Verdict::Refused, 25) => "Short buffer: the sheet, written in the one way, is longer than the buffer.".to_string(),
        (Verdict::Refused, 26) => format!("Many paddles: the sheet has more variables than the {MOST_SEARCHED} that the search takes."),
        (Verdict::Refused, 27) => "Few marks: the mark buffer has fewer bytes than the record has steps.".to_string(),
        (Verdict::Refused, 28) => "Short output: the record, trimmed, is longer than the output.".to_string(),
        (Verdict::Refused, 29) => "Short buffer: the assignment, the index or the counts have fewer bytes than the sheet takes.".to_string(),
        (Verdict::Refused, 30) => format!("Wrong turn: turn {place} of the list is of no variable that the sheet has."),
        (Verdict::Refused, number) => format!("{number} is not the number of a refusal."),
    }
}

/// What is known, and what is not.
fn within(cost: u64, gap: u64) -> String {
    let least = cost - gap;
    format!("Within {gap}, neither accepted nor refused: the record's assignment satisfies every clause and costs {cost}, and the least cost lies between {least} and {cost}. The record does not show that {cost} is the least.")
}

fn about_layout(number: u64, place: u64, marked: bool) -> String {
    let (parts, last) = match marked {
        true => ("costs, loss and pairs", "loss"),
        false => ("costs and pairs", "costs"),
    };
    match number {
        1 => format!("Oversize: one of the files is longer than {} bytes.", u32::MAX),
        2 => format!("Sheet head: the sheet does not begin with 1 to {MOST_VARIABLES} variables and 0 to {MOST_CLAUSES} clauses, or it ends before their {parts} do."),
        3 if place == 0 => format!("Sheet pairs: the sheet has no clauses, but goes on after the {last}."),
        3 => format!("Sheet pairs: the pair of clause {place} does not fit: bodies stand one behind the other, from the end of the table to the end of the file."),
        4 => format!("Rule form: clause {place} is no list of literals: each takes two bytes, of variables that the sheet has, rising."),
        5 => "Record head: the record ends before its assignment and its pairs do, or it has no steps.".to_string(),
        6 => "Stray bit: the assignment has a bit set that belongs to no variable, or any bit at all under the claim none.".to_string(),
        _ => format!("Record pairs: the pair of step {place} does not fit: bodies stand one behind the other, from the end of the table to the end of the file."),
    }
}

fn about_claim(number: u64, place: u64) -> String {
    match number {
        8 => format!("Step form: the bytes of step {place} are no step: its kind, its zero byte, its literals or its length are wrong."),
        9 => format!("Citation: step {place} cites a clause that the sheet does not have, clauses that do not rise, or a step that is not earlier."),
        10 => format!("Broken rule: the assignment makes no literal of clause {place} true."),
        _ => "Claimed cost: the claim is not what the assignment costs.".to_string(),
    }
}

fn about_step(number: u64, place: u64, marked: bool) -> String {
    let loss = if marked { "the loss plus " } else { "" };
    match number {
        12 => format!("Copy: step {place} says that it copies a clause, but has other literals than the clause, or a bound that is not none."),
        13 => format!("Cost bound: the bound of step {place} is not {loss}the sum of the costs of its negative literals' variables."),
        14 => format!("Dependence: step {place} cites a clause that has a true literal once the step's literals are made false, so that it adds no cost."),
        20 => format!("Unsettled shut: step {place} cites a clause with a negative literal of an unsettled variable, which can be made true at no cost."),
        21 => format!("All settled: step {place} cites a clause that has no unsettled variable, so that there is no least cost to add."),
        22 => format!("Shared paddle: step {place} cites a clause with an unsettled variable that a clause cited before it has too, so that one cost can do for both."),
        15 => format!("Independent bound: the bound of step {place} is not {loss}the settled costs plus the least cost of each cited clause."),
        16 => format!("Pivot: the first step that step {place} cites lacks the pivot as a positive literal, or the second lacks it as a negative one."),
        17 => format!("Resolvent: step {place} lacks a literal that one of the two cited steps has beside the pivot."),
        18 => format!("Lesser bound: the bound of step {place} is above the lesser of the two bounds that it cites."),
        23 => format!("Weights: step {place} divides by 0, or gives a clause the weight 0, where 1 is the least."),
        24 => format!("Linear bound: the bound of step {place} is not {loss}the least number that gives its total or more when it is multiplied by its divisor."),
        _ => format!("Close: step {place} is the last and still has literals, or the claim is none and its bound is not none."),
    }
}
