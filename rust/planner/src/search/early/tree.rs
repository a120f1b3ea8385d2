//! A tree of decisions that grows where its bound is least. Each leaf is ended by one step, and each split takes one step
//! more, to resolve its two sides: so many splits, twice as many steps and one at most.

use super::super::Bounds;
use super::branch::{shortened, Branches, End};
use crate::certificate::{Certificate, Reason, Step};
use crate::problem::{Literal, Problem, NONE};
use std::cmp::Reverse;
use std::collections::BinaryHeap;

/// How often a tree may be split for each step of the record: where few of a tree's steps are needed, it goes on growing.
const SPLITS: u64 = 2;

struct Leaf {
    /// The literals that are true here, oldest first.
    decided: Vec<Literal>,
    /// A step whose literals are all false here.
    end: Step,
    /// The variable to split on, where there is more to find out.
    split: Option<usize>,
}

enum Node {
    Leaf(Leaf),
    /// `sides` is the node where the variable is false; the next one is where it is true.
    Split {
        variable: usize,
        sides: usize,
    },
}

pub struct Tree<'a> {
    problem: &'a Problem,
    branches: Branches<'a>,
    /// The root comes first.
    nodes: Vec<Node>,
    /// The leaves by their bounds, the least on top, and of equals the oldest.
    leaves: BinaryHeap<Reverse<(u64, usize)>>,
    splits: u64,
    /// The cheapest assignment that a leaf has come to.
    model: Option<(u64, Vec<bool>)>,
}

impl<'a> Tree<'a> {
    pub fn new(problem: &'a Problem, bounds: Bounds, guide: u64) -> Self {
        let mut tree = Tree {
            problem,
            branches: Branches::new(problem, bounds, guide),
            nodes: Vec::new(),
            leaves: BinaryHeap::new(),
            splits: 0,
            model: None,
        };
        tree.add(Vec::new(), None);
        tree
    }

    /// The best derivation of so many steps at most, and of one at least; it is good enough once it reaches what the found
    /// assignment costs. It is looked for after certain numbers of splits, the same however many steps there may be.
    pub fn derivation_in(&mut self, most: u64, found: u64) -> Vec<Step> {
        let mut best = self.derivation();
        let limit = most.saturating_mul(SPLITS);
        let mut grows = true;
        while grows && last_bound(&best) < found.min(self.least_found()) {
            let splits = self.splits + (self.splits / 8).max(1);
            grows = splits <= limit && self.grow_to(splits);
            let steps = self.derivation();
            if steps.len() as u64 > most {
                break;
            }
            if last_bound(&steps) > last_bound(&best) {
                best = steps;
            }
        }
        best
    }

    /// What the cheapest assignment costs that a leaf has come to.
    fn least_found(&self) -> u64 {
        self.model.as_ref().map_or(NONE, |(cost, _)| *cost)
    }

    /// An assignment from the tree, where it has one that is cheaper than this.
    pub fn cheaper_than(self, found: (u64, Vec<bool>)) -> (u64, Vec<bool>) {
        match self.model {
            Some(model) if model.0 < found.0 => model,
            _ => found,
        }
    }

    /// False where the tree has come to its end: nothing is left that could raise the least bound.
    fn grow_to(&mut self, splits: u64) -> bool {
        while self.splits < splits {
            let (_, least) = self.least_leaf();
            let Node::Leaf(Leaf { split, .. }) = &self.nodes[least] else {
                unreachable!("a node that is split is no leaf any more");
            };
            let Some(variable) = *split else {
                return false;
            };
            self.leaves.pop();
            self.split(least, variable);
        }
        true
    }

    fn least_leaf(&self) -> (u64, usize) {
        let Reverse(least) = self.leaves.peek().expect("a tree has a leaf");
        *least
    }

    fn split(&mut self, number: usize, variable: usize) {
        self.splits += 1;
        let sides = self.nodes.len();
        let split = Node::Split { variable, sides };
        if let Node::Leaf(leaf) = std::mem::replace(&mut self.nodes[number], split) {
            for value in [false, true] {
                let mut decided = leaf.decided.clone();
                decided.push(Literal::new(variable, value));
                self.add(decided, Some(&leaf.end));
            }
        }
    }

    /// Adds a leaf. What ended the branch before it was split would end this one too, and does so where it says more.
    fn add(&mut self, decided: Vec<Literal>, before: Option<&Step>) {
        let End { step, split, model } = self.branches.end(&decided);
        let end = match before {
            Some(before) if before.bound > step.bound => before.clone(),
            _ => step,
        };
        if let Some(model) = model {
            let cost = self.problem.cost(&model);
            if cost < self.least_found() {
                self.model = Some((cost, model));
            }
        }
        self.leaves.push(Reverse((end.bound, self.nodes.len())));
        self.nodes.push(Node::Leaf(Leaf {
            decided,
            end,
            split,
        }));
    }

    /// The steps of the tree as it is, the last one without literals.
    fn derivation(&self) -> Vec<Step> {
        let mut written = Written {
            tree: self,
            target: self.least_leaf().0,
            certificate: Certificate::new(self.problem),
            copies: vec![None; self.problem.clauses.len()],
        };
        let last = written.node(0);
        written.certificate.needed_by(last)
    }
}

fn last_bound(steps: &[Step]) -> u64 {
    steps.last().expect("a derivation has a step").bound
}

/// A tree on its way into a certificate.
struct Written<'a> {
    tree: &'a Tree<'a>,
    /// The bound that every step has to have, or a greater one.
    target: u64,
    certificate: Certificate<'a>,
    /// The step that copies each clause, once one does.
    copies: Vec<Option<u32>>,
}

impl Written<'_> {
    /// A step whose literals are all false at this node.
    fn node(&mut self, number: usize) -> u32 {
        let (variable, sides) = match &self.tree.nodes[number] {
            Node::Leaf(leaf) => return self.leaf(leaf),
            Node::Split { variable, sides } => (*variable, *sides),
        };
        let mut pair = [0; 2];
        for place in [0, 1] {
            pair[place] = self.node(sides + place);
            let pivot = Literal::new(variable, place == 0);
            let held = &self.certificate.step(pair[place]).literals;
            // A side that does without the pivot does for both.
            if held.binary_search(&pivot).is_err() {
                return pair[place];
            }
        }
        let both = self.certificate.resolve(pair[0], pair[1], variable);
        both.expect("literals that are all false in one branch never clash")
    }

    fn leaf(&mut self, leaf: &Leaf) -> u32 {
        let certificate = &mut self.certificate;
        if let Reason::Copy { clause } = leaf.end.reason {
            let copy = &mut self.copies[clause as usize - 1];
            return *copy.get_or_insert_with(|| certificate.copy(clause));
        }
        let short = shortened(self.tree.problem, &leaf.end, &leaf.decided, self.target);
        certificate.push(short)
    }
}

#[cfg(test)]
mod tests;
