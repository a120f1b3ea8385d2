//! Kind 4, in two ways. Each tells whether a step holds what is left of its premises; which refusal applies where it does not
//! is looked for afterwards, since a fault ends the judgement.

use crate::read::{code, each, Codes, CODES};

/// A way to tell a resolution. All lists rise strictly, in variables from 1 to 1,024.
pub trait Resolve {
    /// What is kept from step to step.
    fn new() -> Self;

    /// a holds "p true", b holds "p false", and d holds the rest of both. It may hold more, the pivot's own literals too.
    fn resolves(&mut self, a: Codes, b: Codes, pivot: usize, d: Codes) -> bool;
}

/// Goes through d beside a and b. There is no branch for a literal: whether it is of a, of b, of both or of none cannot be
/// guessed. So each has to wait for the one before it; and what is before the pivot and what is after it are gone through from
/// the two ends, since these do not wait for each other.
pub struct Merge;

/// How many literals d holds of the start of a, and of b.
fn from_start(d: Codes, a: Codes, b: Codes) -> (usize, usize) {
    let (mut i, mut j) = (0, 0);
    for literal in d {
        i += usize::from(a.get(i) == Some(literal));
        j += usize::from(b.get(j) == Some(literal));
    }
    (i, j)
}

/// Where the literals begin, at the end of a and of b, that d holds.
fn from_end(d: Codes, a: Codes, b: Codes) -> (usize, usize) {
    let (mut i, mut j) = (a.len(), b.len());
    for literal in d.iter().rev() {
        i -= usize::from(a[..i].last() == Some(literal));
        j -= usize::from(b[..j].last() == Some(literal));
    }
    (i, j)
}

impl Resolve for Merge {
    fn new() -> Self {
        Merge
    }

    fn resolves(&mut self, a: Codes, b: Codes, pivot: usize, d: Codes) -> bool {
        let (up, down) = (2 * pivot, 2 * pivot + 1);
        let (before, rest) = d.split_at(d.partition_point(|&stored| code(stored) < up));
        // A literal of the pivot that d holds stands for none of a and b.
        let after = match rest {
            [stored, after @ ..] if code(*stored) <= down => after,
            _ => rest,
        };
        let (i, j) = from_start(before, a, b);
        let (k, l) = from_end(after, a, b);
        // What d does not hold has to be the pivot alone.
        let is_left = |list: Codes, wanted| matches!(list, &[stored] if code(stored) == wanted);
        is_left(&a[i..k], up) && is_left(&b[j..l], down)
    }
}

/// Marks the codes of d, then looks up those of a and b. There is no early exit and no branch at the pivot: a fault ends it
/// all, and where the pivot stands cannot be guessed. A second look at a code changes nothing.
///
/// A step's mark is its number among the resolutions, which is above those before it, so that none of these has all its
/// ones. So the ones that all marks of a premise have are this step's number where d holds all of its literals, and else are
/// not. Two bits more are set in every mark; those of the pivot's two literals lack one each, and so the same ones tell
/// whether it is there.
pub struct Marks {
    marks: [u32; CODES],
    /// How many resolutions there were. A record of k steps has 8 k bytes at least, so that it is below 2^29.
    last: u32,
}

/// The bits that the marks of "p true" and of "p false" lack.
const UP: u32 = 1 << 30;
const DOWN: u32 = 1 << 31;

impl Marks {
    /// The ones that the marks of all literals have.
    #[inline(always)]
    fn common(&self, list: Codes) -> u32 {
        let mut common = !0;
        each(list, |code| common &= self.marks[code % CODES]);
        common
    }
}

impl Resolve for Marks {
    fn new() -> Self {
        Marks {
            marks: [0; CODES],
            last: 0,
        }
    }

    fn resolves(&mut self, a: Codes, b: Codes, pivot: usize, d: Codes) -> bool {
        let (up, down) = (2 * pivot, 2 * pivot + 1);
        // No list holds another pivot, and its mark would be another literal's.
        if !(2..CODES + 2).contains(&up) {
            return false;
        }
        self.last += 1;
        let mark = self.last | UP | DOWN;
        each(d, |code| self.marks[code % CODES] = mark);
        // After those of d, which may hold the pivot too.
        self.marks[up % CODES] = mark ^ UP;
        self.marks[down % CODES] = mark ^ DOWN;
        self.common(a) == mark ^ UP && self.common(b) == mark ^ DOWN
    }
}

/// The pivot stands where it has to; asked only after a fault.
pub(crate) fn has_pivot(a: Codes, b: Codes, pivot: usize) -> bool {
    let holds = |list: Codes, wanted| list.iter().any(|&stored| code(stored) == wanted);
    holds(a, 2 * pivot) && holds(b, 2 * pivot + 1)
}
