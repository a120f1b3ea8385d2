//! Stored numbers, pairs and literal lists.

/// A refusal with its place.
#[derive(Clone, Copy, Debug, PartialEq, Eq)]
pub(crate) struct Fault {
    pub number: u64,
    pub place: u64,
}

pub(crate) fn fault<T>(number: u64, place: usize) -> Result<T, Fault> {
    let place = place as u64;
    Err(Fault { number, place })
}

/// A stored list of codes, or of pairs.
pub(crate) type Codes<'a> = &'a [[u8; 2]];
pub(crate) type Pairs<'a> = &'a [[u8; 8]];

/// As many codes as there can be, 2 to 2,049. What is kept for each stands at the code modulo this, which spares the test of an
/// index.
pub(crate) const CODES: usize = 2048;

pub(crate) fn code(stored: [u8; 2]) -> usize {
    usize::from(u16::from_le_bytes(stored))
}

pub(crate) fn number(stored: [u8; 4]) -> usize {
    u32::from_le_bytes(stored) as usize
}

/// The offset and the length of a pair.
pub(crate) fn pair(stored: [u8; 8]) -> (usize, usize) {
    let [a, b, c, d, e, f, g, h] = stored;
    (number([a, b, c, d]), number([e, f, g, h]))
}

pub(crate) fn codes(bytes: &[u8]) -> Codes<'_> {
    bytes.as_chunks().0
}

/// How many codes are compared at once: the compiler makes one instruction of it.
const LANES: usize = 8;

/// The first N codes of a list, the last N, and N between them: all of it where it has N to 3 N. Some come more than once.
fn thirds<const N: usize>(list: Codes<'_>) -> Option<[&[[u8; 2]; N]; 3]> {
    let (first, rest) = list.split_first_chunk()?;
    let between = list.get(N.min(rest.len())..)?.first_chunk()?;
    Some([first, between, list.last_chunk()?])
}

/// Looks at every code of a list, at some of them more than once. Where a loop over a short list ends cannot be guessed: so up
/// to 24 codes there is none, and lists of many lengths take the same way. All of it is put into the caller, which then keeps
/// in a register what the looks gather.
#[inline(always)]
pub(crate) fn each(list: Codes, look: impl FnMut(usize)) {
    match list.len() {
        0 => {}
        1..=3 => each_of_thirds::<1>(list, look),
        4..=12 => each_of_thirds::<4>(list, look),
        13..=24 => each_of_thirds::<8>(list, look),
        _ => each_of_eights(list, look),
    }
}

#[inline(always)]
fn each_of_thirds<const N: usize>(list: Codes, mut look: impl FnMut(usize)) {
    let mut all = |codes: &[[u8; 2]; N]| codes.iter().for_each(|&stored| look(code(stored)));
    if let Some([first, between, last]) = thirds(list) {
        all(first);
        all(between);
        all(last);
    }
}

/// Looks at eight codes at once, and at the end at the last eight, whether looked at or not.
#[inline(always)]
fn each_of_eights(list: Codes, mut look: impl FnMut(usize)) {
    let mut all = |codes: &[[u8; 2]; 8]| codes.iter().for_each(|&stored| look(code(stored)));
    for eight in list[..list.len() - 1].as_chunks().0 {
        all(eight);
    }
    if let Some(last) = list.last_chunk() {
        all(last);
    }
}

/// The variables rise strictly from 1 to n at most.
pub(crate) fn rises(list: Codes, n: usize) -> bool {
    let ([first, next @ ..], [before @ .., last]) = (list, list) else {
        return true;
    };
    let mut wrong = [0; LANES];
    if let (Some(a), Some(b)) = (before.last_chunk(), next.last_chunk()) {
        compare(&mut wrong, a, b);
        for (a, b) in before.as_chunks().0.iter().zip(next.as_chunks().0) {
            compare(&mut wrong, a, b);
        }
    } else {
        for (a, b) in before.iter().zip(next) {
            wrong[0] |= falls(*a, *b);
        }
    }
    wrong == [0; LANES] && code(*first) > 1 && code(*last) <= 2 * n + 1
}

fn compare(wrong: &mut [u16; LANES], before: &[[u8; 2]; LANES], next: &[[u8; 2]; LANES]) {
    for lane in 0..LANES {
        wrong[lane] |= falls(before[lane], next[lane]);
    }
}

/// Not 0 where the next code is not of a greater variable: it has to be above the greater code of this one.
fn falls(before: [u8; 2], next: [u8; 2]) -> u16 {
    let rises = u16::from_le_bytes(next) > u16::from_le_bytes(before) | 1;
    u16::from(!rises)
}
