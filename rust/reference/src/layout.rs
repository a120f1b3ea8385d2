//! What both files have in common: stored numbers, and pairs that name bodies.

/// The unsigned number stored in `bytes` (at most 8 of them), lowest byte first.
pub(crate) fn number(bytes: &[u8]) -> u64 {
    let mut value = 0;
    for byte in bytes.iter().rev() {
        value = (value << 8) | u64::from(*byte);
    }
    value
}

/// Puts a number at the end of `file`, in its lowest `size` bytes, lowest byte first. The caller knows that it fits.
pub(crate) fn append_number(file: &mut Vec<u8>, value: u128, size: usize) {
    file.extend(&value.to_le_bytes()[..size]);
}

/// The length of a file or of a part of one, as a wide number.
pub(crate) fn length(bytes: &[u8]) -> u128 {
    bytes.len() as u128
}

/// How many bytes a pair takes.
const PAIR_SIZE: usize = 8;

/// Where `count` pairs that start at `pairs_start` end, as a wide number.
pub(crate) fn pairs_end(pairs_start: usize, count: u64) -> u128 {
    pairs_start as u128 + PAIR_SIZE as u128 * u128::from(count)
}

/// One entry of a pair list: where a body starts, counted from the file's first byte, and how long it is.
struct Pair {
    offset: u128,
    length: u128,
}

impl Pair {
    /// The first byte after the body. Wide, so that it neither wraps nor is cut at 32 bits.
    fn end(&self) -> u128 {
        self.offset + self.length
    }
}

/// The bodies that a list of pairs names, once the pairs are in order.
pub(crate) struct Bodies<'a> {
    file: &'a [u8],
    pairs_start: usize,
    count: u64,
}

impl<'a> Bodies<'a> {
    pub fn count(&self) -> u64 {
        self.count
    }

    /// The body of a number from 1 to the count, as a part of the file. The bodies follow one another up to the
    /// file's end, so each of them lies inside the file.
    pub fn body(&self, number: u64) -> &'a [u8] {
        let pair = self.pair(number);
        &self.file[pair.offset as usize..pair.end() as usize]
    }

    fn pair(&self, pair_number: u64) -> Pair {
        let stored = &self.file[self.pairs_start + PAIR_SIZE * (pair_number as usize - 1)..];
        Pair {
            offset: u128::from(number(&stored[0..4])),
            length: u128::from(number(&stored[4..8])),
        }
    }
}

/// The bodies of the `count` pairs that start at `pairs_start`; the caller has seen that the pairs are there.
///
/// The error is the number of the faulty pair: the first one that does not start where it has to, else the last
/// one if its end is not the file's. Without pairs there is none to name, and the error is 0.
pub(crate) fn read_bodies(file: &[u8], pairs_start: usize, count: u64) -> Result<Bodies<'_>, u64> {
    let bodies = Bodies {
        file,
        pairs_start,
        count,
    };
    let mut expected = pairs_end(pairs_start, count);
    for pair_number in 1..=count {
        let pair = bodies.pair(pair_number);
        if pair.offset != expected {
            return Err(pair_number);
        }
        expected = pair.end();
    }
    if expected != length(file) {
        return Err(count);
    }
    Ok(bodies)
}

/// Puts the pairs that name `bodies` at the end of `file`, which holds everything before them, and then the bodies.
pub(crate) fn append_bodies(file: &mut Vec<u8>, bodies: &[Vec<u8>]) {
    let mut offset = pairs_end(file.len(), bodies.len() as u64);
    for body in bodies {
        append_number(file, offset, 4);
        append_number(file, length(body), 4);
        offset += length(body);
    }
    file.extend(bodies.concat());
}
