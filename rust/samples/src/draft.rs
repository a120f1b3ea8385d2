//! Both files taken apart, so that a part can be changed and the pairs written anew around it.

use planner::format::{record_from, sheet_from, MARK, PAIR, RECORD_HEAD, STEP_COUNT, STEP_HEAD};
use planner::Problem;

/// The bytes of both files.
#[derive(Clone, Debug, PartialEq, Eq)]
pub struct Files {
    pub sheet: Vec<u8>,
    pub record: Vec<u8>,
}

/// The parts of both files, without counts, offsets and lengths.
#[derive(Clone, Debug)]
pub struct Draft {
    /// The standing loss of a marked sheet; a sheet without a mark has none.
    pub loss: Option<u32>,
    pub costs: Vec<u32>,
    pub clauses: Vec<Vec<u8>>,
    pub claim: u64,
    pub assignment: Vec<u8>,
    pub steps: Vec<Vec<u8>>,
}

/// A step body taken apart.
#[derive(Clone, Debug)]
pub struct Body {
    pub kind: u8,
    pub spare: u8,
    pub literals: Vec<u16>,
    pub bound: u64,
    pub tail: Vec<u8>,
}

/// What the first bytes of a sheet tell.
#[derive(Clone, Copy, Debug, PartialEq, Eq)]
pub struct Head {
    pub is_marked: bool,
    pub variables: usize,
    pub clauses: usize,
}

impl Head {
    /// Nothing of a sheet that is too short for it.
    pub fn read(sheet: &[u8]) -> Option<Head> {
        let [field, clauses] = [read_u16(sheet, 0)?, read_u16(sheet, 2)?];
        Some(Head {
            is_marked: field & MARK != 0,
            variables: usize::from(field & !MARK),
            clauses: clauses.into(),
        })
    }

    /// Where the costs end, and the loss of a marked sheet begins.
    pub fn costs_end(self) -> usize {
        4 + 4 * self.variables
    }

    /// Where the pairs begin.
    pub fn pairs_start(self) -> usize {
        self.costs_end() + if self.is_marked { LOSS } else { 0 }
    }

    /// The loss of a marked sheet; nothing of another, and where it is cut short.
    pub fn loss(self, sheet: &[u8]) -> Option<u32> {
        read_u32(sheet, self.costs_end()).filter(|_| self.is_marked)
    }
}

/// How many bytes a loss has.
pub const LOSS: usize = 4;

/// Where a file keeps its pairs.
#[derive(Clone, Copy, Debug)]
pub struct Table {
    pub start: usize,
    pub count: usize,
}

impl Table {
    /// Where a sheet keeps them, by its counts.
    pub fn of_sheet(sheet: &[u8]) -> Option<Table> {
        let head = Head::read(sheet)?;
        Some(Table {
            start: head.pairs_start(),
            count: head.clauses,
        })
    }

    /// Where the pairs end.
    pub fn end(self) -> usize {
        self.start + PAIR * self.count
    }

    /// What the pairs name; nothing where one of them reaches past the end of the file.
    fn bodies(self, file: &[u8]) -> Option<Vec<Vec<u8>>> {
        let body = |place: usize| {
            let offset = read_u32(file, self.start + PAIR * place)? as usize;
            let length = read_u32(file, self.start + PAIR * place + 4)? as usize;
            Some(file.get(offset..offset + length)?.to_vec())
        };
        (0..self.count).map(body).collect()
    }
}

/// Where the tail of a resolution has the pivot.
const PIVOT: usize = 8;

pub fn assignment_length(variables: usize) -> usize {
    variables.div_ceil(8)
}

pub fn read_u16(bytes: &[u8], place: usize) -> Option<u16> {
    let part = bytes.get(place..place + 2)?;
    Some(u16::from_le_bytes(part.try_into().ok()?))
}

pub fn read_u32(bytes: &[u8], place: usize) -> Option<u32> {
    let part = bytes.get(place..place + 4)?;
    Some(u32::from_le_bytes(part.try_into().ok()?))
}

pub fn read_u64(bytes: &[u8], place: usize) -> Option<u64> {
    let part = bytes.get(place..place + 8)?;
    Some(u64::from_le_bytes(part.try_into().ok()?))
}

/// Writes over the bytes at a place; nothing when they are not all there.
pub fn overwrite(bytes: &mut [u8], place: usize, value: &[u8]) -> Option<()> {
    bytes
        .get_mut(place..place + value.len())?
        .copy_from_slice(value);
    Some(())
}

pub fn codes(bytes: &[u8]) -> Vec<u16> {
    bytes
        .chunks_exact(2)
        .map(|pair| u16::from_le_bytes([pair[0], pair[1]]))
        .collect()
}

pub fn code_bytes(codes: &[u16]) -> Vec<u8> {
    codes.iter().flat_map(|code| code.to_le_bytes()).collect()
}

/// What a sheet is made of.
#[derive(Clone, Debug, PartialEq, Eq)]
pub struct Parts {
    pub loss: Option<u32>,
    pub costs: Vec<u32>,
    pub clauses: Vec<Vec<u8>>,
}

/// The parts of a sheet, by its mark, counts and pairs; nothing where these reach past its end.
pub fn sheet_parts(sheet: &[u8]) -> Option<Parts> {
    let (head, table) = (Head::read(sheet)?, Table::of_sheet(sheet)?);
    let costs = sheet.get(..table.start)?[4..head.costs_end()].chunks_exact(4);
    let cost = |part: &[u8]| u32::from_le_bytes([part[0], part[1], part[2], part[3]]);
    Some(Parts {
        loss: head.loss(sheet),
        costs: costs.map(cost).collect(),
        clauses: table.bodies(sheet)?,
    })
}

impl Files {
    pub fn variables(&self) -> Option<usize> {
        Head::read(&self.sheet).map(|head| head.variables)
    }

    pub fn sheet_table(&self) -> Option<Table> {
        Table::of_sheet(&self.sheet)
    }

    pub fn record_table(&self) -> Option<Table> {
        let count = read_u32(&self.record, STEP_COUNT)? as usize;
        Some(Table {
            start: RECORD_HEAD + assignment_length(self.variables()?),
            count,
        })
    }
}

impl Draft {
    /// Takes a well-formed record for this problem apart.
    pub fn new(problem: &Problem, record: &[u8]) -> Option<Draft> {
        let (sheet, record) = (planner::format::sheet(problem), record.to_vec());
        Draft::read(&Files { sheet, record })
    }

    /// Takes both files apart, by their counts and pairs; nothing where these reach past an end.
    pub fn read(files: &Files) -> Option<Draft> {
        let Parts {
            loss,
            costs,
            clauses,
        } = sheet_parts(&files.sheet)?;
        let record = files.record_table()?;
        Some(Draft {
            loss,
            costs,
            clauses,
            claim: read_u64(&files.record, 0)?,
            assignment: files.record.get(RECORD_HEAD..record.start)?.to_vec(),
            steps: record.bodies(&files.record)?,
        })
    }

    /// Both files, with counts and pairs that fit the parts.
    pub fn files(&self) -> Files {
        let sheet = sheet_from(self.loss, &self.costs, &self.clauses.iter().collect());
        let record = record_from(self.claim, &self.assignment, &self.steps.iter().collect());
        Files { sheet, record }
    }

    pub fn variables(&self) -> usize {
        self.costs.len()
    }

    /// What every assignment costs, whatever is true in it.
    pub fn standing_loss(&self) -> u64 {
        self.loss.map_or(0, u64::from)
    }

    /// The literals of a clause numbered from 1.
    pub fn clause(&self, number: u32) -> Option<Vec<u16>> {
        let body = self.clauses.get((number as usize).checked_sub(1)?)?;
        Some(codes(body))
    }

    /// The body of a step numbered from 1.
    pub fn step(&self, number: u32) -> Option<Body> {
        Body::read(self.steps.get((number as usize).checked_sub(1)?)?)
    }

    /// The cost of a literal's variable, 0 for one that the sheet does not have.
    pub fn cost_of(&self, code: u16) -> u64 {
        let index = usize::from(code / 2).wrapping_sub(1);
        self.costs.get(index).copied().map_or(0, u64::from)
    }

    pub fn value(&self, variable: usize) -> bool {
        let byte = self
            .assignment
            .get((variable - 1) / 8)
            .copied()
            .unwrap_or(0);
        byte >> ((variable - 1) % 8) & 1 == 1
    }

    pub fn flip(&mut self, variable: usize) -> Option<()> {
        *self.assignment.get_mut((variable - 1) / 8)? ^= 1 << ((variable - 1) % 8);
        Some(())
    }

    pub fn assignment_cost(&self) -> u64 {
        let paid = (1..=self.variables()).filter(|variable| self.value(*variable));
        let paid = paid.map(|variable| u64::from(self.costs[variable - 1]));
        self.standing_loss() + paid.sum::<u64>()
    }

    /// The assignment makes a literal true.
    pub fn is_true(&self, code: u16) -> bool {
        code > 1 && self.value(usize::from(code / 2)) == code.is_multiple_of(2)
    }

    pub fn satisfies(&self, clause: &[u16]) -> bool {
        clause.iter().any(|code| self.is_true(*code))
    }

    pub fn satisfied(&self) -> bool {
        let mut clauses = self.clauses.iter();
        clauses.all(|clause| self.satisfies(&codes(clause)))
    }

    /// Puts a step before the one at this place and moves the citations behind it along.
    pub fn insert(&mut self, place: usize, body: Vec<u8>) {
        self.insert_all(vec![(place, body)]);
    }

    /// Puts each of the steps before the one at its place, and moves the citations along. The places do not fall.
    pub fn insert_all(&mut self, fresh: Vec<(usize, Vec<u8>)>) {
        let places: Vec<usize> = fresh.iter().map(|(place, _)| *place).collect();
        let mut fresh = fresh.into_iter().peekable();
        let mut merged = Vec::with_capacity(self.steps.len() + places.len());
        for (place, step) in std::mem::take(&mut self.steps).into_iter().enumerate() {
            while let Some((_, body)) = fresh.next_if(|(before, _)| *before <= place) {
                merged.push(body);
            }
            merged.push(moved(step, &places));
        }
        merged.extend(fresh.map(|(_, body)| body));
        self.steps = merged;
    }
}

/// The same step after others have come before those at these places.
fn moved(step: Vec<u8>, places: &[usize]) -> Vec<u8> {
    let Some(mut read) = Body::read(&step).filter(|read| read.kind == 4) else {
        return step;
    };
    for part in 0..2 {
        let cited = read.citation(part).unwrap_or(0);
        let before = places.partition_point(|place| *place < cited as usize);
        read.cite(part, cited.saturating_add(before as u32));
    }
    read.bytes()
}

impl Body {
    pub fn read(bytes: &[u8]) -> Option<Body> {
        let count = usize::from(read_u16(bytes, 2)?);
        let bound = read_u64(bytes, 4)?;
        let end = STEP_HEAD + 2 * count;
        let literals = codes(bytes.get(STEP_HEAD..end)?);
        let tail = bytes[end..].to_vec();
        Some(Body {
            kind: bytes[0],
            spare: bytes[1],
            literals,
            bound,
            tail,
        })
    }

    pub fn bytes(&self) -> Vec<u8> {
        let mut bytes = vec![self.kind, self.spare];
        bytes.extend_from_slice(&(self.literals.len() as u16).to_le_bytes());
        bytes.extend_from_slice(&self.bound.to_le_bytes());
        bytes.extend(code_bytes(&self.literals));
        bytes.extend_from_slice(&self.tail);
        bytes
    }

    /// A cost step with these literals, which need not be sorted, and the bound that the sheet gives.
    pub fn cost(draft: &Draft, mut literals: Vec<u16>) -> Body {
        literals.sort_unstable();
        let negative = literals.iter().filter(|code| **code % 2 == 1);
        let paid = negative.map(|code| draft.cost_of(*code));
        let bound = draft.standing_loss() + paid.sum::<u64>();
        Body {
            kind: 2,
            spare: 0,
            literals,
            bound,
            tail: Vec::new(),
        }
    }

    /// The number of 4 bytes at this place of the tail, counted from 0.
    pub fn citation(&self, place: usize) -> Option<u32> {
        read_u32(&self.tail, 4 * place)
    }

    pub fn cite(&mut self, place: usize, number: u32) -> Option<()> {
        overwrite(&mut self.tail, 4 * place, &number.to_le_bytes())
    }

    /// The clauses that a kind 3 step cites.
    pub fn cited(&self) -> Vec<u32> {
        let number = |part: &[u8]| u32::from_le_bytes([part[0], part[1], part[2], part[3]]);
        self.tail.chunks_exact(4).map(number).collect()
    }

    pub fn pivot(&self) -> Option<u16> {
        read_u16(&self.tail, PIVOT)
    }

    pub fn set_pivot(&mut self, pivot: u16) -> Option<()> {
        overwrite(&mut self.tail, PIVOT, &pivot.to_le_bytes())
    }

    pub fn holds(&self, code: u16) -> bool {
        self.literals.contains(&code)
    }

    /// Whether the literal's variable stands here in neither way, so that the literal can be added.
    pub fn has_room_for(&self, code: u16) -> bool {
        !self.holds(code) && !self.holds(code ^ 1)
    }

    /// Adds a literal at its place in the order.
    pub fn add(&mut self, code: u16) {
        let place = self.literals.partition_point(|other| *other < code);
        self.literals.insert(place, code);
    }

    pub fn remove(&mut self, code: u16) {
        self.literals.retain(|other| *other != code);
    }
}
