//! Both checkers behind one type, what a message about a difference needs, and what the tests can be told.

use reference::{Answer, Found, Turned, Written};
use std::str::FromStr;

/// The proved judgement, as the reference checker's type.
pub fn judge(sheet: &[u8], record: &[u8]) -> Answer {
    let a = proved::judge(sheet, record);
    Answer {
        number: u32::try_from(a.number).expect("a refusal number"),
        place: a.place,
        cost: a.cost,
        open_count: a.open_count,
        step_count: a.step_count,
        gap: a.gap,
    }
}

/// What the proved writer answers, as the reference checker's type.
pub fn write_sheet(sheet: &[u8], out: &mut [u8]) -> Written {
    let a = proved::write_sheet(sheet, out);
    Written {
        number: u32::try_from(a.number).expect("a refusal number"),
        place: a.place,
        length: a.length,
    }
}

/// What the proved trimmer answers, as the reference checker's type.
pub fn trim(sheet: &[u8], record: &[u8], marks: &mut [u8], out: &mut [u8]) -> Written {
    let a = proved::trim(sheet, record, marks, out);
    Written {
        number: u32::try_from(a.number).expect("a refusal number"),
        place: a.place,
        length: a.length,
    }
}

/// What the proved search answers, as the reference checker's type.
pub fn search(sheet: &[u8], budget: u64) -> Found {
    let a = proved::search(sheet, budget);
    Found {
        number: a.number,
        place: u64::from(a.place),
        plan: a.plan,
        choices: a.choices,
        ended: a.ended,
        floor: a.floor,
    }
}

/// What the proved call answers to turns, as the reference checker's type.
pub fn turn(
    sheet: &[u8],
    assignment: &mut [u8],
    turns: &[u16],
    index: &mut [u8],
    counts: &mut [u8],
) -> Turned {
    let a = proved::turn(sheet, assignment, turns, index, counts);
    Turned {
        number: u32::try_from(a.number).expect("a refusal number"),
        place: a.place,
        total: a.total,
    }
}

/// Bytes in hexadecimal, for a message that names a case.
pub fn hex(bytes: &[u8]) -> String {
    bytes.iter().map(|b| format!("{b:02x}")).collect()
}

/// A number from the environment, or another where there is none.
pub fn setting<T: FromStr>(name: &str, otherwise: T) -> T {
    let given = std::env::var(name).ok();
    given.map_or(otherwise, |text| {
        text.parse()
            .unwrap_or_else(|_| panic!("{name} is not a number"))
    })
}
