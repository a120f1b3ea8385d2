//! `agreement SEED COUNT FILE` writes a module of theorems (see the library) and prints how many cases met each outcome.

use samples::outcome::Outcome;
use std::process::ExitCode;

const HELP: &str = "agreement SEED COUNT FILE: write COUNT small cases, made from SEED, as theorems about the definitions";

fn main() -> ExitCode {
    let words: Vec<String> = std::env::args().skip(1).collect();
    let [seed, count, file] = words.as_slice() else {
        eprintln!("{HELP}");
        return ExitCode::from(2);
    };
    let (Ok(seed), Ok(count)) = (seed.parse(), count.parse()) else {
        eprintln!("SEED and COUNT are whole numbers\n{HELP}");
        return ExitCode::from(2);
    };
    let cases = agreement::choose(seed, count);
    let tally = agreement::tally(&cases);
    let wider = cases.iter().filter(|case| case.wider).count();
    let marked = cases.iter().filter(|case| case.marked).count();
    println!(
        "seed {seed}, {} cases, {wider} with wider resolutions, {marked} with marked sheets, {tally}",
        cases.len()
    );
    let mut outcomes = Outcome::of_short_files();
    if let Some(missing) = outcomes.find(|outcome| tally.of(*outcome) == 0) {
        eprintln!("no case met {missing}");
        return ExitCode::FAILURE;
    }
    if let Err(e) = std::fs::write(file, agreement::module(&cases)) {
        eprintln!("{file}: {e}");
        return ExitCode::from(2);
    }
    ExitCode::SUCCESS
}
