//! Arguments of a command: files, an output, a number of steps or of choices, flags.

use crate::failure::Failure;
use std::ffi::OsString;
use std::path::PathBuf;

#[derive(Clone, Debug, Default, PartialEq, Eq)]
pub struct Args {
    pub files: Vec<PathBuf>,
    /// What follows `-o`.
    pub output: Option<PathBuf>,
    /// What follows `--steps`, 1 at least.
    pub steps: Option<u64>,
    /// What follows `--budget`.
    pub budget: Option<u64>,
    /// The flags that stand there, as they are written.
    pub flags: Vec<String>,
    pub help: bool,
}

impl Args {
    /// Takes any order; `known` are the flags and options of the command.
    pub fn read(arguments: &[OsString], known: &[&str]) -> Result<Args, Failure> {
        let mut args = Args::default();
        let mut rest = arguments.iter();
        while let Some(argument) = rest.next() {
            match argument.to_str() {
                Some("--help" | "-h") => args.help = true,
                Some("-o") if known.contains(&"-o") => args.set_output(rest.next())?,
                Some("--steps") if known.contains(&"--steps") => args.set_steps(rest.next())?,
                Some("--budget") if known.contains(&"--budget") => args.set_budget(rest.next())?,
                Some(flag) if known.contains(&flag) => args.flags.push(flag.into()),
                Some(flag) if flag.starts_with('-') && flag.len() > 1 => {
                    return Err(Failure::Usage(format!("unknown option {flag}")))
                }
                _ => args.files.push(argument.into()),
            }
        }
        Ok(args)
    }

    fn set_output(&mut self, output: Option<&OsString>) -> Result<(), Failure> {
        let Some(output) = output else {
            return Err(Failure::Usage("-o needs a file".into()));
        };
        once("-o", self.output.replace(output.into()))
    }

    fn set_steps(&mut self, steps: Option<&OsString>) -> Result<(), Failure> {
        let number = number("--steps", steps, 1)?;
        once("--steps", self.steps.replace(number))
    }

    fn set_budget(&mut self, budget: Option<&OsString>) -> Result<(), Failure> {
        let number = number("--budget", budget, 0)?;
        once("--budget", self.budget.replace(number))
    }

    pub fn has(&self, flag: &str) -> bool {
        self.flags.iter().any(|other| other == flag)
    }

    /// Exactly so many files.
    pub fn files<const N: usize>(&self) -> Result<[&PathBuf; N], Failure> {
        let files: Vec<&PathBuf> = self.files.iter().collect();
        let count = files.len();
        files
            .try_into()
            .map_err(|_| Failure::Usage(format!("{N} files are due, not {count}")))
    }

    pub fn needed_output(&self) -> Result<&PathBuf, Failure> {
        let missing = || Failure::Usage("-o FILE is missing".into());
        self.output.as_ref().ok_or_else(missing)
    }
}

/// What follows an option that takes a number.
fn number(option: &str, word: Option<&OsString>, least: u64) -> Result<u64, Failure> {
    let Some(word) = word else {
        return Err(Failure::Usage(format!("{option} needs a number")));
    };
    let word = word.to_string_lossy();
    let number = word.parse().ok().filter(|number| *number >= least);
    let wrong = || format!("{option} takes a number from {least} on, not '{word}'");
    number.ok_or_else(|| Failure::Usage(wrong()))
}

/// An option takes the place of nothing.
fn once<T>(option: &str, before: Option<T>) -> Result<(), Failure> {
    match before {
        Some(_) => Err(Failure::Usage(format!("{option} stands twice"))),
        None => Ok(()),
    }
}
