//! The commands between bytes and text.

use super::{at_line, both, print, unprinted, Outcome};
use crate::args::Args;
use crate::{files, pack, text};
use std::io::Write;

pub(super) fn as_text(args: &Args, out: &mut dyn Write) -> Outcome {
    match &args.output {
        None => write_text(args, out),
        Some(path) => {
            let mut bytes = Vec::new();
            write_text(args, &mut bytes)?;
            files::write(path, &bytes)?;
            Ok(0)
        }
    }
}

fn write_text(args: &Args, out: &mut dyn Write) -> Outcome {
    let written = if args.has("--record") {
        let [sheet_path, record_path] = args.files()?;
        let (sheet, bytes) = both(args)?;
        let variables = files::valid_sheet(sheet_path, &sheet)?.variables;
        let record = files::laid_out(record_path, &sheet, &bytes)?;
        text::write_record(&record, variables, out)
    } else {
        let [path] = args.files()?;
        let bytes = files::read(path)?;
        text::write_sheet(&files::valid_sheet(path, &bytes)?, out)
    };
    written.map(|()| 0).map_err(unprinted)
}

pub(super) fn packed(args: &Args, out: &mut dyn Write) -> Outcome {
    let [path] = args.files()?;
    let output = args.needed_output()?;
    let text = files::read_text(path)?;
    let (packed, bytes) = pack::pack(&text).map_err(|fault| at_line(path, &fault))?;
    files::write(output, &bytes)?;
    let (output, name) = (output.display(), packed.name());
    print(out, &format!("{output}: {name}, {} bytes\n", bytes.len()))
}
