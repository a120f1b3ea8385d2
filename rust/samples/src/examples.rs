//! The repository's examples/: the two files of each plan, and the line that is printed for them.

use std::fs;
use std::path::{Path, PathBuf};

#[derive(Clone, Debug)]
pub struct Example {
    pub folder: PathBuf,
    pub sheet: Vec<u8>,
    pub record: Vec<u8>,
    /// With its newline.
    pub line: String,
}

/// A1 to A8, B1, B2, C1 to C4, D and E of document 01, W1, W2, S1, R1, R2, L1, L2, T1 and T2.
pub const COUNT: usize = 25;

/// Every example; there are as many as there have to be.
pub fn examples() -> [Example; COUNT] {
    let entries = fs::read_dir(root()).expect("the examples");
    let paths = entries.map(|entry| entry.expect("an example").path());
    let mut folders: Vec<PathBuf> = paths.filter(|path| path.is_dir()).collect();
    folders.sort_unstable();
    assert_eq!(folders.len(), COUNT, "examples");
    std::array::from_fn(|place| read(&folders[place]))
}

/// The example of a name.
pub fn example(name: &str) -> Example {
    read(&root().join(name))
}

fn root() -> PathBuf {
    Path::new(env!("CARGO_MANIFEST_DIR")).join("../../examples")
}

fn read(folder: &Path) -> Example {
    let file = |name: &str| fs::read(folder.join(name)).expect("a file of an example");
    Example {
        folder: folder.to_path_buf(),
        sheet: file("sheet"),
        record: file("record"),
        line: String::from_utf8(file("line")).expect("a line of text"),
    }
}
