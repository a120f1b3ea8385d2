//! Every folder of the repository's examples/ holds a sheet, a record and the line that is printed for them.

use reference::{judge, line};
use std::fs;
use std::path::Path;

#[test]
fn every_example_gives_its_line() {
    let examples = Path::new(env!("CARGO_MANIFEST_DIR")).join("../../examples");
    let mut judged = 0;
    for entry in fs::read_dir(&examples).unwrap() {
        let folder = entry.unwrap().path();
        if !folder.is_dir() {
            continue;
        }
        let [sheet, record, wanted] =
            ["sheet", "record", "line"].map(|name| fs::read(folder.join(name)).unwrap());
        let printed = line(&judge(&sheet, &record)) + "\n";
        assert_eq!(printed.as_bytes(), wanted, "{}", folder.display());
        judged += 1;
    }
    assert_eq!(
        judged, 25,
        "A1 to A8, B1, B2, C1 to C4, D, E, L1, L2, R1, R2, S1, T1, T2, W1 and W2"
    );
}
