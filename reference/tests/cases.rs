//! Every case of `tests/cases` is answered byte for byte.

use std::path::PathBuf;

#[test]
fn rest_prints_what_the_cases_say() {
    let folder = PathBuf::from(env!("CARGO_MANIFEST_DIR")).join("tests/cases");
    let mut compared = 0;
    for entry in std::fs::read_dir(folder).expect("the folder of cases") {
        let path = entry.expect("a file").path();
        if path.extension().is_some_and(|extension| extension == "shim") {
            let text = std::fs::read(&path).expect("a text");
            let expected = std::fs::read_to_string(path.with_extension("out")).expect("a report");
            assert_eq!(reference::rest::rest(&text), expected, "{}", path.display());
            compared += 1;
        }
    }
    assert!(compared >= 90, "only {compared} cases were found");
}
