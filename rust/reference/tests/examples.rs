//! The stored runs of the frame program.

use reference::frames::output;
use std::ffi::OsStr;
use std::fs::{read, read_dir};
use std::path::Path;

#[test]
fn stored_answers_are_those_of_the_plain_program() {
    let folder = Path::new(env!("CARGO_MANIFEST_DIR")).join("../../examples");
    let files = read_dir(folder).unwrap().map(|entry| entry.unwrap().path());
    let mut runs = 0;
    for input in files.filter(|path| path.extension() == Some(OsStr::new("frames"))) {
        let answers = read(input.with_extension("answers")).unwrap();
        assert!(output(&read(&input).unwrap()) == answers, "{}", input.display());
        runs += 1;
    }
    assert!(runs > 10, "only {runs} runs are stored");
}
