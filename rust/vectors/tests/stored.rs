//! What is stored of the test programs, of those that read frames, and of the listing of the area safety edition is what the plain version makes now.
use std::path::{Path, PathBuf};

fn here() -> PathBuf {
    Path::new(env!("CARGO_MANIFEST_DIR")).to_owned()
}

fn compared(path: &Path, expected: &str) {
    let stored = std::fs::read_to_string(path).expect("a stored text");
    for (n, (a, b)) in stored.lines().zip(expected.lines()).enumerate() {
        assert_eq!(a, b, "line {} of {}", n + 1, path.display());
    }
    assert!(stored == expected, "{} has another length", path.display());
}

#[test]
fn test_programs() {
    for program in vectors::PROGRAMS {
        let folder = here().join("../../crates").join(program.name);
        let files = program.files();
        let stdin = std::fs::read(folder.join("stdin")).expect("stored cases");
        assert!(stdin == files.stdin, "{}: other cases", program.name);
        compared(&folder.join("stdout"), &files.stdout);
    }
}

#[test]
fn list_of_cases() {
    compared(&here().join("cases.txt"), &vectors::list());
}

#[test]
fn rows_of_frames() {
    let crates = here().join("../../crates");
    for program in vectors::ROWS {
        let folder = crates.join(program.name);
        let input = std::fs::read(crates.join(program.input).join("stdin")).expect("frames");
        let stdin = std::fs::read(folder.join("stdin")).expect("its input");
        assert!(stdin == input, "{}: another input", program.name);
        compared(&folder.join("stdout"), &program.stdout(&input));
    }
}
