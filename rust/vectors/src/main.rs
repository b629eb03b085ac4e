//! Writes what the test programs are run on and have to answer, `crates/NAME/stdin` and `stdout`, the list of their cases, `cases.txt`, and the output of the
//! programs that read frames and of the listing of the area safety edition, which is run on the frames of test_list_samples.
use std::path::Path;

fn main() -> std::io::Result<()> {
    let here = Path::new(env!("CARGO_MANIFEST_DIR"));
    let crates = here.join("../../crates");
    for program in vectors::PROGRAMS {
        let folder = crates.join(program.name);
        let files = program.files();
        std::fs::write(folder.join("stdin"), files.stdin)?;
        std::fs::write(folder.join("stdout"), files.stdout)?;
    }
    for program in vectors::ROWS {
        let folder = crates.join(program.name);
        let input = std::fs::read(crates.join(program.input).join("stdin"))?;
        std::fs::write(folder.join("stdout"), program.stdout(&input))?;
        std::fs::write(folder.join("stdin"), input)?;
    }
    std::fs::write(here.join("cases.txt"), vectors::list())
}
