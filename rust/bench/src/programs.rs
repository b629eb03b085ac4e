//! The proved programs, run on a file of frames.
use std::fs::File;
use std::path::{Path, PathBuf};
use std::process::{Command, Stdio};
use std::time::Instant;

fn path(name: &str) -> PathBuf {
    let folder = Path::new(env!("CARGO_MANIFEST_DIR")).join("../../target/bin");
    folder.join(name)
}

/// Whether a program is there to be run; if not, says so.
pub fn is_built(name: &str) -> bool {
    let built = path(name).exists();
    if !built {
        let path = path(name);
        println!("{name}: {} is not built", path.display());
    }
    built
}

/// Frames in a file, which is there as long as this is.
pub struct Input(PathBuf);

impl Input {
    pub fn new(frames: &[u8]) -> Input {
        let path = Path::new(env!("CARGO_MANIFEST_DIR")).join("../../target/bench.frames");
        std::fs::write(&path, frames).expect("the frames");
        Input(path)
    }

    /// The nanoseconds of a run of a program that reads them; its output is thrown away.
    pub fn nanoseconds(&self, name: &str) -> f64 {
        let input = File::open(&self.0).expect("the frames");
        let start = Instant::now();
        let status = Command::new(path(name))
            .stdin(input)
            .stdout(Stdio::null())
            .status()
            .expect("the program: .ci/outside builds it");
        assert!(status.success());
        start.elapsed().as_nanos() as f64
    }
}

impl Drop for Input {
    fn drop(&mut self) {
        std::fs::remove_file(&self.0).ok();
    }
}
