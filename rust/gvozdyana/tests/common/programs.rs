//! The proved programs, fed through a pipe, and a clean frame to feed them with.
use std::io::Write;
use std::path::PathBuf;
use std::process::{Command, Stdio};
use std::sync::mpsc;
use std::thread;
use std::time::Duration;

fn program(name: &str) -> PathBuf {
    let folder = PathBuf::from(env!("CARGO_MANIFEST_DIR")).join("../../target/bin");
    let path = folder.join(name);
    let built = format!("{} is built by .ci/outside", path.display());
    assert!(path.exists(), "{built}");
    path
}

/// What a program writes when these pieces come through a pipe, one write each. There may be more of them than it reads, and even no end of them.
pub fn written<Pieces>(name: &str, pieces: Pieces) -> Vec<u8>
where
    Pieces: IntoIterator<Item = Vec<u8>> + Send + 'static,
{
    fed(name, pieces, false)
}

/// The same where the pipe stays open behind the pieces: the program has to end without waiting for more.
pub fn written_without_end<Pieces>(name: &str, pieces: Pieces) -> Vec<u8>
where
    Pieces: IntoIterator<Item = Vec<u8>> + Send + 'static,
{
    fed(name, pieces, true)
}

/// How long a program may take to end once it has all that it reads.
const PATIENCE: Duration = Duration::from_secs(20);

fn fed<Pieces>(name: &str, pieces: Pieces, stays_open: bool) -> Vec<u8>
where
    Pieces: IntoIterator<Item = Vec<u8>> + Send + 'static,
{
    let mut child = Command::new(program(name))
        .stdin(Stdio::piped())
        .stdout(Stdio::piped())
        .spawn()
        .expect("the program");
    let mut input = child.stdin.take().expect("its input");
    let (ended, end) = mpsc::channel();
    let writer = thread::spawn(move || {
        for piece in pieces {
            // A program that has read all that it wants ends, so that a write may find nobody.
            if input.write_all(&piece).is_err() {
                break;
            }
        }
        if stays_open {
            end.recv_timeout(PATIENCE)
                .expect("the program ends while its input is open");
        }
    });
    let output = child.wait_with_output().expect("its output");
    ended.send(()).ok();
    writer.join().expect("all written");
    assert!(output.status.success());
    output.stdout
}

/// A clean frame: a warning for all areas.
pub fn clean() -> Vec<u8> {
    let mut frame = vec![0; 26];
    frame[0] = 0x1A;
    frame[1] = 0xF7;
    frame
}
