//! Runs the built drill on examples. An example is a file of records, as hexadecimal digits with `#` before a remark, and beside
//! it what the rules have the drill print.

use std::fs;
use std::io::Write;
use std::path::{Path, PathBuf};
use std::process::{Child, Command, Output, Stdio};
use std::thread;
use std::time::Duration;

const PAUSE: Duration = Duration::from_micros(300);

fn home() -> &'static Path {
    Path::new(env!("CARGO_MANIFEST_DIR"))
}

/// The bytes that a text of hexadecimal digits says.
pub fn bytes(text: &str) -> Vec<u8> {
    let lines = text.lines().map(|line| line.split('#').next().unwrap_or(""));
    let digits: Vec<u8> = lines.flat_map(str::chars).filter(|c| !c.is_whitespace()).map(|c| c.to_digit(16).expect("a hexadecimal digit") as u8).collect();
    assert!(digits.len() % 2 == 0, "half a byte");
    digits.chunks(2).map(|pair| pair[0] * 16 + pair[1]).collect()
}

/// Each example: its name, its records, and what is to be printed of them.
pub fn examples() -> Vec<(String, Vec<u8>, String)> {
    let mut found: Vec<PathBuf> = fs::read_dir(home().join("examples")).expect("the examples").map(|e| e.unwrap().path()).collect();
    found.retain(|path| path.extension().is_some_and(|e| e == "records"));
    found.sort();
    let read = |path: &Path| fs::read_to_string(path).expect("an example has both its files");
    found.iter().map(|path| (path.file_stem().unwrap().to_string_lossy().into_owned(), bytes(&read(path)), read(&path.with_extension("out")))).collect()
}

/// The built drill.
pub fn drill() -> Command {
    Command::new(home().join("../../crates/drill/out/drill"))
}

/// Starts the drill with pipes.
pub fn start() -> Child {
    drill().stdin(Stdio::piped()).stdout(Stdio::piped()).stderr(Stdio::piped()).spawn().expect("the drill is built: make crates/drill/out/drill")
}

/// Runs the drill on pieces of input, each written by itself, and gives what came of it.
pub fn run(pieces: Vec<Vec<u8>>) -> Output {
    let mut child = start();
    let mut input = child.stdin.take().unwrap();
    let writer = thread::spawn(move || {
        for piece in pieces {
            // A run that is over reads no more: what is left has nowhere to go.
            if input.write_all(&piece).is_err() {
                return;
            }
            // Else the pipe may hand two pieces over as one.
            thread::sleep(PAUSE);
        }
    });
    let output = child.wait_with_output().unwrap();
    writer.join().unwrap();
    output
}

/// What the drill prints of pieces of input, when it ends well and says nothing else.
pub fn printed(pieces: Vec<Vec<u8>>) -> String {
    let output = run(pieces);
    assert!(output.status.success(), "{:?}", output.status);
    assert!(output.stderr.is_empty());
    String::from_utf8(output.stdout).unwrap()
}
