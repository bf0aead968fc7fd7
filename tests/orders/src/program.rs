//! Running the drill program over an input.

use std::io::{ErrorKind, Read, Write};
use std::path::PathBuf;
use std::process::{Child, Command, Stdio};
use std::sync::mpsc;
use std::thread;
use std::time::Duration;

/// The built drill, where the prover leaves it.
const BUILT: &str = "crates/drill/out/drill";

/// The drill program, and how long one run of it may take.
#[derive(Clone, Debug)]
pub struct Program {
    pub path: PathBuf,
    pub limit: Duration,
}

/// The root of the repository: this package lies two levels below it. Cargo
/// says where the package lies now; a program run by itself only knows where
/// it was built.
pub fn root() -> PathBuf {
    let package = std::env::var_os("CARGO_MANIFEST_DIR");
    let package = PathBuf::from(package.unwrap_or(env!("CARGO_MANIFEST_DIR").into()));
    package.ancestors().nth(2).unwrap_or(&package).to_path_buf()
}

impl Program {
    pub fn at(path: PathBuf) -> Result<Program, String> {
        if !path.is_file() {
            return Err(format!("there is no program at {}", path.display()));
        }
        let limit = Duration::from_secs(120);
        Ok(Program { path, limit })
    }

    /// The drill named by DRILL, else the built one. Both are taken from the
    /// root of the repository unless they are whole paths.
    pub fn drill() -> Result<Program, String> {
        let name = std::env::var_os("DRILL").unwrap_or(BUILT.into());
        Program::at(root().join(name))
            .map_err(|problem| format!("{problem}: build the drill first, or name one with DRILL"))
    }

    /// The output for an input given all at once.
    pub fn output(&self, input: &[u8]) -> Result<Vec<u8>, String> {
        self.output_in_pieces(vec![input.to_vec()], Duration::ZERO)
    }

    /// The output for an input given piece by piece, with a pause after each
    /// so that the program meets the pieces one by one.
    ///
    /// The input is written by a thread of its own: a program that prints
    /// while it reads would otherwise wait for us while we wait for it.
    pub fn output_in_pieces(
        &self,
        pieces: Vec<Vec<u8>>,
        pause: Duration,
    ) -> Result<Vec<u8>, String> {
        let mut child = Command::new(&self.path)
            .stdin(Stdio::piped())
            .stdout(Stdio::piped())
            .spawn()
            .map_err(|problem| format!("{} cannot be run: {problem}", self.path.display()))?;
        let stdin = child.stdin.take().expect("stdin is a pipe");
        let mut stdout = child.stdout.take().expect("stdout is a pipe");
        let writer = thread::spawn(move || write_pieces(stdin, &pieces, pause));
        let (send, receive) = mpsc::channel();
        thread::spawn(move || {
            let mut output = Vec::new();
            let _ = send.send(stdout.read_to_end(&mut output).map(|_| output));
        });
        let Ok(read) = receive.recv_timeout(self.limit) else {
            end(&mut child);
            return Err(format!("the drill did not end within {:?}", self.limit));
        };
        let status = child.wait().map_err(|problem| problem.to_string())?;
        let written = writer.join().expect("the writing thread does not panic");
        if status.code().is_none() {
            return Err(format!("the drill was ended by a signal: {status}"));
        }
        written.map_err(|problem| format!("the input could not be written: {problem}"))?;
        read.map_err(|problem| format!("the output could not be read: {problem}"))
    }
}

/// A program may stop reading at a STOP, so a closed pipe is no fault.
fn write_pieces(mut stdin: impl Write, pieces: &[Vec<u8>], pause: Duration) -> std::io::Result<()> {
    for piece in pieces {
        let written = stdin.write_all(piece).and_then(|()| stdin.flush());
        match written {
            Err(problem) if problem.kind() == ErrorKind::BrokenPipe => return Ok(()),
            other => other?,
        }
        if !pause.is_zero() {
            thread::sleep(pause);
        }
    }
    Ok(())
}

fn end(child: &mut Child) {
    // It may have ended by itself just now; either way nothing more is wanted.
    let _ = child.kill();
    let _ = child.wait();
}
