//! The frame program, driven over pipes.

use std::io::{Read, Write};
use std::path::{Path, PathBuf};
use std::process::{Child, Command, Stdio};
use std::sync::mpsc::{Receiver, channel};
use std::thread;
use std::time::Duration;

/// How long an answer may take.
const PATIENCE: Duration = Duration::from_secs(60);

/// Where the frame program is. Where it is missing, tests and benchmark fail, unless `TRIGGER_WITHOUT_PROGRAM` is set.
pub fn path() -> Option<PathBuf> {
    let path = Path::new(env!("CARGO_MANIFEST_DIR")).join("../../crates/trigger/out/trigger");
    if path.exists() {
        return Some(path);
    }
    let missing = "crates/trigger/out/trigger is missing; 'rt run' in crates/trigger builds it";
    if std::env::var_os("TRIGGER_WITHOUT_PROGRAM").is_none() {
        panic!("{missing}");
    }
    writeln!(std::io::stderr(), "left out: {missing}").ok();
    None
}

/// A running frame program. What it writes comes in through a channel.
pub struct Program {
    child: Child,
    output: Receiver<Vec<u8>>,
}

impl Program {
    /// Starts the program.
    pub fn start(path: &Path) -> Program {
        let mut child = Command::new(path)
            .stdin(Stdio::piped())
            .stdout(Stdio::piped())
            .spawn()
            .unwrap_or_else(|error| panic!("{}: {error}", path.display()));
        let mut stdout = child.stdout.take().expect("its output is a pipe");
        let (sender, output) = channel();
        thread::spawn(move || {
            let mut block = [0; 4096];
            while let Ok(length) = stdout.read(&mut block) {
                if length == 0 || sender.send(block[..length].to_vec()).is_err() {
                    break;
                }
            }
        });
        Program { child, output }
    }

    /// Writes to the program's input.
    pub fn write(&mut self, bytes: &[u8]) {
        let stdin = self.child.stdin.as_mut().expect("its input is open");
        stdin.write_all(bytes).expect("the program reads on");
    }

    /// Waits for so many bytes of output.
    pub fn read(&mut self, length: usize) -> Vec<u8> {
        let mut bytes = Vec::new();
        while bytes.len() < length {
            bytes.extend(self.output.recv_timeout(PATIENCE).expect("the program answers in time"));
        }
        bytes
    }

    /// Ends the input and gives the rest of the output.
    pub fn finish(mut self) -> Vec<u8> {
        drop(self.child.stdin.take());
        let mut bytes = Vec::new();
        while let Ok(block) = self.output.recv_timeout(PATIENCE) {
            bytes.extend(block);
        }
        let status = self.child.wait().expect("the program ends");
        assert!(status.success(), "the program ended with {status}");
        bytes
    }
}
