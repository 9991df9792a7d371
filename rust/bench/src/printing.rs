//! Long change lists printed: the frame program beside plain Rust that writes the same bytes with a table of digits.

use crate::workloads::{Call, chain};
use comparison::{Case, Edit};
use reference::rules::NODES;
use std::io::{Read, Write};
use std::path::PathBuf;
use std::process::{Child, Command, Stdio};
use std::time::Instant;

/// The name of the table.
pub const NAME: &str = "printing 8,192 changes";
/// The word by which this program is started as a frame program in plain Rust, with the twin's calls.
pub const WITH_TWIN: &str = "--answer-with-twin";
/// The same, with the engine's calls: little but reading and printing differs from the frame program then.
pub const WITH_ENGINE: &str = "--answer-with-engine";
/// A run makes the list of edits so many times.
const REPEATS: usize = 8;
/// What a pipe holds.
const PIPE: usize = 65_536;

/// A frame program, and the nanoseconds of its runs.
struct Printer {
    name: &'static str,
    command: Command,
    /// Of the loading frames alone and with the edits, answers written to nowhere; then the same over a pipe.
    times: [Vec<f64>; 4],
}

impl Printer {
    fn new(name: &'static str, path: PathBuf, words: &[&str]) -> Printer {
        let mut command = Command::new(path);
        command.args(words).stdin(Stdio::piped());
        Printer { name, command, times: Default::default() }
    }

    /// Starts the program. Its whole input is written before any output is read, so a pipe must hold it.
    fn start(&mut self, input: &[u8], output: Stdio) -> Child {
        assert!(input.len() <= PIPE, "the input is longer than a pipe holds");
        let child = self.command.stdout(output).spawn();
        let mut child = child.unwrap_or_else(|error| panic!("{}: {error}", self.name));
        child.stdin.take().expect("its input is a pipe").write_all(input).expect("it takes its input");
        child
    }

    /// Reads what the program writes, if that is a pipe, and waits for its end.
    fn finish(&self, mut child: Child, mut keep: impl FnMut(&[u8])) {
        if let Some(mut output) = child.stdout.take() {
            let mut block = vec![0; PIPE];
            loop {
                match output.read(&mut block).expect("its output stays open") {
                    0 => break,
                    length => keep(&block[..length]),
                }
            }
        }
        let status = child.wait().expect("it ends");
        assert!(status.success(), "{}: {status}", self.name);
    }

    /// What the program answers.
    fn answers(&mut self, input: &[u8]) -> Vec<u8> {
        let mut answers = Vec::new();
        let child = self.start(input, Stdio::piped());
        self.finish(child, |block| answers.extend_from_slice(block));
        answers
    }

    /// Runs the program in each of the four ways.
    fn pass(&mut self, loading: &[u8], edited: &[u8]) {
        for (way, input) in [loading, edited, loading, edited].into_iter().enumerate() {
            let clock = Instant::now();
            let child = self.start(input, if way < 2 { Stdio::null() } else { Stdio::piped() });
            self.finish(child, |_| ());
            self.times[way].push(clock.elapsed().as_nanos() as f64);
        }
    }

    /// What the edits add to a run, for each of the lines that they print: to nowhere, and over a pipe. The least of all
    /// rounds counts: a run is long, and other programs come in between.
    fn of_a_line(&self, lines: usize) -> [f64; 2] {
        let least = |times: &Vec<f64>| times.iter().copied().fold(f64::INFINITY, f64::min);
        let [loaded, edited, loaded_piped, edited_piped] = self.times.each_ref().map(least);
        [edited - loaded, edited_piped - loaded_piped].map(|time| time / lines as f64)
    }
}

fn frame_of(edit: Edit) -> String {
    match edit {
        Edit::Insert(start, end) => format!("04{start:04X}{end:04X}\n"),
        Edit::Delete(start, end) => format!("05{start:04X}{end:04X}\n"),
    }
}

/// The frames that load a case. Of a chain the last edge comes first, so that hardly a pair is tried before the edits.
fn loading(case: &Case) -> String {
    let states = (0..case.masks.len()).map(|state| {
        let kind = if case.is_inverted(state) { "07" } else { "01" };
        format!("{kind}{:04X}{:04X}{:04X}\n", case.masks[state], case.values[state], case.links[state])
    });
    let nodes = case.samples.iter().map(|sample| format!("02{sample:04X}\n"));
    let run = std::iter::once("03\n".to_string());
    let edges = case.starts.iter().zip(&case.ends).rev().map(|(start, end)| frame_of(Edit::Insert(*start, *end)));
    states.chain(nodes).chain(run).chain(edges).collect()
}

/// Runs each program and compares what they answer. Gives the number of lines.
fn lines_of(printers: &mut [Printer], input: &str) -> usize {
    let answers = printers[0].answers(input.as_bytes());
    for printer in &mut printers[1..] {
        assert!(printer.answers(input.as_bytes()) == answers, "{} answers otherwise", printer.name);
    }
    answers.iter().filter(|byte| **byte == b'\n').count()
}

/// Times the frame program, an earlier build of it where one is given, and plain Rust, in turns, and prints a row for each.
pub fn rows(program: PathBuf, before: Option<PathBuf>, rounds: usize) {
    let own = || std::env::current_exe().expect("this program has a path");
    let mut printers = vec![
        Printer::new("twin, table of digits", own(), &[WITH_TWIN]),
        Printer::new("engine, table of digits", own(), &[WITH_ENGINE]),
        Printer::new("frame program", program, &[]),
    ];
    printers.extend(before.map(|path| Printer::new("frame program before", path, &[])));
    let (case, calls) = chain(NODES, |place| place);
    let edits = calls.iter().map(|call| match call {
        Call::Edit(edit) => frame_of(*edit),
        Call::Load | Call::Fires => unreachable!("a chain is loaded once, and edited"),
    });
    let (loading, edits) = (loading(&case), edits.collect::<String>().repeat(REPEATS));
    let edited = loading.clone() + &edits;
    let lines = lines_of(&mut printers, &edited) - lines_of(&mut printers, &loading);
    let pairs = NODES * case.masks.len();
    assert_eq!(lines, REPEATS * calls.len() * (1 + pairs), "an edit does not change every pair");
    let count = printers.len();
    for round in 0..rounds {
        // Each goes first in its turn.
        for turn in 0..count {
            printers[(round + turn) % count].pass(loading.as_bytes(), edited.as_bytes());
        }
    }
    let twin = printers[0].of_a_line(lines);
    println!("\n{NAME:<24} {:>10} {:>10} {:>12} {:>10}", "ns a line", "/twin", "over a pipe", "/twin");
    for printer in &printers {
        let [nowhere, pipe] = printer.of_a_line(lines);
        let name = printer.name;
        println!("{name:<24} {nowhere:>10.2} {:>10.2} {pipe:>12.2} {:>10.2}", nowhere / twin[0], pipe / twin[1]);
    }
}
