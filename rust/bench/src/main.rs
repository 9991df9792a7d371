//! Times the engine beside its twin in plain Rust and the plain fixed-point program, in one run and in turns; then the
//! frame program, `crates/trigger/out/trigger`, which prints long change lists.
//!
//!     bench [--rounds N] [--sizes N,N,..] [--only TEXT] [--before PATH]
//!
//! With `--only`, the workloads whose name has the text (`printing` for the last). With `--before`, an earlier build of the
//! frame program, timed beside the present one. Sizes are those of the calls; what is printed has one size.
//!
//! Every call is made on all three before it is timed, and answers, memory and change lists are compared; while the
//! engine and its twin are timed, their answers are compared again. The table has the time of one call by medians, and the
//! mean of trials and changes of a call. The plain program has no session, so its question tests no layout.

mod frames;
mod printing;
mod timing;
mod workloads;

use comparison::{Engine, Twin, program};
use reference::Book;
use reference::layout::image_of;
use reference::rules::{ROOM, SESSION};
use std::path::PathBuf;
use std::time::Duration;
use timing::{Memory, Times, plain_call, plain_pass};
use workloads::{Workload, workloads};

/// The time that one pass of the plain fixed-point program may take before it is cut short.
const BUDGET: Duration = Duration::from_millis(20);

struct Options {
    rounds: usize,
    sizes: Vec<usize>,
    only: String,
    before: Option<PathBuf>,
}

fn main() {
    // The benchmark starts itself as a frame program in plain Rust.
    match std::env::args().nth(1).as_deref() {
        Some(printing::WITH_TWIN) => return frames::answer_frames(Twin).expect("input and output stay open"),
        Some(printing::WITH_ENGINE) => return frames::answer_frames(Engine).expect("input and output stay open"),
        _ => {}
    }
    let options = match options(std::env::args().skip(1)) {
        Ok(options) => options,
        Err(fault) => {
            eprintln!("{fault}\nbench [--rounds N] [--sizes N,N,..] [--only TEXT] [--before PATH]");
            std::process::exit(2);
        }
    };
    let program = if printing::NAME.contains(&options.only) { program::path() } else { None };
    println!(
        "{:<34} {:>5} {:>7} {:>7} {:>10} {:>10} {:>12} {:>11} {:>12}",
        "workload", "nodes", "trials", "changes", "engine ns", "twin ns", "plain ns", "engine/twin", "plain/engine"
    );
    for nodes in options.sizes {
        for workload in workloads(nodes).iter().filter(|workload| workload.name.contains(&options.only)) {
            row(workload, options.rounds);
        }
    }
    if let Some(program) = program {
        printing::rows(program, options.before, options.rounds);
    }
}

fn options(mut words: impl Iterator<Item = String>) -> Result<Options, String> {
    let mut options = Options { rounds: 51, sizes: vec![64, 128, 256, 512], only: String::new(), before: None };
    while let Some(word) = words.next() {
        let value = words.next().ok_or(format!("{word} needs a value"))?;
        let number = |text: &str| text.parse::<usize>().map_err(|_| format!("{text} is no number"));
        match word.as_str() {
            "--only" => options.only = value,
            "--before" => options.before = Some(value.into()),
            "--rounds" => options.rounds = number(&value)?.max(1),
            "--sizes" => {
                options.sizes = value.split(',').map(number).collect::<Result<_, _>>()?;
                if options.sizes.iter().any(|nodes| !(32..=512).contains(nodes)) {
                    return Err("sizes are 32 to 512".to_string());
                }
            }
            _ => return Err(format!("{word} is not known")),
        }
    }
    Ok(options)
}

/// Makes every call on all three and compares them. Gives the mean of trials and changes of a call.
fn compare(workload: &Workload) -> (f64, f64) {
    let mut engine = Memory::loaded(Engine, workload);
    let mut twin = Memory::loaded(Twin, workload);
    let mut book = loaded_book(workload);
    let (mut trials, mut changes) = (0, 0);
    for call in &workload.calls {
        let answer = engine.call(Engine, workload, *call);
        let label = format!("{} of {} nodes, {call:?}", workload.name, workload.nodes);
        assert_eq!(answer, twin.call(Twin, workload, *call), "{label}: the twin answers otherwise");
        assert_eq!(answer, plain_call(&mut book, workload, *call), "{label}: the plain program answers otherwise");
        assert!(engine.session == twin.session, "{label}: the twin's session differs");
        assert!(engine.session == image_of(&book), "{label}: the plain program's session differs");
        assert!(engine.room == twin.room, "{label}: the twin's changes differ");
        trials += answer >> 16 & 0xFF_FFFF;
        changes += answer >> 40;
    }
    let calls = workload.calls.len() as f64;
    (trials as f64 / calls, changes as f64 / calls)
}

fn loaded_book(workload: &Workload) -> Book {
    let (book, _) = Book::load(SESSION, ROOM, &workload.case.given()).expect("no workload breaks a rule");
    book
}

/// Times a workload in turns and prints its row.
fn row(workload: &Workload, rounds: usize) {
    let (trials, changes) = compare(workload);
    let mut engine = Memory::loaded(Engine, workload);
    let mut twin = Memory::loaded(Twin, workload);
    let start = engine.session.clone();
    let book = loaded_book(workload);
    let (mut engine_times, mut twin_times, mut plain_times) = (Times::default(), Times::default(), Times::default());
    for round in 0..rounds {
        // Each goes first in its turn.
        for turn in 0..3 {
            match (round + turn) % 3 {
                0 => engine.pass(Engine, workload, &start, &mut engine_times),
                1 => twin.pass(Twin, workload, &start, &mut twin_times),
                _ => plain_pass(&book, workload, BUDGET, &mut plain_times),
            }
        }
        assert_eq!(engine.answers, twin.answers, "{}: answers differ", workload.name);
        assert!(engine.session == twin.session, "{}: sessions differ", workload.name);
    }
    let (engine, twin, plain) = (engine_times.of_a_call(), twin_times.of_a_call(), plain_times.of_a_call());
    println!(
        "{:<34} {:>5} {trials:>7.1} {changes:>7.1} {engine:>10.0} {twin:>10.0} {plain:>12.0} {:>11.2} {:>12.1}",
        workload.name,
        workload.nodes,
        engine / twin,
        plain / engine
    );
}
