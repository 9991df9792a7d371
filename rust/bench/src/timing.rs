//! One list of calls timed on each of the three programs.

use crate::workloads::{Call, Workload};
use comparison::{Edit, Subject};
use reference::Book;
use reference::rules::{ROOM, SESSION};
use std::time::{Duration, Instant};

/// So many calls in a row are timed together: few, so that most are not interrupted by other programs.
const UNIT: usize = 4;

/// The times of each unit of a list of calls, over all rounds.
#[derive(Default)]
pub struct Times(Vec<Vec<f64>>);

impl Times {
    /// Makes the calls unit by unit and keeps the time that one call of each takes. Stops after a unit where `enough`
    /// says so.
    fn take(&mut self, calls: &[Call], mut make: impl FnMut(Call), enough: impl Fn(Duration) -> bool) {
        let mut spent = Duration::ZERO;
        for (place, unit) in calls.chunks(UNIT).enumerate() {
            let clock = Instant::now();
            for call in unit {
                make(*call);
            }
            let time = clock.elapsed();
            if self.0.len() == place {
                self.0.push(Vec::new());
            }
            self.0[place].push(time.as_nanos() as f64 / unit.len() as f64);
            spent += time;
            if enough(spent) {
                break;
            }
        }
    }

    /// The time of one call: the median of each unit over the rounds, and the mean of these.
    pub fn of_a_call(&self) -> f64 {
        let medians = self.0.iter().map(|times| median(times));
        medians.sum::<f64>() / self.0.len() as f64
    }
}

/// The value in the middle.
fn median(times: &[f64]) -> f64 {
    let mut times = times.to_vec();
    times.sort_by(f64::total_cmp);
    times[times.len() / 2]
}

/// The memory of a subject.
pub struct Memory {
    /// The session.
    pub session: Vec<u32>,
    /// The change room.
    pub room: Vec<i32>,
    /// The answer of each call.
    pub answers: Vec<u64>,
}

impl Memory {
    /// Memory with a case loaded.
    pub fn loaded<S: Subject>(subject: S, workload: &Workload) -> Memory {
        let mut memory = Memory { session: vec![0; SESSION], room: vec![0; ROOM], answers: Vec::new() };
        let answer = subject.load(&mut memory.session, &workload.case, &mut memory.room);
        assert_eq!(answer.rule(), 0, "{}", workload.name);
        memory
    }

    /// Makes one call.
    pub fn call<S: Subject>(&mut self, subject: S, workload: &Workload, call: Call) -> u64 {
        let Memory { session, room, .. } = self;
        let answer = match call {
            Call::Edit(Edit::Insert(start, end)) => subject.insert(session, start, end, room),
            Call::Edit(Edit::Delete(start, end)) => subject.delete(session, start, end, room),
            Call::Load => subject.load(session, &workload.case, room),
            Call::Fires => subject.fires(session),
        };
        answer.0
    }

    /// Makes all calls from the session as it was loaded.
    pub fn pass<S: Subject>(&mut self, subject: S, workload: &Workload, start: &[u32], times: &mut Times) {
        self.session.copy_from_slice(start);
        let mut answers = std::mem::take(&mut self.answers);
        answers.clear();
        answers.reserve(workload.calls.len());
        times.take(&workload.calls, |call| answers.push(self.call(subject, workload, call)), |_| false);
        self.answers = answers;
    }
}

/// One call on the plain fixed-point program.
pub fn plain_call(book: &mut Book, workload: &Workload, call: Call) -> u64 {
    let report = match call {
        Call::Edit(Edit::Insert(start, end)) => book.insert(ROOM, start, end),
        Call::Edit(Edit::Delete(start, end)) => book.delete(ROOM, start, end),
        Call::Load => Book::load(SESSION, ROOM, &workload.case.given()).map(|(_, report)| report),
        Call::Fires => return u64::from(book.fires()) << 8,
    };
    comparison::subject::accepted(&report.expect("no call of a workload is refused")).0
}

/// Makes the first calls on the plain fixed-point program until a budget of time is spent.
pub fn plain_pass(book: &Book, workload: &Workload, budget: Duration, times: &mut Times) {
    let mut book = book.clone();
    let make = |call| {
        std::hint::black_box(plain_call(&mut book, workload, call));
    };
    times.take(&workload.calls, make, |spent| spent > budget);
}
