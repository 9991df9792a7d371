//! The frame program in plain Rust, written for speed: digits come from a table, and the calls are the twin's or the
//! engine's. It answers what the benchmark asks, frames that break no rule.

use comparison::{Case, Subject};
use reference::rules::{ROOM, SESSION};
use std::io::{BufRead, BufReader, Result, Write, stdin, stdout};
use trigger_engine::lent::Answer;

/// The bytes of the first line of an answer.
const HEAD: usize = 13;
/// The bytes of the line of a change.
const CHANGE: usize = 11;
/// The size of the output memory, that of the frame program.
const OUTPUT: usize = 524_288;

/// The two digits of each byte.
static PAIRS: [[u8; 2]; 256] = pairs();

const fn pairs() -> [[u8; 2]; 256] {
    let digits = b"0123456789ABCDEF";
    let mut pairs = [[0; 2]; 256];
    let mut byte = 0;
    while byte < pairs.len() {
        pairs[byte] = [digits[byte >> 4], digits[byte & 15]];
        byte += 1;
    }
    pairs
}

/// Writes the digits of some bytes.
fn put_digits(out: &mut [u8], bytes: &[u8]) {
    for (place, byte) in out.chunks_exact_mut(2).zip(bytes) {
        place.copy_from_slice(&PAIRS[usize::from(*byte)]);
    }
}

/// Writes the lines of an accepted answer and tells how many bytes they are.
fn put_answer(out: &mut [u8], answer: Answer, room: &[i32]) -> usize {
    let changes = &room[..answer.changes()];
    let [.., trials_high, trials_low] = answer.trials().to_be_bytes();
    let [.., changes_high, changes_low] = changes.len().to_be_bytes();
    let (head, lines) = out[..HEAD + CHANGE * changes.len()].split_at_mut(HEAD);
    put_digits(head, &[0x80, answer.yes().into(), trials_high, trials_low, changes_high, changes_low]);
    head[HEAD - 1] = b'\n';
    for (line, change) in lines.chunks_exact_mut(CHANGE).zip(changes) {
        let [first, second, third, fourth] = change.to_be_bytes();
        put_digits(line, &[0x81, first, second, third, fourth]);
        line[CHANGE - 1] = b'\n';
    }
    head.len() + lines.len()
}

/// The numbers of four digits after the kind of a line.
fn numbers(line: &[u8]) -> impl Iterator<Item = u16> {
    let digit = |byte: &u8| u16::from(if *byte <= b'9' { byte - b'0' } else { byte - b'A' + 10 });
    line[2..].chunks_exact(4).map(move |digits| digits.iter().fold(0, |number, byte| number << 4 | digit(byte)))
}

/// The program between two lines.
struct Frames {
    case: Case,
    session: Vec<u32>,
    room: Vec<i32>,
}

impl Frames {
    /// Takes one line; states and nodes have no answer.
    fn take<S: Subject>(&mut self, subject: S, line: &[u8]) -> Option<Answer> {
        let Frames { case, session, room } = self;
        let mut fields = numbers(line);
        let mut next = || fields.next().expect("no frame of the benchmark is short");
        match &line[..2] {
            b"01" => case.state(next(), next(), next().into()),
            b"07" => case.inverted_state(next(), next(), next().into()),
            b"02" => case.samples.push(next()),
            b"03" => return Some(subject.load(session, case, room)),
            b"04" => return Some(subject.insert(session, next().into(), next().into(), room)),
            _ => return Some(subject.delete(session, next().into(), next().into(), room)),
        }
        None
    }
}

/// Reads frames from standard input and writes their answers, with a subject's calls, to standard output.
pub fn answer_frames<S: Subject>(subject: S) -> Result<()> {
    let mut input = BufReader::with_capacity(65_536, stdin().lock());
    let mut frames = Frames { case: Case::default(), session: vec![0; SESSION], room: vec![0; ROOM] };
    let (mut out, mut used) = (vec![0; OUTPUT], 0);
    let mut line = Vec::new();
    while input.read_until(b'\n', &mut line)? > 0 {
        if let Some(answer) = frames.take(subject, line.trim_ascii_end()) {
            used += put_answer(&mut out[used..], answer, &frames.room);
        }
        line.clear();
        if out.len() - used < HEAD + CHANGE * ROOM || input.buffer().is_empty() {
            stdout().write_all(&out[..used])?;
            used = 0;
        }
    }
    Ok(())
}
