//! The frame program: lines of an input to output bytes.

use crate::rules::{NODES, ROOM, SESSION, STATES};
use crate::{Book, Given, Report};

/// A frame of the input.
#[derive(Clone, Copy, Debug, PartialEq, Eq)]
enum Frame {
    State { mask: u16, value: u16, links: u32, inverted: bool },
    Node { sample: u16 },
    Run,
    Insert { start: u32, end: u32 },
    Delete { start: u32, end: u32 },
    Order,
}

/// The program between two lines: states and nodes read so far, and the book after an accepted run.
#[derive(Default)]
struct Program {
    masks: Vec<u16>,
    values: Vec<u16>,
    links: Vec<u32>,
    inverted: u32,
    samples: Vec<u16>,
    book: Option<Book>,
}

/// What the program writes for a whole input.
pub fn output(input: &[u8]) -> Vec<u8> {
    let mut program = Program::default();
    let mut written = String::new();
    for line in lines(input) {
        written += &match program.take(line) {
            Ok(answer) => answer,
            Err(number) => format!("8F{number:02X}\n"),
        };
    }
    written.into_bytes()
}

/// The lines of an input. Where nothing follows the last line feed there is no further line.
fn lines(input: &[u8]) -> Vec<&[u8]> {
    let mut lines: Vec<&[u8]> = input.split(|byte| *byte == b'\n').collect();
    if lines.last().is_some_and(|line| line.is_empty()) {
        lines.pop();
    }
    lines
}

/// The number that digits say, upper-case and most significant first.
fn number(digits: &[u8]) -> Option<u32> {
    let digit = |byte: &u8| match byte {
        b'0'..=b'9' => Some(u32::from(byte - b'0')),
        b'A'..=b'F' => Some(u32::from(byte - b'A') + 10),
        _ => None,
    };
    let digits: Vec<u32> = digits.iter().map(digit).collect::<Option<_>>()?;
    Some(digits.iter().fold(0, |number, digit| number * 16 + digit))
}

/// The numbers of fields with so many digits each, where the digits are those of the fields and no more.
fn fields<const N: usize>(digits: &[u8], lengths: [usize; N]) -> Option<[u32; N]> {
    let (mut numbers, mut rest) = ([0; N], digits);
    for (place, length) in numbers.iter_mut().zip(lengths) {
        let (field, after) = rest.split_at_checked(length)?;
        *place = number(field)?;
        rest = after;
    }
    rest.is_empty().then_some(numbers)
}

/// The frame that a line is.
fn frame(line: &[u8]) -> Option<Frame> {
    let (kind, rest) = line.split_at_checked(2)?;
    match kind {
        b"01" => old_state(rest, false),
        b"02" => fields(rest, [4]).map(|[sample]| Frame::Node { sample: sample as u16 }),
        b"03" => fields(rest, []).map(|[]| Frame::Run),
        b"04" => fields(rest, [4, 4]).map(|[start, end]| Frame::Insert { start, end }),
        b"05" => fields(rest, [4, 4]).map(|[start, end]| Frame::Delete { start, end }),
        b"06" => fields(rest, []).map(|[]| Frame::Order),
        b"07" => old_state(rest, true),
        b"0A" => state(rest),
        _ => None,
    }
}

/// A state of the older frames, `01` and `07`: its links are those to the first sixteen states.
fn old_state(rest: &[u8], inverted: bool) -> Option<Frame> {
    let [mask, value, links] = fields(rest, [4, 4, 4])?;
    Some(Frame::State { mask: mask as u16, value: value as u16, links, inverted })
}

/// A state of frame `0A`, where its inversion byte is one of the two that say something.
fn state(rest: &[u8]) -> Option<Frame> {
    let [inversion, mask, value, links] = fields(rest, [2, 4, 4, 8])?;
    let inverted = match inversion {
        0 => false,
        1 => true,
        _ => return None,
    };
    Some(Frame::State { mask: mask as u16, value: value as u16, links, inverted })
}

/// An accepted line and a line for each change.
fn told(report: &Report) -> String {
    let fires = u8::from(report.fires);
    let count = report.changes.len();
    let mut text = format!("80{fires:02X}{:04X}{count:04X}\n", report.trials);
    for change in &report.changes {
        text += &format!("81{change:08X}\n");
    }
    text
}

impl Program {
    /// Takes one line: what is written for it, or the number of the rule that it breaks.
    fn take(&mut self, line: &[u8]) -> Result<String, u8> {
        let frame = frame(line).ok_or(1)?;
        match &mut self.book {
            None => self.before_run(frame),
            Some(book) => after_run(book, frame),
        }
    }

    fn before_run(&mut self, frame: Frame) -> Result<String, u8> {
        match frame {
            Frame::State { .. } if self.masks.len() == STATES => Err(4),
            Frame::State { mask, value, links, inverted } => {
                if inverted {
                    self.inverted |= 1 << self.masks.len();
                }
                self.masks.push(mask);
                self.values.push(value);
                self.links.push(links);
                Ok(String::new())
            }
            Frame::Node { .. } if self.samples.len() == NODES => Err(6),
            Frame::Node { sample } => {
                self.samples.push(sample);
                Ok(String::new())
            }
            Frame::Run => {
                let given = Given {
                    masks: &self.masks,
                    values: &self.values,
                    links: &self.links,
                    inverted: self.inverted,
                    samples: &self.samples,
                    starts: &[],
                    ends: &[],
                };
                let (book, report) = Book::load(SESSION, ROOM, &given)?;
                self.book = Some(book);
                Ok(told(&report))
            }
            Frame::Insert { .. } | Frame::Delete { .. } | Frame::Order => Err(2),
        }
    }
}

fn after_run(book: &mut Book, frame: Frame) -> Result<String, u8> {
    match frame {
        Frame::State { .. } | Frame::Node { .. } | Frame::Run => Err(2),
        Frame::Insert { start, end } => {
            let report = book.insert(ROOM, start, end)?;
            Ok(told(&report))
        }
        Frame::Delete { start, end } => {
            let report = book.delete(ROOM, start, end)?;
            Ok(told(&report))
        }
        Frame::Order => {
            let states: String = book.order().iter().map(|state| format!("{state:02X}")).collect();
            Ok(format!("82{states}\n"))
        }
    }
}

#[cfg(test)]
mod tests {
    use super::*;

    #[test]
    fn the_session_of_the_scope() {
        let input = "01FFFF00010002\n01FFFF00020001\n020001\n020002\n03\n0400000001\n0400010000\n0400010000\n\
                     0500000001\n06\n";
        let printed = "800000020000\n800000010000\n800100020002\n8100000001\n8100000042\n8F0C\n800000020002\n\
                       81FFFFFFFF\n81FFFFFFBE\n820102\n";
        assert_eq!(output(input.as_bytes()), printed.as_bytes());
        assert_eq!(output(input.trim_end().as_bytes()), printed.as_bytes());
    }

    #[test]
    fn lines_that_are_no_frames() {
        assert_eq!(output(b""), b"");
        let lengths = ["", "0", "3", "07", "0300", "01FFFF0001000", "07FFFF0001000", "07FFFF000100000"];
        let kinds_and_digits = ["00", "08", "09", "0B", "80", "03\r", " 03", "02000a", "07FFFF0001000a"];
        for line in lengths.into_iter().chain(kinds_and_digits) {
            assert_eq!(output(format!("{line}\n").as_bytes()), b"8F01\n", "{line:?}");
        }
        assert_eq!(output(b"03"), b"8F04\n");
        assert_eq!(output(b"0400000000\n06"), b"8F02\n8F02\n");
    }

    #[test]
    fn inverted_states() {
        // State One is anything but 0001; the state after it is 0001.
        let input = b"07FFFF00010000\n01FFFF00010000\n020001\n020002\n03\n07FFFF00010000\n";
        assert_eq!(output(input), b"800100020002\n8100000002\n8100000041\n8F02\n");
        // A mask of zero admits every node.
        assert_eq!(output(b"070000FFFF0000\n020000\n02FFFF\n03\n"), b"800100020002\n8100000001\n8100000041\n");
        // A link to a state that is not there.
        assert_eq!(output(b"07FFFF00010002\n03\n"), b"8F05\n");
    }
}
