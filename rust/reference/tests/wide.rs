//! Triggers of more than sixteen states: their limits, their sets of 32 bits, and frame `0A`. Triggers of up to sixteen
//! are held and answered as they were.

use reference::frames::output;
use reference::layout::{EDGES_AT, INVERTED_AT, LINKS_AT, MARKS_AT, MASKS_AT, SAMPLES_AT, VALUES_AT, held, image_of};
use reference::rules::{NODES, ROOM, SESSION, STATES};
use reference::{Book, Given, Report};
use std::ffi::OsStr;
use std::fs::{read, read_dir};
use std::path::{Path, PathBuf};

/// The most states of a trigger before there were 32.
const FORMERLY: usize = 16;

/// Loads states of mask FFFF with these values and links; no edges.
fn load(values: &[u16], links: &[u32], samples: &[u16]) -> Result<(Book, Report), u8> {
    let masks = vec![0xFFFF; values.len()];
    Book::load(SESSION, ROOM, &Given { masks: &masks, values, links, inverted: 0, samples, starts: &[], ends: &[] })
}

fn report(fires: bool, trials: usize, changes: &[i32]) -> Report {
    Report { fires, trials, changes: changes.to_vec() }
}

/// What the program writes for some lines.
fn answers(lines: &[&str]) -> String {
    let input: String = lines.iter().map(|line| format!("{line}\n")).collect();
    String::from_utf8(output(input.as_bytes())).unwrap()
}

/// The numbers that the documents give. All other tests have them by their names.
#[test]
fn places_and_sizes() {
    let places = [INVERTED_AT, MASKS_AT, VALUES_AT, LINKS_AT, SAMPLES_AT, EDGES_AT, MARKS_AT];
    assert_eq!(places, [3, 4, 36, 68, 100, 612, 2660]);
    assert_eq!((STATES, SESSION, ROOM), (32, 3172, 16_384));
}

#[test]
fn states_32_and_33() {
    for (states, wanted) in [(16, Ok(())), (17, Ok(())), (32, Ok(())), (33, Err(4))] {
        assert_eq!(load(&vec![0; states], &vec![0; states], &[]).map(|_| ()), wanted, "{states} states");
    }
    // A 33rd state meets 4 at its line, whatever its kind, and is dropped: the run has 32.
    for kind in ["01FFFF00010000", "07FFFF00010000", "0A00FFFF000100000000", "0A01FFFF000100000000"] {
        let lines = [&[kind; STATES][..], &["0100000000FFFF", kind, "020002", "03"]].concat();
        let inverted = kind == "07FFFF00010000" || kind == "0A01FFFF000100000000";
        let all: String = (1..=STATES).map(|state| format!("81{state:08X}\n")).collect();
        let run = if inverted { format!("800100200020\n{all}") } else { "800000000000\n".to_string() };
        assert_eq!(answers(&lines), format!("8F04\n8F04\n{run}"), "{kind}");
    }
}

#[test]
fn a_link_to_the_last_state_and_to_the_next() {
    for states in 1..=STATES {
        for from in [0, states - 1] {
            let linked = |word: u32| {
                let mut links = vec![0; states];
                links[from] = word;
                load(&vec![0; states], &links, &[]).map(|_| ())
            };
            assert_eq!(linked(1 << (states - 1)), Ok(()), "{states} states");
            for bit in states..32 {
                assert_eq!(linked(1 << bit), Err(5), "{states} states, link to state {}", bit + 1);
            }
        }
    }
    // With 32 states every set is a set of links.
    for word in [u32::MAX, 1 << 31, 0x8000_0001] {
        assert!(load(&[0; STATES], &[word; STATES], &[]).is_ok());
    }
}

/// A run with a link to the last state, and one to the state after it.
#[test]
fn links_in_frames() {
    for states in [1, 15, 16, 17, 31, 32] {
        let run = |bit: usize| {
            let linked = format!("0A00FFFF0001{:08X}", 1u64 << bit);
            answers(&[&[linked.as_str()][..], &vec!["01FFFF00010000"; states - 1], &["03"]].concat())
        };
        assert_eq!(run(states - 1), "800000000000\n", "{states} states");
        if states < STATES {
            assert_eq!(run(states), "8F05\n", "{states} states");
            assert_eq!(run(31), "8F05\n", "{states} states");
        }
    }
    // The older frames have links to the first sixteen states, however many there are.
    for (states, answer) in [(15, "8F05\n"), (16, "800000000000\n"), (17, "800000000000\n")] {
        assert_eq!(answers(&[&vec!["01FFFF0001FFFF"; states][..], &["03"]].concat()), answer, "{states} states");
    }
}

#[test]
fn the_inversion_byte() {
    // State 1 is 0001, state 2 anything but 0001; state 3, blank and inverted, admits every node.
    let states = ["0A00FFFF000100000000", "0A01FFFF000100000000", "0A010000000100000000"];
    let run = "800100040004\n8100000001\n8100000003\n8100000042\n8100000043\n";
    assert_eq!(answers(&[&states[..], &["020001", "020002", "03"]].concat()), run);

    // Any other byte is no inversion; the line is dropped.
    for byte in 2..=u8::MAX {
        let line = format!("0A{byte:02X}FFFF000100000000");
        assert_eq!(answers(&[&line, "03"]), "8F01\n8F04\n", "{line}");
    }
}

#[test]
fn lines_of_the_wrong_form() {
    let line = "0A01FFFF0001000000AF";
    for length in 0..line.len() {
        assert_eq!(answers(&[&line[..length]]), "8F01\n", "{length} bytes");
    }
    for more in ["0", "00", "0000", "0000000000000000", " ", "\r"] {
        assert_eq!(answers(&[&format!("{line}{more}")]), "8F01\n", "{more:?} more");
    }
    // Four digits of links, or no inversion byte.
    for short in ["0A00FFFF00010000", "0AFFFF000100000000", "0AFFFF00010000"] {
        assert_eq!(answers(&[short]), "8F01\n", "{short}");
    }
    for place in 0..line.len() {
        for byte in ["a", "f", "G", "g", "/", ":", "@", "`", " "] {
            let mut damaged = line.to_string();
            damaged.replace_range(place..=place, byte);
            assert_eq!(answers(&[&damaged]), "8F01\n", "{damaged}");
        }
    }
    assert_eq!(answers(&[line]), "");
}

/// After an accepted run a state meets 2, and a line with another inversion byte is still no frame.
#[test]
fn a_state_at_the_wrong_moment() {
    let run = ["0A00FFFF000100000001", "020001", "03"];
    let after = ["0A00FFFF000100000000", "0A01FFFF000100000000", "01FFFF00010000", "07FFFF00010000"];
    assert_eq!(answers(&[&run[..], &after].concat()), "800000010000\n8F02\n8F02\n8F02\n8F02\n");
    for byte in 2..=u8::MAX {
        let line = format!("0A{byte:02X}FFFF000100000000");
        assert_eq!(answers(&[&run[..], &[&line, "0A00FFFF00010000"]].concat()), "800000010000\n8F01\n8F01\n");
    }
    // A refused run is no run: a state may follow, and mend it.
    let mended = ["0A00FFFF000100000002", "03", "0A00FFFF000100000000", "020001", "03"];
    assert_eq!(answers(&mended), "8F05\n800000020001\n8100000002\n");
}

/// The same line with its state given by `0A`, where it is a state of the older frames.
fn widened(line: &[u8]) -> Vec<u8> {
    let digits = |bytes: &[u8]| bytes.iter().all(|byte| byte.is_ascii_digit() || (b'A'..=b'F').contains(byte));
    match line {
        [b'0', kind @ (b'1' | b'7'), fields @ ..] if fields.len() == 12 && digits(fields) => {
            let inversion = if *kind == b'1' { b"00" } else { b"01" };
            [b"0A", inversion, &fields[..8], b"0000", &fields[8..]].concat()
        }
        _ => line.to_vec(),
    }
}

/// The same input with its states given by `0A`.
fn widened_input(input: &[u8]) -> Vec<u8> {
    let lines: Vec<Vec<u8>> = input.split(|byte| *byte == b'\n').map(widened).collect();
    lines.join(&b'\n')
}

/// The folder of the stored runs.
fn examples() -> PathBuf {
    Path::new(env!("CARGO_MANIFEST_DIR")).join("../../examples")
}

/// Every stored run, with its states given by `0A`, has the stored answers.
#[test]
fn the_same_trigger_by_both_frames() {
    let files = read_dir(examples()).unwrap().map(|entry| entry.unwrap().path());
    let mut otherwise = 0;
    for input in files.filter(|path| path.extension() == Some(OsStr::new("frames"))) {
        let given = read(&input).unwrap();
        let wide = widened_input(&given);
        otherwise += usize::from(wide != given);
        assert!(output(&wide) == read(input.with_extension("answers")).unwrap(), "{}", input.display());
    }
    assert!(otherwise > 10, "only {otherwise} runs have a state of the older frames");
}

/// The session of the scope is stored in both forms.
#[test]
fn the_session_of_the_scope_by_both_frames() {
    let stored = |name: &str| read(examples().join(name)).unwrap();
    assert_eq!(stored("wide-session.frames"), widened_input(&stored("session.frames")));
    assert_eq!(stored("wide-session.answers"), stored("session.answers"));
}

/// Up to sixteen states: sets below 2 to the 16th, and nothing at the places of the states after them.
#[test]
fn the_upper_half_is_zero() {
    for states in 1..=FORMERLY {
        let all = (1 << states) - 1;
        let (masks, links) = (vec![0xFFFF; states], vec![all; states]);
        // Every state stands at every node: all bits of marks, links, masks and values that there can be.
        let given = Given {
            masks: &masks,
            values: &masks,
            links: &links,
            inverted: 0,
            samples: &[0xFFFF; 3],
            starts: &[0, 1, 2],
            ends: &[1, 2, 0],
        };
        let (book, loaded) = Book::load(SESSION, ROOM, &given).unwrap();
        assert_eq!(loaded.changes.len(), 3 * states);
        let image = image_of(&book);
        assert!(image[LINKS_AT..SAMPLES_AT].iter().chain(&image[MARKS_AT..]).all(|word| *word < 1 << 16));
        assert_eq!(image[MARKS_AT..][..3], [all; 3]);
        for at in [MASKS_AT, VALUES_AT, LINKS_AT] {
            assert_eq!(image[at + FORMERLY..at + STATES], [0; STATES - FORMERLY], "{states} states, section {at}");
        }
        assert_eq!(held(&image), Some((book.trigger, book.graph, book.standing)));
    }
}

/// State One is linked to the last state alone, all others are orphans that are nowhere: whether State One stands, and
/// the trigger fires, is told by a bit of the upper half.
#[test]
fn the_last_state_decides() {
    for last in [17, 18, 31, 32] {
        let mut values = vec![9; last];
        (values[0], values[last - 1]) = (1, 2);
        let mut links = vec![0; last];
        links[0] = 1 << (last - 1);
        let number = last as i32;
        let (mut book, loaded) = load(&values, &links, &[1, 2]).unwrap();
        assert_eq!(loaded, report(false, 2, &[64 + number]));
        assert_eq!(book.matches(number as u32, 1), Ok(true));
        assert_eq!(book.matches(number as u32 + 1, 1), Err(11));
        assert_eq!(book.insert(ROOM, 0, 1), Ok(report(true, 1, &[1])));
        assert_eq!(book.delete(ROOM, 0, 1), Ok(report(false, 1, &[-1])));
        // Its node is gone: no edge carries the link.
        let (mut book, loaded) = load(&values, &links, &[1, 1]).unwrap();
        assert_eq!(loaded, report(false, 2, &[]));
        assert_eq!(book.insert(ROOM, 0, 1), Ok(report(false, 0, &[])));
        assert_eq!(book.order()[..2], [1, last as u8]);
    }
}

/// A ring of states on a ring of nodes, closed by its last edge, which leads from the last state to State One.
#[test]
fn a_ring_through_the_last_state() {
    for states in [16, 17, 32] {
        let values: Vec<u16> = (0..states as u16).collect();
        let links: Vec<u32> = (0..states).map(|state| 1 << ((state + 1) % states)).collect();
        let (mut book, loaded) = load(&values, &links, &values).unwrap();
        assert_eq!(loaded, report(false, states, &[]));
        for node in 1..states as u32 {
            assert_eq!(book.insert(ROOM, node - 1, node), Ok(report(false, node as usize, &[])));
        }
        let last = states as u32 - 1;
        let changes: Vec<i32> = (0..states as i32).map(|node| node * 64 + node + 1).collect();
        assert_eq!(book.insert(ROOM, last, 0), Ok(report(true, states, &changes)));
        let ceased: Vec<i32> = changes.iter().map(|change| -change).collect();
        assert_eq!(book.delete(ROOM, last, 0), Ok(report(false, states, &ceased)));
        let order: Vec<u8> = (1..=states as u8).collect();
        assert_eq!(book.order(), order);
    }
}

/// The changes of every pair of 32 states and 512 nodes.
fn all_changes(sign: i32) -> Vec<i32> {
    let sizes = (0..NODES).flat_map(|node| (1..=STATES).map(move |state| (node * 64 + state) as i32));
    sizes.map(|size| sign * size).collect()
}

/// States that are linked to themselves at nodes in a row: all pairs begin to stand with an edge at the row's end, and
/// cease with it.
#[test]
fn as_many_changes_as_the_room_has() {
    let links: Vec<u32> = (0..STATES).map(|state| 1 << state).collect();
    let (zeros, samples) = (vec![0; STATES], vec![0; NODES]);
    let (starts, ends): (Vec<u32>, Vec<u32>) = (1..NODES as u32).map(|node| (node - 1, node)).unzip();
    let given = Given {
        masks: &zeros,
        values: &zeros,
        links: &links,
        inverted: 0,
        samples: &samples,
        starts: &starts,
        ends: &ends,
    };
    let (mut book, loaded) = Book::load(SESSION, ROOM, &given).unwrap();
    let last = NODES as u32 - 1;
    assert_eq!(loaded, report(false, ROOM, &[]));
    assert_eq!(book.insert(ROOM - 1, last, last), Err(3));
    assert_eq!(book.insert(ROOM, last, last), Ok(report(true, ROOM, &all_changes(1))));
    assert_eq!(book.delete(ROOM, last, last), Ok(report(false, ROOM, &all_changes(-1))));
}

/// A run whose counts need all four of their digits.
#[test]
fn the_longest_answer() {
    let lines = [&["0A000000000000000000"; STATES][..], &["020000"; NODES], &["03"]].concat();
    let changes: String = all_changes(1).iter().map(|change| format!("81{change:08X}\n")).collect();
    let wanted = format!("800140004000\n{changes}");
    assert!(answers(&lines) == wanted);
    assert_eq!(wanted.len(), 180_237);
}

/// States of value 1, and two nodes, 1 and 2, without edges: each state stands at node 0.
fn standing_at_one_node(states: usize) -> Vec<u32> {
    let (book, _) = load(&vec![1; states], &vec![0; states], &[1, 2]).unwrap();
    let image = image_of(&book);
    assert_eq!(image[MARKS_AT..][..2], [u32::MAX >> (STATES - states), 0]);
    image
}

/// Whether a session is in layout with a bit more in one of its words.
fn holds_with(session: &[u32], word: usize, bit: usize) -> bool {
    let mut session = session.to_vec();
    assert_eq!(session[word] >> bit & 1, 0, "the bit is there already");
    session[word] |= 1 << bit;
    held(&session).is_some()
}

#[test]
fn a_mark_where_a_state_is_not_admitted() {
    for states in [16, 17, 31, 32] {
        let session = standing_at_one_node(states);
        assert!(held(&session).is_some());
        for bit in 0..states {
            assert!(!holds_with(&session, MARKS_AT + 1, bit), "state {} of {states}", bit + 1);
        }
        // Without a mark at node 0 a state may still be there.
        for bit in 0..states {
            let mut session = session.clone();
            session[MARKS_AT] &= !(1 << bit);
            assert!(held(&session).is_some(), "state {} of {states}", bit + 1);
        }
    }
}

/// Marks, links and inversions of states that are not there: with sixteen states, the whole upper half.
#[test]
fn bits_past_the_states() {
    for states in [1, 16, 17, 31] {
        let session = standing_at_one_node(states);
        for word in [MARKS_AT, MARKS_AT + 1, LINKS_AT, LINKS_AT + states - 1, INVERTED_AT] {
            for bit in states..32 {
                assert!(!holds_with(&session, word, bit), "{states} states, word {word}, bit {bit}");
            }
        }
        for word in [MASKS_AT + states, VALUES_AT + states, LINKS_AT + states, LINKS_AT + STATES - 1] {
            assert!(!holds_with(&session, word, 0), "{states} states, word {word}");
        }
        for bit in 0..states {
            assert!(holds_with(&session, LINKS_AT, bit), "{states} states, a link to state {}", bit + 1);
        }
    }
}
