//! The frame program over a pipe: valid and damaged lines mixed, compared byte for byte.

use comparison::Random;
use comparison::program::{Program, path};
use comparison::random::seed;
use reference::frames::output;
use reference::rules::{NODES, STATES};
use std::collections::BTreeMap;

/// How often each kind of output line came, refusals with their number.
type Kinds = BTreeMap<String, usize>;

/// A line that is no frame, or not the one it was made from.
fn damaged(random: &mut Random) -> Vec<u8> {
    let states = ["01FFFF00010002", "07FFFF00010002", "0A00FFFF000100000002", "0A01FFFF000100010000"];
    let others = ["020001", "03", "0400000001", "0500010000", "06"];
    let frames = if random.once_in(2) { &states[..] } else { &others };
    let mut line = random.pick(frames).as_bytes().to_vec();
    let place = random.below(line.len());
    match random.below(14) {
        0 => line.clear(),
        1 => line.truncate(place),
        2 => line.push(b'0'),
        3 => line.insert(place, b' '),
        4 => line.push(b'\r'),
        5 => line.extend([b'0'; 4]),
        6 => line[place] = *random.pick(b"abcdefgGxX/:@`-+. \0\xFF\x80"),
        7 => line[1] = *random.pick(b"0789ABCDEFabf"),
        8 => line[0] = *random.pick(b"18F/:"),
        9 => line = format!("0{}{:04x}", random.between(1, 7), random.below(65_536)).into_bytes(),
        10 => line = vec![*random.pick(b"0A"); random.between(15, 5_000)],
        // A wide state with any inversion byte, mostly one that says nothing; or longer than a frame is.
        11 => line = format!("0A{:02X}FFFF000100000000", random.below(256)).into_bytes(),
        12 => line = format!("0A00FFFF0001{}", "0".repeat(random.below(40))).into_bytes(),
        _ => line = (0..random.below(20)).map(|_| random.word() as u8).filter(|byte| *byte != b'\n').collect(),
    }
    line
}

/// By which frames states are given.
#[derive(Clone, Copy)]
enum States {
    /// By `01` and `07` alone: no link goes past the sixteenth state.
    Older,
    /// The same states by `0A` alone.
    OlderByWide,
    /// By all three, with links to every state.
    Mixed,
}

/// How a session is drawn.
struct Sizes {
    frames: States,
    states: usize,
    nodes: usize,
    edits: usize,
    kinds: usize,
    damages: usize,
}

/// The frame of a state: wide where it must be, and else by what is drawn from.
fn state(random: &mut Random, frames: States, mask: u16, value: usize, links: u32, inverted: bool) -> Vec<u8> {
    let wide = match frames {
        States::Older => false,
        States::OlderByWide => true,
        States::Mixed => links > 0xFFFF || random.once_in(2),
    };
    let line = match (wide, inverted) {
        (true, _) => format!("0A{:02X}{mask:04X}{value:04X}{links:08X}", u8::from(inverted)),
        (false, true) => format!("07{mask:04X}{value:04X}{links:04X}"),
        (false, false) => format!("01{mask:04X}{value:04X}{links:04X}"),
    };
    line.into_bytes()
}

/// A set of links to one or two of so many states, or to none.
fn links(random: &mut Random, states: usize) -> u32 {
    let bit = |random: &mut Random| 1 << random.below(states);
    match random.below(4) {
        0 => 0,
        1 | 2 => bit(random),
        _ => bit(random) | bit(random),
    }
}

fn session(random: &mut Random, sizes: &Sizes) -> Vec<u8> {
    let mut lines: Vec<Vec<u8>> = Vec::new();
    let furthest = if let States::Mixed = sizes.frames { STATES } else { 16 };
    // Half of the sessions have inverted states; a quarter of all states has mask zero.
    let inverts = random.once_in(2);
    for _ in 0..sizes.states {
        let mask = *random.pick(&[0xFFFF, 0xFFFF, 0x0001, 0x0000]);
        // Now and then a link goes to a state that comes later, or never.
        let within = if random.once_in(30) { furthest } else { sizes.states.min(furthest) };
        let (value, links) = (random.below(sizes.kinds), links(random, within));
        let inverted = inverts && random.once_in(2);
        lines.push(state(random, sizes.frames, mask, value, links, inverted));
    }
    for _ in 0..sizes.nodes {
        lines.push(format!("02{:04X}", random.below(sizes.kinds)).into_bytes());
    }
    if random.once_in(3) {
        // States and nodes in any order, some after a run that may be refused.
        for last in (1..lines.len()).rev() {
            lines.swap(last, random.below(last + 1));
        }
        lines.insert(random.below(lines.len() + 1), b"03".to_vec());
    }
    lines.push(b"03".to_vec());
    if random.once_in(4) {
        // A refused run may be mended by more states.
        for _ in 0..random.below(STATES) {
            let inverted = inverts && random.once_in(2);
            lines.push(state(random, sizes.frames, 0xFFFF, 1, 0, inverted));
        }
        lines.push(b"03".to_vec());
    }
    let mut held: Vec<(usize, usize)> = Vec::new();
    for _ in 0..sizes.edits {
        let nodes = sizes.nodes.max(1);
        let line = match random.below(20) {
            0 => "06".to_string(),
            1 => random.pick(&["03", "020001", "01FFFF00010002", "07FFFF00010002", "0A00FFFF000100000002"]).to_string(),
            2 => format!("04{:04X}{:04X}", random.below(nodes + 2), random.below(65_536)),
            3 => format!("05{:04X}{:04X}", random.below(nodes), random.below(nodes)),
            4..=8 if !held.is_empty() => {
                let (start, end) = held.swap_remove(random.below(held.len()));
                format!("05{start:04X}{end:04X}")
            }
            _ => {
                let (start, end) = (random.below(nodes), random.below(nodes));
                held.push((start, end));
                format!("04{start:04X}{end:04X}")
            }
        };
        lines.push(line.into_bytes());
    }
    let mut input = Vec::new();
    for line in lines {
        while random.once_in(sizes.damages) {
            input.extend(damaged(random));
            input.push(b'\n');
        }
        input.extend(line);
        input.push(b'\n');
    }
    if random.once_in(3) {
        input.pop();
    }
    input
}

/// Runs the program on an input in blocks of random length.
fn run(program: &std::path::Path, random: &mut Random, input: &[u8]) -> Vec<u8> {
    let mut program = Program::start(program);
    let longest = *random.pick(&[7, 100, 5_000, 1 << 20]);
    let mut rest = input;
    while !rest.is_empty() {
        let (block, after) = rest.split_at(random.between(1, longest).min(rest.len()));
        program.write(block);
        rest = after;
    }
    program.finish()
}

/// Compares so many sessions, in which all of these kinds of output have to come.
fn compare(test: &str, sessions: u64, kinds: &[&str], sizes: impl Fn(&mut Random) -> Sizes) {
    let Some(program) = path() else { return };
    let seed = seed(test);
    let mut found = Kinds::new();
    for number in 0..sessions {
        let mut random = Random::new(seed, number);
        let sizes = sizes(&mut random);
        let input = session(&mut random, &sizes);
        let wanted = output(&input);
        let printed = run(&program, &mut random, &input);
        if printed != wanted {
            let at = printed.iter().zip(&wanted).take_while(|(one, other)| one == other).count();
            let text = |bytes: &[u8]| String::from_utf8_lossy(bytes).into_owned();
            panic!(
                "{test}: seed {seed}, session {number}: output differs at byte {at}\ninput:\n{}\nprinted:\n{}\nwanted:\n{}",
                text(&input),
                text(&printed),
                text(&wanted)
            );
        }
        for line in wanted.split(|byte| *byte == b'\n').filter(|line| !line.is_empty()) {
            let head = if line.starts_with(b"8F") { line } else { &line[..2] };
            *found.entry(String::from_utf8_lossy(head).into_owned()).or_default() += 1;
        }
    }
    let missing: Vec<&&str> = kinds.iter().filter(|kind| !found.contains_key(**kind)).collect();
    assert!(missing.is_empty(), "{test}: no line {missing:?} in {found:?}");
}

#[test]
fn small_sessions() {
    let kinds = ["80", "81", "82", "8F01", "8F02", "8F04", "8F05", "8F0B", "8F0C", "8F0E"];
    compare("small_sessions", 600, &kinds, |random| Sizes {
        frames: States::Mixed,
        states: random.below(5),
        nodes: random.below(6),
        edits: random.below(60),
        kinds: random.between(1, 3),
        damages: random.between(2, 20),
    });
}

#[test]
fn sessions_of_many_states() {
    let kinds = ["80", "81", "82", "8F01", "8F02", "8F04", "8F05", "8F0B", "8F0C", "8F0E"];
    compare("sessions_of_many_states", 200, &kinds, |random| Sizes {
        frames: States::Mixed,
        states: random.between(14, 34),
        nodes: random.between(1, 20),
        edits: random.below(60),
        kinds: random.between(1, 4),
        damages: random.between(2, 20),
    });
}

#[test]
fn sessions_at_the_limits() {
    let kinds = ["80", "81", "82", "8F01", "8F02", "8F04", "8F06", "8F0B", "8F0E"];
    compare("sessions_at_the_limits", 12, &kinds, |random| Sizes {
        frames: States::Mixed,
        states: random.between(28, 34),
        nodes: random.between(500, 516),
        edits: random.below(200),
        kinds: random.between(4, 20),
        damages: 10,
    });
}

/// The same session with its states by the older frames and by `0A`: the same bytes.
#[test]
fn the_same_trigger_by_both_frames() {
    let Some(program) = path() else { return };
    let seed = seed("the_same_trigger_by_both_frames");
    let (mut fired, mut states) = (0, 0);
    for number in 0..200 {
        let drawn = |frames: States| {
            let mut random = Random::new(seed, number);
            // No damaged lines: these may be states too, of the same frame in both.
            let (states, nodes, edits) = (random.between(1, 16), random.between(1, 8), random.below(40));
            let sizes = Sizes { frames, states, nodes, edits, kinds: random.between(1, 3), damages: usize::MAX };
            session(&mut random, &sizes)
        };
        let (older, wide) = (drawn(States::Older), drawn(States::OlderByWide));
        states += (wide.len() - older.len()) / 6;
        let wanted = output(&older);
        fired += usize::from(wanted.windows(4).any(|bytes| bytes == b"8001"));
        let mut random = Random::new(seed, number);
        assert!(run(&program, &mut random, &older) == wanted, "seed {seed}, session {number}: older frames");
        assert!(run(&program, &mut random, &wide) == wanted, "seed {seed}, session {number}: by 0A");
    }
    assert!(fired > 40 && states > 1_000, "{fired} sessions fired, {states} states were given by both");
}

/// 32 states of every kind. One more of any kind meets 4 at its line; after the run all meet 2; a state frame of the wrong
/// length, or with another inversion byte, meets 1 at any moment.
#[test]
fn states_of_every_kind() {
    let Some(program) = path() else { return };
    let mut random = Random::new(seed("states_of_every_kind"), 0);
    let one_more = "07FFFF00000000\n01FFFF00000000\n0A00FFFF000000000000\n0A01FFFF000000000000\n";
    let no_frames = "07FFFF0000000\n07FFFF000000000\n0A02FFFF000000000000\n0AFFFFFF000000000000\n0A00FFFF00000000\n";
    for inverted in [0x0000_0000, 0xFFFF_FFFF, 0x5555_5555, 0xFFFF_FFFE, 0x7FFF_FFFF, 0x8001_8001, 0x0001_0000] {
        let is_inverted = |state: usize| inverted >> state & 1 == 1;
        let line =
            |random: &mut Random, number: usize| state(random, States::Mixed, 0xFFFF, number, 0, is_inverted(number));
        let states: Vec<Vec<u8>> = (0..STATES).map(|number| line(&mut random, number)).collect();
        let rest = format!("{one_more}{no_frames}0200FF\n020003\n03\n{one_more}{no_frames}06\n");
        let input = [states.join(&b'\n'), b"\n".to_vec(), rest.into_bytes()].concat();
        // No state is 00FF, so all inverted ones are at node 0; state 4 is 0003. State One, 0000, stands where it is
        // inverted; the others are orphans.
        let at_node = |node: usize, set: u32| -> String {
            let standing = (0..STATES).filter(|state| set >> state & 1 == 1);
            standing.map(|state| format!("81{:08X}\n", node * 64 + state + 1)).collect()
        };
        let lists = at_node(0, inverted) + &at_node(1, inverted ^ 0x0008);
        let (count, fires, order) = (lists.lines().count(), inverted & 1, order_of(STATES));
        let (full, late, not) = ("8F04\n".repeat(4), "8F02\n".repeat(4), "8F01\n".repeat(5));
        let run_answer = format!("80{fires:02X}{count:04X}{count:04X}\n{lists}");
        let wanted = format!("{full}{not}{run_answer}{late}{not}{order}");
        assert_eq!(String::from_utf8(output(&input)).unwrap(), wanted, "inverted {inverted:08X}");
        assert!(run(&program, &mut random, &input) == wanted.as_bytes(), "inverted {inverted:08X}");
    }
}

/// Each inversion byte before the run and after it: two of them make a state, and no other makes a frame.
#[test]
fn every_inversion_byte() {
    let Some(program) = path() else { return };
    let mut random = Random::new(seed("every_inversion_byte"), 0);
    let states: String = (0..=u8::MAX).map(|byte| format!("0A{byte:02X}FFFF000500000000\n")).collect();
    let input = format!("{states}020005\n020006\n03\n{states}06\n");
    // State 1 is 0005, state 2 anything but 0005.
    let none = "8F01\n".repeat(254);
    let wanted = format!("{none}800100020002\n8100000001\n8100000042\n8F02\n8F02\n{none}820102\n");
    assert_eq!(String::from_utf8(output(input.as_bytes())).unwrap(), wanted);
    assert!(run(&program, &mut random, input.as_bytes()) == wanted.as_bytes());
}

/// A run at which every pair of 32 states and 512 nodes begins to stand: both counts have all of their digits.
#[test]
fn the_longest_answer() {
    let Some(program) = path() else { return };
    let mut random = Random::new(seed("the_longest_answer"), 0);
    let input = "0A010000FFFF00000000\n".repeat(STATES) + &"020000\n".repeat(NODES) + "03\n";
    let sizes = (0..NODES).flat_map(|node| (1..=STATES).map(move |state| node * 64 + state));
    let changes: String = sizes.map(|size| format!("81{size:08X}\n")).collect();
    let wanted = format!("800140004000\n{changes}");
    assert!(run(&program, &mut random, input.as_bytes()) == wanted.as_bytes());
}

/// The walk order of so many states without links.
fn order_of(states: usize) -> String {
    let numbers: String = (1..=states).map(|state| format!("{state:02X}")).collect();
    format!("82{numbers}\n")
}

/// More insertions than there are places for edges.
#[test]
fn more_edges_than_a_graph_has() {
    let Some(program) = path() else { return };
    let mut random = Random::new(seed("more_edges_than_a_graph_has"), 0);
    let mut input = b"01FFFF00010002\n01FFFF00020001\n".to_vec();
    input.extend("020001\n020002\n020003\n".repeat(20).into_bytes());
    input.extend(b"03\n");
    let mut numbers: Vec<usize> = (0..3600).collect();
    for last in (1..numbers.len()).rev() {
        numbers.swap(last, random.below(last + 1));
    }
    for number in &numbers[..2100] {
        input.extend(format!("04{:04X}{:04X}\n", number / 60, number % 60).into_bytes());
    }
    for number in numbers[..2050].iter().step_by(3) {
        input.extend(format!("05{:04X}{:04X}\n", number / 60, number % 60).into_bytes());
    }
    let wanted = output(&input);
    let refusals = wanted.split(|byte| *byte == b'\n').filter(|line| *line == b"8F0D").count();
    assert_eq!(refusals, 52);
    assert!(run(&program, &mut random, &input) == wanted, "output differs");
}

/// The program answers a line before it waits for the next one.
#[test]
fn an_answer_comes_before_the_next_line() {
    let Some(path) = path() else { return };
    let lines: [(&str, &str); 7] = [
        ("03\n", "8F04\n"),
        ("01FFFF00010001\n020001\n03\n", "800000010000\n"),
        ("04000", ""),
        ("00000\n", "800100010001\n8100000001\n"),
        ("\n", "8F01\n"),
        ("0500000000\n", "800000010001\n81FFFFFFFF\n"),
        ("06\n", "8201\n"),
    ];
    let mut program = Program::start(&path);
    for (line, answer) in lines {
        program.write(line.as_bytes());
        assert_eq!(program.read(answer.len()), answer.as_bytes(), "{line:?}");
    }
    assert_eq!(program.finish(), b"");
}

#[test]
fn no_input_no_output() {
    let Some(path) = path() else { return };
    assert_eq!(Program::start(&path).finish(), b"");
}
