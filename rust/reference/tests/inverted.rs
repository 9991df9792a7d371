//! Inverted states: what they admit, how they are loaded, and where they are held. A state is blank where its mask is
//! zero.

use reference::layout::{INVERTED_AT, MARKS_AT, MASKS_AT, held, image_of};
use reference::rules::{ROOM, SESSION, STATES};
use reference::{Book, Given, Report, State};

/// What a load is given for a trigger of masks FFFF; links may be in part or go too far.
fn given<'a>(values: &'a [u16], links: &'a [u32], inverted: u32, samples: &'a [u16]) -> Given<'a> {
    let masks = &[0xFFFF; STATES + 1][..values.len()];
    Given { masks, values, links, inverted, samples, starts: &[], ends: &[] }
}

fn load(given: &Given) -> Result<Book, u8> {
    Book::load(SESSION, ROOM, given).map(|(book, _)| book)
}

/// Over words of three bits: what an inverted state admits is what its plain form does not, where it is not blank.
#[test]
fn admission_is_turned_round() {
    for (mask, value) in (8..64).map(|word| (word >> 3, word & 7)) {
        let (plain, inverted) = (State::new(mask, value, 0, false), State::new(mask, value, 0, true));
        let agreeing: Vec<u16> = (0..8).filter(|sample| plain.admits(*sample)).collect();
        assert_eq!(agreeing.len(), 8 >> mask.count_ones());
        assert!(agreeing.iter().all(|sample| sample & mask == value & mask));
        assert!((0..8).all(|sample| inverted.admits(sample) != agreeing.contains(&sample)));
    }
}

/// The one exception: a blank state admits every sample, inverted or not.
#[test]
fn a_blank_state_admits_every_sample() {
    for (value, inverted) in [0x0000, 0x00FF, 0xFFFF].into_iter().flat_map(|value| [(value, false), (value, true)]) {
        let state = State::new(0, value, 0, inverted);
        assert!((0..=u16::MAX).all(|sample| state.admits(sample)), "value {value:04X}, inverted {inverted}");
    }
}

/// With one bit in its mask a state is not blank: inverted, it admits the half of all samples that differ in this bit.
#[test]
fn a_mask_of_one_bit_is_no_exception() {
    for (bit, value) in (0..16).flat_map(|bit| [0x0000, 0x5AA5, 0xFFFF].map(|value| (bit, value))) {
        let state = State::new(1 << bit, value, 0, true);
        let admitted: Vec<u16> = (0..=u16::MAX).filter(|sample| state.admits(*sample)).collect();
        assert_eq!(admitted.len(), 0x8000, "bit {bit}, value {value:04X}");
        assert!(admitted.iter().all(|sample| (sample ^ value) >> bit & 1 == 1), "bit {bit}, value {value:04X}");
    }
}

/// Admission without the exception: an inverted state admits what its plain form does not, blank or not.
fn formerly_admits(mask: u16, value: u16, inverted: bool, sample: u16) -> bool {
    (value & mask == sample & mask) != inverted
}

/// Every mask with some values and samples: states that are not both blank and inverted admit what they formerly did.
#[test]
fn only_blank_inverted_states_changed() {
    let words = [0x0000, 0x0001, 0x8000, 0x00FF, 0x5AA5, 0xFFFF];
    for (mask, inverted) in (0..=u16::MAX).flat_map(|mask| [(mask, false), (mask, true)]) {
        for (value, sample) in words.into_iter().flat_map(|value| words.map(|sample| (value, sample))) {
            let admits = State::new(mask, value, 0, inverted).admits(sample);
            let changed = admits != formerly_admits(mask, value, inverted, sample);
            let label = format_args!("mask {mask:04X}, value {value:04X}, inverted {inverted}, sample {sample:04X}");
            assert_eq!(changed, mask == 0 && inverted, "{label}");
        }
    }
}

fn report(fires: bool, trials: usize, changes: &[i32]) -> Report {
    Report { fires, trials, changes: changes.to_vec() }
}

/// State 1 is blank and inverted, and stands at every node.
#[test]
fn a_blank_inverted_state_alone() {
    let given = Given { masks: &[0], ..given(&[0x00FF], &[0], 0b1, &[0x0000, 0x00FF, 0xFFFF]) };
    let (_, loaded) = Book::load(SESSION, ROOM, &given).unwrap();
    assert_eq!(loaded, report(true, 3, &[1, 65, 129]));
}

/// State 1, blank and inverted, admits both nodes; state 2 is 7 and admits node 0. Each is linked to the other.
#[test]
fn a_blank_inverted_state_in_a_ring() {
    let given = Given { masks: &[0, 0xFFFF], ..given(&[7, 7], &[0b10, 0b01], 0b01, &[7, 8]) };
    let (mut book, loaded) = Book::load(SESSION, ROOM, &given).unwrap();
    assert_eq!(loaded, report(false, 3, &[]));
    // State 2 is tried at node 0; node 1 leads nowhere yet.
    assert_eq!(book.insert(ROOM, 0, 1), Ok(report(false, 1, &[])));
    // The ring is closed: state 2 at node 0, state 1 at node 1.
    assert_eq!(book.insert(ROOM, 1, 0), Ok(report(true, 2, &[2, 65])));
    // State 1 admits 7 as well, and a loop at node 0 carries both states.
    assert_eq!(book.insert(ROOM, 0, 0), Ok(report(true, 1, &[1])));
    assert_eq!(book.delete(ROOM, 0, 1), Ok(report(true, 0, &[])));
    // From node 0 nothing leads on any more.
    assert_eq!(book.delete(ROOM, 0, 0), Ok(report(false, 3, &[-1, -2, -65])));
}

/// A state that is not there can not be inverted: rule 4, which comes before the rule of links.
#[test]
fn an_inversion_without_its_state() {
    for states in 1..=STATES {
        let (values, links) = (vec![0; states], vec![0; states]);
        for bit in 0..32 {
            let set = 1 << bit;
            let wanted = if bit < states { Ok(()) } else { Err(4) };
            assert_eq!(load(&given(&values, &links, set, &[])).map(|_| ()), wanted);
            // A trigger that has a state for each bit has no link that goes too far.
            if let Some(link) = 1u32.checked_shl(states as u32) {
                let wanted = if bit < states { Err(5) } else { Err(4) };
                assert_eq!(load(&given(&values, &vec![link; states], set, &[])).map(|_| ()), wanted);
            }
        }
    }
    assert_eq!(load(&given(&[], &[], 0, &[])), Err(4));
    assert_eq!(load(&given(&[0; STATES + 1], &[0; STATES + 1], 0, &[])), Err(4));
}

/// Word 3 holds the set, and marks are tested against admission as it says.
#[test]
fn the_set_in_memory() {
    // State 1 wants anything but 7, state 2 wants 7.
    let book = load(&given(&[7, 7], &[0, 0], 0b01, &[7, 8])).unwrap();
    let image = image_of(&book);
    assert_eq!(image[..MASKS_AT], [2, 2, 0, 0b01]);
    assert_eq!(image[MARKS_AT..][..2], [0b10, 0b01]);
    assert_eq!(held(&image), Some((book.trigger, book.graph, book.standing)));

    let mut unmarked = image.clone();
    unmarked[MARKS_AT..][..2].fill(0);
    for set in 0..8 {
        let with = |memory: &[u32]| {
            let mut memory = memory.to_vec();
            memory[INVERTED_AT] = set;
            held(&memory).map(|(trigger, _, _)| trigger.inverted_word())
        };
        assert_eq!(with(&image), (set == 0b01).then_some(set), "each of both has a mark");
        assert_eq!(with(&unmarked), (set < 4).then_some(set), "there are two states");
    }
}

/// The set holds the inversion of a blank state as it was given, and no mark of the state depends on it.
#[test]
fn a_blank_state_in_memory() {
    // State 1 is blank, state 2 wants anything but 7, and both are inverted.
    let given = Given { masks: &[0, 0xFFFF], ..given(&[7, 7], &[0, 0], 0b11, &[7, 8]) };
    let book = load(&given).unwrap();
    let image = image_of(&book);
    assert_eq!(image[..MASKS_AT + 2], [2, 2, 0, 0b11, 0, 0xFFFF]);
    assert_eq!(image[MARKS_AT..][..2], [0b01, 0b11]);
    assert_eq!(held(&image), Some((book.trigger, book.graph, book.standing)));

    for set in 0..4 {
        for marks in 0..16 {
            let mut memory = image.clone();
            memory[INVERTED_AT] = set;
            memory[MARKS_AT..][..2].copy_from_slice(&[marks & 3, marks >> 2]);
            // Marks of state 2 are at node 1 where it is inverted, and at node 0 where it is not.
            let stray = if set & 0b10 == 0 { 0b10 << 2 } else { 0b10 };
            let wanted = (marks & stray == 0).then_some(set);
            let kept = held(&memory).map(|(trigger, _, _)| trigger.inverted_word());
            assert_eq!(kept, wanted, "inverted {set:#b}, marks {marks:#b}");
        }
    }
}
