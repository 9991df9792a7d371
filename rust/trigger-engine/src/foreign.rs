//! The calls of the archive. All unsafe code of this crate is here.
//!
//! One reason holds for every block below: the archive reads and writes the slices that it is handed and nothing else,
//! each as a pointer with its length; the slices come from references, so they are valid for the length of the call, and
//! those that are written are borrowed for the caller alone and so overlap with no other. The archive keeps no pointer.
#![allow(unsafe_code)]

use crate::lent::{Answer, Load};

mod archive {
    unsafe extern "C" {
        pub safe fn trigger_session_words() -> usize;
        pub safe fn trigger_change_places() -> usize;
        pub unsafe fn trigger_load(
            session: *mut u32,
            session_length: usize,
            masks: *const u16,
            masks_length: usize,
            values: *const u16,
            values_length: usize,
            links: *const u32,
            links_length: usize,
            inverted: u32,
            samples: *const u16,
            samples_length: usize,
            starts: *const u32,
            starts_length: usize,
            ends: *const u32,
            ends_length: usize,
            changes: *mut i32,
            changes_length: usize,
        ) -> u64;
        pub unsafe fn trigger_insert(
            session: *mut u32,
            session_length: usize,
            start: u32,
            end: u32,
            changes: *mut i32,
            changes_length: usize,
        ) -> u64;
        pub unsafe fn trigger_delete(
            session: *mut u32,
            session_length: usize,
            start: u32,
            end: u32,
            changes: *mut i32,
            changes_length: usize,
        ) -> u64;
        pub unsafe fn trigger_matches(session: *const u32, session_length: usize, state: u32, node: u32) -> u64;
        pub unsafe fn trigger_fires(session: *const u32, session_length: usize) -> u64;
        pub unsafe fn trigger_order(
            session: *const u32,
            session_length: usize,
            states: *mut u8,
            states_length: usize,
        ) -> u64;
    }
}

pub fn session_words() -> usize {
    archive::trigger_session_words()
}

pub fn change_places() -> usize {
    archive::trigger_change_places()
}

pub fn load(session: &mut [u32], load: &Load, changes: &mut [i32]) -> Answer {
    // SAFETY: each pointer comes with the length of its slice; session and changes are borrowed for this call alone.
    Answer(unsafe {
        archive::trigger_load(
            session.as_mut_ptr(),
            session.len(),
            load.masks.as_ptr(),
            load.masks.len(),
            load.values.as_ptr(),
            load.values.len(),
            load.links.as_ptr(),
            load.links.len(),
            load.inverted,
            load.samples.as_ptr(),
            load.samples.len(),
            load.starts.as_ptr(),
            load.starts.len(),
            load.ends.as_ptr(),
            load.ends.len(),
            changes.as_mut_ptr(),
            changes.len(),
        )
    })
}

pub fn insert(session: &mut [u32], start: u32, end: u32, changes: &mut [i32]) -> Answer {
    let (words, places) = (session.len(), changes.len());
    // SAFETY: both pointers come with the length of their slices, which are borrowed for this call alone.
    Answer(unsafe { archive::trigger_insert(session.as_mut_ptr(), words, start, end, changes.as_mut_ptr(), places) })
}

pub fn delete(session: &mut [u32], start: u32, end: u32, changes: &mut [i32]) -> Answer {
    let (words, places) = (session.len(), changes.len());
    // SAFETY: both pointers come with the length of their slices, which are borrowed for this call alone.
    Answer(unsafe { archive::trigger_delete(session.as_mut_ptr(), words, start, end, changes.as_mut_ptr(), places) })
}

pub fn matches(session: &[u32], state: u32, node: u32) -> Answer {
    // SAFETY: the pointer comes with the length of its slice, which is only read.
    Answer(unsafe { archive::trigger_matches(session.as_ptr(), session.len(), state, node) })
}

pub fn fires(session: &[u32]) -> Answer {
    // SAFETY: the pointer comes with the length of its slice, which is only read.
    Answer(unsafe { archive::trigger_fires(session.as_ptr(), session.len()) })
}

pub fn order(session: &[u32], states: &mut [u8]) -> Answer {
    // SAFETY: both pointers come with the length of their slices; the one that is written is borrowed for this call alone.
    Answer(unsafe { archive::trigger_order(session.as_ptr(), session.len(), states.as_mut_ptr(), states.len()) })
}
