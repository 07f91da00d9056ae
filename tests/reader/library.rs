//! The independent reader as an archive for C under names of its own, and the fuzz target's mutations:
//! see exports.rs and fuzz.rs. Built with `--cfg own_names` by tests/fuzz/run.sh.
#![allow(dead_code)]

mod abi;
mod backward;
mod compare;
mod events;
mod exports;
mod fuzz;
mod made;
mod made_stores;
mod record;
mod replay;
mod ring;
mod rules;
mod store;
mod salvage;
mod words;
mod writer;

/// What ringdump prints for an input, and its length; at most `room` bytes of it are put down.
#[no_mangle]
pub unsafe extern "C" fn reader_print(input: *const u8, input_len: usize, text: *mut u8, room: usize) -> usize {
    let printed = ring::program_output(exports::lent(input, input_len));
    let bytes = &printed.as_bytes()[..printed.len().min(room)];
    exports::lent_mut(text, bytes.len()).copy_from_slice(bytes);
    printed.len()
}

/// One mutation of a fuzz input of `size` bytes in a buffer of `most`; the new size.
#[no_mangle]
pub unsafe extern "C" fn reader_mutate(input: *mut u8, size: usize, most: usize, seed: u32) -> usize {
    let mutated = fuzz::mutated(exports::lent(input, size), most, u64::from(seed));
    exports::lent_mut(input, mutated.len()).copy_from_slice(&mutated);
    mutated.len()
}
