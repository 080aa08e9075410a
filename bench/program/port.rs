//! The port, called as any program calls it: the exported functions of crate `bindings` (clients/c/lundaspro.h).

use crate::states::Setting;

// The declarations are the Rust client's: both link the same archive.
#[allow(dead_code)]
#[path = "../../clients/rust/src/raw.rs"]
mod raw;

use raw::{
    lundaspro_flat_count, lundaspro_flat_draw, lundaspro_flat_initial_state, lundaspro_flat_observe, lundaspro_flat_page, lundaspro_flat_rank, lundaspro_flat_step,
    lundaspro_flat_validate, lundaspro_flat_check_image, lundaspro_flat_write_book, Event, Setting as FlatSetting,
};

pub const IMAGE_WORDS: usize = 9253;
pub const LIST_WORDS: usize = 20;
pub const PLANE_NUMBERS: usize = 5120;

pub fn setting(s: &Setting) -> FlatSetting {
    [s.num_snakes, i64::from(s.grid_size) as u64, s.initial_length, 0, 0, 0, s.initial_food_count, 0, 0]
}

// Each slice is whole and the written ones overlap nothing: all that the header asks of a caller. What is handed back is the lent array, zeros on a refusal.

#[inline(always)]
pub fn well_formed(image: &[u16]) -> bool {
    unsafe { lundaspro_flat_check_image(image.as_ptr(), image.len()) == 0 }
}

#[inline(always)]
pub fn validate(s: &FlatSetting) -> u64 {
    unsafe { lundaspro_flat_validate(s) }
}

/// How many words.
#[inline(always)]
pub fn initial_state(s: &FlatSetting, out: &mut [u16]) -> usize {
    let mut written = [0];
    unsafe { lundaspro_flat_initial_state(s, out.as_mut_ptr(), out.len(), &mut written) };
    written[0] as usize
}

/// How many words, and 1 where the match is over.
#[inline(always)]
pub fn step(s: &FlatSetting, image: &[u16], actions: &[u64], out: &mut [u16], events: &mut [Event; 8]) -> [u64; 2] {
    let (o, mut end) = (out.as_mut_ptr(), [0; 2]);
    unsafe { lundaspro_flat_step(s, image.as_ptr(), image.len(), actions.as_ptr(), actions.len(), o, out.len(), events, &mut end) };
    end
}

#[inline(always)]
pub fn count(image: &[u16]) -> u64 {
    let mut value = [0];
    unsafe { lundaspro_flat_count(image.as_ptr(), image.len(), &mut value) };
    value[0]
}

/// How many words, and how many cells.
#[inline(always)]
pub fn draw(image: &[u16], index: u64, out: &mut [u16], list: &mut [u16]) -> [usize; 2] {
    let (o, l, mut drawn) = (out.as_mut_ptr(), list.as_mut_ptr(), [0; 2]);
    unsafe { lundaspro_flat_draw(image.as_ptr(), image.len(), index, o, out.len(), l, list.len(), &mut drawn) };
    drawn.map(|n| n as usize)
}

#[inline(always)]
pub fn rank(image: &[u16], list: &[u16]) -> u64 {
    let mut index = [0];
    unsafe { lundaspro_flat_rank(image.as_ptr(), image.len(), list.as_ptr(), list.len(), &mut index) };
    index[0]
}

/// How many numbers.
#[inline(always)]
pub fn observe(image: &[u16], agent: u64, obs: &mut [f32]) -> usize {
    let mut written = [0];
    unsafe { lundaspro_flat_observe(image.as_ptr(), image.len(), agent, obs.as_mut_ptr(), obs.len(), &mut written) };
    written[0] as usize
}

/// How many words.
#[inline(always)]
pub fn write_book(s: &FlatSetting, pages: u64, row: &[u16], out: &mut [u16]) -> usize {
    let mut written = [0];
    unsafe { lundaspro_flat_write_book(s, pages, row.as_ptr(), row.len(), out.as_mut_ptr(), out.len(), &mut written) };
    written[0] as usize
}

/// Where it starts, and how many words.
#[inline(always)]
pub fn page(book: &[u16], page: u64) -> [usize; 2] {
    let mut part = [0; 2];
    unsafe { lundaspro_flat_page(book.as_ptr(), book.len(), page, &mut part) };
    part.map(|n| n as usize)
}
