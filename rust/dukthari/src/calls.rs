//! The C calls, and all that is `unsafe` in this crate. Each takes every number and every length: its contract has no `requires`, and it
//! touches no memory but its answer and the slices lent to it. That these do not overlap is Rust's own rule.
use crate::answers::{Counted, Done, MapAnswer, NodeAnswer, PlaceAnswer, StepAnswer, VerdictAnswer};
use crate::{Component, Place, Sizes};

extern "C" {
    fn dk_number(w: u32, h: u32, d: u32, x: u32, y: u32, z: u32) -> NodeAnswer;
    fn dk_place(w: u32, h: u32, d: u32, node: u32) -> PlaceAnswer;
    fn dk_step(w: u32, h: u32, d: u32, x: u32, y: u32, z: u32, direction: u32) -> StepAnswer;
    fn dk_marks(w: u32, h: u32, d: u32, orientation: u32, cells: *const u8, cells_len: usize, out: *mut u8, out_len: usize) -> Done;
    fn dk_components(
        w: u32,
        h: u32,
        d: u32,
        orientation: u32,
        cells: *const u8,
        cells_len: usize,
        table: *mut u16,
        table_len: usize,
        row: *mut Component,
        row_len: usize,
    ) -> Counted;
    fn dk_verdict(w: u32, h: u32, d: u32, start: u32, end: u32, cells: *const u8, cells_len: usize) -> VerdictAnswer;
    fn dk_route(w: u32, h: u32, d: u32, start: u32, end: u32, cells: *const u8, cells_len: usize, out: *mut u16, out_len: usize)
        -> Counted;
    fn dk_reached(
        w: u32,
        h: u32,
        d: u32,
        start: u32,
        end: u32,
        cells: *const u8,
        cells_len: usize,
        out: *mut u8,
        out_len: usize,
    ) -> Counted;
    fn dk_fresh(w: u32, h: u32, d: u32, orientation: u32, cells: *const u8, cells_len: usize, state: *mut u8, state_len: usize) -> Done;
    fn dk_sound(w: u32, h: u32, d: u32, orientation: u32, state: *const u8, state_len: usize) -> Done;
    fn dk_outstanding(w: u32, h: u32, d: u32, orientation: u32, state: *const u8, state_len: usize) -> Counted;
    fn dk_hear(
        w: u32,
        h: u32,
        d: u32,
        orientation: u32,
        listener: u32,
        direction: u32,
        word: u32,
        state: *mut u8,
        state_len: usize,
    ) -> Done;
    fn dk_read_map(file: *const u8, file_len: usize, cells: *mut u8, cells_len: usize) -> MapAnswer;
    fn dk_write_map(w: u32, h: u32, d: u32, cells: *const u8, cells_len: usize, out: *mut u8, out_len: usize) -> Counted;
}

/// `dk_number`, as [`Sizes::number`] has it.
#[inline]
pub fn number(s: Sizes, p: Place) -> NodeAnswer {
    unsafe { dk_number(s.w, s.h, s.d, p.x, p.y, p.z) }
}

/// `dk_place`, as [`Sizes::place`] has it.
#[inline]
pub fn place(s: Sizes, node: u32) -> PlaceAnswer {
    unsafe { dk_place(s.w, s.h, s.d, node) }
}

/// `dk_step`, as [`Sizes::step`] has it.
#[inline]
pub fn step(s: Sizes, p: Place, direction: u32) -> StepAnswer {
    unsafe { dk_step(s.w, s.h, s.d, p.x, p.y, p.z, direction) }
}

/// `dk_marks`, as [`Sizes::marks`] has it.
#[inline]
pub fn marks(s: Sizes, orientation: u32, cells: &[u8], out: &mut [u8]) -> Done {
    unsafe { dk_marks(s.w, s.h, s.d, orientation, cells.as_ptr(), cells.len(), out.as_mut_ptr(), out.len()) }
}

/// `dk_components`, as [`Sizes::components`] has it.
#[inline]
pub fn components(s: Sizes, orientation: u32, cells: &[u8], table: &mut [u16], row: &mut [Component]) -> Counted {
    let (to, row_to) = (table.as_mut_ptr(), row.as_mut_ptr());
    unsafe { dk_components(s.w, s.h, s.d, orientation, cells.as_ptr(), cells.len(), to, table.len(), row_to, row.len()) }
}

/// `dk_verdict`, as [`Sizes::verdict`] has it.
#[inline]
pub fn verdict(s: Sizes, start: u32, end: u32, cells: &[u8]) -> VerdictAnswer {
    unsafe { dk_verdict(s.w, s.h, s.d, start, end, cells.as_ptr(), cells.len()) }
}

/// `dk_route`, as [`Sizes::route`] has it.
#[inline]
pub fn route(s: Sizes, start: u32, end: u32, cells: &[u8], out: &mut [u16]) -> Counted {
    unsafe { dk_route(s.w, s.h, s.d, start, end, cells.as_ptr(), cells.len(), out.as_mut_ptr(), out.len()) }
}

/// `dk_reached`, as [`Sizes::reached`] has it.
#[inline]
pub fn reached(s: Sizes, start: u32, end: u32, cells: &[u8], out: &mut [u8]) -> Counted {
    unsafe { dk_reached(s.w, s.h, s.d, start, end, cells.as_ptr(), cells.len(), out.as_mut_ptr(), out.len()) }
}

/// `dk_fresh`, as [`Sizes::fresh`] has it.
#[inline]
pub fn fresh(s: Sizes, orientation: u32, cells: &[u8], state: &mut [u8]) -> Done {
    unsafe { dk_fresh(s.w, s.h, s.d, orientation, cells.as_ptr(), cells.len(), state.as_mut_ptr(), state.len()) }
}

/// `dk_sound`, as [`Sizes::sound`] has it.
#[inline]
pub fn sound(s: Sizes, orientation: u32, state: &[u8]) -> Done {
    unsafe { dk_sound(s.w, s.h, s.d, orientation, state.as_ptr(), state.len()) }
}

/// `dk_outstanding`, as [`Sizes::outstanding`] has it.
#[inline]
pub fn outstanding(s: Sizes, orientation: u32, state: &[u8]) -> Counted {
    unsafe { dk_outstanding(s.w, s.h, s.d, orientation, state.as_ptr(), state.len()) }
}

/// `dk_hear`, as [`Sizes::hear`] has it.
#[inline]
pub fn hear(s: Sizes, orientation: u32, listener: u32, direction: u32, word: u32, state: &mut [u8]) -> Done {
    unsafe { dk_hear(s.w, s.h, s.d, orientation, listener, direction, word, state.as_mut_ptr(), state.len()) }
}

/// `dk_read_map`, as [`Sizes::read_map`] has it.
#[inline]
pub fn read_map(file: &[u8], cells: &mut [u8]) -> MapAnswer {
    unsafe { dk_read_map(file.as_ptr(), file.len(), cells.as_mut_ptr(), cells.len()) }
}

/// `dk_write_map`, as [`Sizes::write_map`] has it.
#[inline]
pub fn write_map(s: Sizes, cells: &[u8], out: &mut [u8]) -> Counted {
    unsafe { dk_write_map(s.w, s.h, s.d, cells.as_ptr(), cells.len(), out.as_mut_ptr(), out.len()) }
}
