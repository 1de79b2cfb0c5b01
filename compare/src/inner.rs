//! The walk of one line by the function that a build calls, in the Rust's mode and in the covering mode: it leaves the scratch beyond the cells as it comes.
//! And the ordering of a walk's cells.
//! They are no part of the library, and their archive stands apart. `tools/declarations` writes what stands between the marks.

#![allow(clippy::too_many_arguments)]

// ---- written by tools/declarations: from here
extern "C" {
    fn mt_inner_cover(sizes: *const f64, sizes_len: usize, cols: u32, rows: u32, start_x: f64, start_y: f64, end_x: f64, end_y: f64,
        scratch: *mut u32, scratch_len: usize, out: *mut u64, out_len: usize) -> u32;
    fn mt_inner_order(entries: *mut u32, entries_len: usize) -> u32;
    fn mt_inner_walk(sizes: *const f64, sizes_len: usize, cols: u32, rows: u32, start_x: f64, start_y: f64, end_x: f64, end_y: f64,
        scratch: *mut u32, scratch_len: usize, out: *mut u64, out_len: usize) -> u32;
}

/// `mt_inner_cover` of the crate `inner_walk`.
#[inline]
pub fn inner_cover(sizes: &[f64], cols: u32, rows: u32, start_x: f64, start_y: f64, end_x: f64, end_y: f64, scratch: &mut [u32],
    out: &mut [u64]) -> u32 {
    // SAFETY: numbers by value, and Rust slices that are lent for this call.
    unsafe { mt_inner_cover(sizes.as_ptr(), sizes.len(), cols, rows, start_x, start_y, end_x, end_y, scratch.as_mut_ptr(), scratch.len(),
        out.as_mut_ptr(), out.len()) }
}

/// `mt_inner_order` of the crate `inner_walk`.
#[inline]
pub fn inner_order(entries: &mut [u32]) -> u32 {
    // SAFETY: numbers by value, and Rust slices that are lent for this call.
    unsafe { mt_inner_order(entries.as_mut_ptr(), entries.len()) }
}

/// `mt_inner_walk` of the crate `inner_walk`.
#[inline]
pub fn inner_walk(sizes: &[f64], cols: u32, rows: u32, start_x: f64, start_y: f64, end_x: f64, end_y: f64, scratch: &mut [u32],
    out: &mut [u64]) -> u32 {
    // SAFETY: numbers by value, and Rust slices that are lent for this call.
    unsafe { mt_inner_walk(sizes.as_ptr(), sizes.len(), cols, rows, start_x, start_y, end_x, end_y, scratch.as_mut_ptr(), scratch.len(),
        out.as_mut_ptr(), out.len()) }
}
// ---- written by tools/declarations: to here
