//! The exported functions of the library as the C header has them: numbers and slices go in, the answer is a number, with words in `out`. A
//! safe function over each; the rest of this crate answers in Rust's way. All that is `unsafe` in this crate is here.
//!
//! Why each call is sound. `include/morelturret.h` asks three things of its caller: that a slice's address is aligned and not null, also where
//! the length is 0; that so many entries stand there; and that a slice that is written overlaps no other slice of the call. `as_ptr` and
//! `as_mut_ptr` of a Rust slice give the first two, for an empty slice too, and `&mut` gives the third. Everything else is checked by the
//! library, which ends on every argument, keeps nothing after a call and has no state. It writes whole entries of numbers, and every pattern
//! of bits is one. `tools/declarations` writes the declarations and the functions from the crate that exports them.

#![allow(clippy::too_many_arguments)]

// ---- written by tools/declarations: from here
extern "C" {
    fn mt_least(a: f64, b: f64) -> f64;
    fn mt_greatest(a: f64, b: f64) -> f64;
    fn mt_magnitude(v: f64) -> f64;
    fn mt_floor(v: f64) -> f64;
    fn mt_clamped_floor(v: f64, count: u32) -> u32;
    fn mt_ceiling(v: f64) -> u64;
    fn mt_round_half_away(v: f64) -> f64;
    fn mt_square_root(v: f64) -> f64;
    fn mt_snap(x: f64, y: f64, size: f64, strategy: u32, out: *mut u64, out_len: usize) -> u32;
    fn mt_strategies_agree(v: f64, size: f64, out: *mut u64, out_len: usize) -> u32;
    fn mt_point_owned(grid: *const u64, grid_len: usize, row: u32, col: u32, x: f64, y: f64, out: *mut u64, out_len: usize) -> u32;
    fn mt_overlap_owned(grid: *const u64, grid_len: usize, row: u32, col: u32, x: f64, y: f64, size: f64, strategy: u32,
        out: *mut u64, out_len: usize) -> u32;
    fn mt_owner(grid: *const u64, grid_len: usize, x: f64, y: f64, out: *mut u64, out_len: usize) -> u32;
    fn mt_owners(grid: *const u64, grid_len: usize, x: *const f64, x_len: usize, y: *const f64, y_len: usize,
        answers: *mut u32, answers_len: usize, out: *mut u64, out_len: usize) -> u32;
    fn mt_segment_cells(grid: *const u64, grid_len: usize, start_x: f64, start_y: f64, end_x: f64, end_y: f64, mode: u32,
        scratch: *mut u32, scratch_len: usize, out: *mut u64, out_len: usize) -> u32;
    fn mt_build(start_x: *const f64, start_x_len: usize, start_y: *const f64, start_y_len: usize, end_x: *const f64, end_x_len: usize,
        end_y: *const f64, end_y_len: usize, sizing: u32, mode: u32, offsets: *mut u32, offsets_len: usize,
        items: *mut u32, items_len: usize, globals: *mut u32, globals_len: usize, scratch: *mut u32, scratch_len: usize,
        out: *mut u64, out_len: usize) -> u32;
    fn mt_agreed_grid(start_x: f64, start_y: f64, end_x: f64, end_y: f64, lines: usize, sizing: u32, out: *mut u64, out_len: usize) -> u32;
    fn mt_count(start_x: *const f64, start_x_len: usize, start_y: *const f64, start_y_len: usize, end_x: *const f64, end_x_len: usize,
        end_y: *const f64, end_y_len: usize, grid: *const u64, grid_len: usize, mode: u32, counts: *mut u32, counts_len: usize,
        scratch: *mut u32, scratch_len: usize, out: *mut u64, out_len: usize) -> u32;
    fn mt_add(into: *mut u32, into_len: usize, from: *const u32, from_len: usize, out: *mut u64, out_len: usize) -> u32;
    fn mt_tables_on(start_x: *const f64, start_x_len: usize, start_y: *const f64, start_y_len: usize, end_x: *const f64, end_x_len: usize,
        end_y: *const f64, end_y_len: usize, grid: *const u64, grid_len: usize, mode: u32, offsets: *mut u32, offsets_len: usize,
        items: *mut u32, items_len: usize, globals: *mut u32, globals_len: usize, scratch: *mut u32, scratch_len: usize,
        out: *mut u64, out_len: usize) -> u32;
    fn mt_add_line(grid: *const u64, grid_len: usize, mode: u32, start_x: f64, start_y: f64, end_x: f64, end_y: f64, lines: usize,
        offsets: *mut u32, offsets_len: usize, items: *mut u32, items_len: usize, globals: *mut u32, globals_len: usize, global_count: u64,
        scratch: *mut u32, scratch_len: usize, out: *mut u64, out_len: usize) -> u32;
    fn mt_check_tables(grid: *const u64, grid_len: usize, lines: usize, offsets: *const u32, offsets_len: usize,
        items: *const u32, items_len: usize, globals: *const u32, globals_len: usize, global_count: u64,
        out: *mut u64, out_len: usize) -> u32;
    fn mt_cell_list(grid: *const u64, grid_len: usize, lines: usize, offsets: *const u32, offsets_len: usize,
        items: *const u32, items_len: usize, globals: *const u32, globals_len: usize, global_count: u64, row: u32, col: u32,
        out: *mut u64, out_len: usize) -> u32;
    fn mt_global_list(grid: *const u64, grid_len: usize, lines: usize, offsets: *const u32, offsets_len: usize,
        items: *const u32, items_len: usize, globals: *const u32, globals_len: usize, global_count: u64, position: u64,
        out: *mut u64, out_len: usize) -> u32;
    fn mt_test_at(grid: *const u64, grid_len: usize, start_x: *const f64, start_x_len: usize, start_y: *const f64, start_y_len: usize,
        end_x: *const f64, end_x_len: usize, end_y: *const f64, end_y_len: usize, offsets: *const u32, offsets_len: usize,
        items: *const u32, items_len: usize, globals: *const u32, globals_len: usize, global_count: u64, bookmark: u64,
        out: *mut u64, out_len: usize) -> u32;
    fn mt_visit_cost(grid: *const u64, grid_len: usize, lines: usize, offsets: *const u32, offsets_len: usize,
        items: *const u32, items_len: usize, globals: *const u32, globals_len: usize, global_count: u64,
        out: *mut u64, out_len: usize) -> u32;
    fn mt_lists_by_line(grid: *const u64, grid_len: usize, lines: usize, offsets: *const u32, offsets_len: usize,
        items: *const u32, items_len: usize, globals: *const u32, globals_len: usize, global_count: u64,
        starts: *mut u32, starts_len: usize, listing: *mut u32, listing_len: usize, out: *mut u64, out_len: usize) -> u32;
    fn mt_batch(grid: *const u64, grid_len: usize, start_x: *const f64, start_x_len: usize, start_y: *const f64, start_y_len: usize,
        end_x: *const f64, end_x_len: usize, end_y: *const f64, end_y_len: usize, offsets: *const u32, offsets_len: usize,
        items: *const u32, items_len: usize, globals: *const u32, globals_len: usize, global_count: u64, bookmark: u64,
        first: *mut u32, first_len: usize, second: *mut u32, second_len: usize, out: *mut u64, out_len: usize) -> u32;
    fn mt_batch_places(grid: *const u64, grid_len: usize, start_x: *const f64, start_x_len: usize, start_y: *const f64, start_y_len: usize,
        end_x: *const f64, end_x_len: usize, end_y: *const f64, end_y_len: usize, offsets: *const u32, offsets_len: usize,
        items: *const u32, items_len: usize, globals: *const u32, globals_len: usize, global_count: u64, bookmark: u64,
        first: *mut u32, first_len: usize, second: *mut u32, second_len: usize, places: *mut u32, places_len: usize,
        out: *mut u64, out_len: usize) -> u32;
    fn mt_start(grid: *const u64, grid_len: usize, start_x: *const f64, start_x_len: usize, start_y: *const f64, start_y_len: usize,
        end_x: *const f64, end_x_len: usize, end_y: *const f64, end_y_len: usize, offsets: *const u32, offsets_len: usize,
        items: *const u32, items_len: usize, globals: *const u32, globals_len: usize, global_count: u64, bookmark: u64,
        out: *mut u64, out_len: usize) -> u32;
    fn mt_next_unchecked(grid: *const u64, grid_len: usize, start_x: *const f64, start_x_len: usize,
        start_y: *const f64, start_y_len: usize, end_x: *const f64, end_x_len: usize, end_y: *const f64, end_y_len: usize,
        offsets: *const u32, offsets_len: usize, items: *const u32, items_len: usize, globals: *const u32, globals_len: usize,
        global_count: u64, place: u64, i: u64, j: u64, first: *mut u32, first_len: usize, second: *mut u32, second_len: usize,
        out: *mut u64, out_len: usize) -> u32;
    fn mt_pairs_once(grid: *const u64, grid_len: usize, start_x: *const f64, start_x_len: usize, start_y: *const f64, start_y_len: usize,
        end_x: *const f64, end_x_len: usize, end_y: *const f64, end_y_len: usize, offsets: *const u32, offsets_len: usize,
        items: *const u32, items_len: usize, globals: *const u32, globals_len: usize, global_count: u64, first: *mut u32, first_len: usize,
        second: *mut u32, second_len: usize, starts: *mut u32, starts_len: usize, listing: *mut u32, listing_len: usize,
        counts: *mut u32, counts_len: usize, out: *mut u64, out_len: usize) -> u32;
    fn mt_window(grid: *const u64, grid_len: usize, start_x: *const f64, start_x_len: usize, start_y: *const f64, start_y_len: usize,
        end_x: *const f64, end_x_len: usize, end_y: *const f64, end_y_len: usize, offsets: *const u32, offsets_len: usize,
        items: *const u32, items_len: usize, globals: *const u32, globals_len: usize, global_count: u64, low_x: f64, low_y: f64,
        high_x: f64, high_y: f64, found: *mut u32, found_len: usize, out: *mut u64, out_len: usize) -> u32;
    fn mt_crossings(grid: *const u64, grid_len: usize, start_x: *const i32, start_x_len: usize, start_y: *const i32, start_y_len: usize,
        end_x: *const i32, end_x_len: usize, end_y: *const i32, end_y_len: usize, offsets: *const u32, offsets_len: usize,
        items: *const u32, items_len: usize, globals: *const u32, globals_len: usize, global_count: u64, first: *mut u32, first_len: usize,
        second: *mut u32, second_len: usize, starts: *mut u32, starts_len: usize, listing: *mut u32, listing_len: usize,
        counts: *mut u32, counts_len: usize, out: *mut u64, out_len: usize) -> u32;
    fn mt_block_counts(grid: *const u64, grid_len: usize, lines: usize, offsets: *const u32, offsets_len: usize,
        items: *const u32, items_len: usize, globals: *const u32, globals_len: usize, global_count: u64,
        summary: *mut u32, summary_len: usize, out: *mut u64, out_len: usize) -> u32;
    fn mt_items_in_blocks(grid: *const u64, grid_len: usize, summary: *const u32, summary_len: usize, low_row: u32, low_col: u32,
        high_row: u32, high_col: u32, out: *mut u64, out_len: usize) -> u32;
    fn mt_add_line_blocks(grid: *const u64, grid_len: usize, mode: u32, start_x: f64, start_y: f64, end_x: f64, end_y: f64, lines: usize,
        offsets: *mut u32, offsets_len: usize, items: *mut u32, items_len: usize, globals: *mut u32, globals_len: usize, global_count: u64,
        summary: *mut u32, summary_len: usize, scratch: *mut u32, scratch_len: usize, out: *mut u64, out_len: usize) -> u32;
    fn mt_read_line_string(bytes: *const u8, bytes_len: usize, x: *mut f64, x_len: usize, y: *mut f64, y_len: usize,
        out: *mut u64, out_len: usize) -> u32;
    fn mt_read_multi_line_string(bytes: *const u8, bytes_len: usize, x: *mut u64, x_len: usize, y: *mut u64, y_len: usize,
        lengths: *mut u32, lengths_len: usize, out: *mut u64, out_len: usize) -> u32;
    fn mt_write_multi_line_string(x: *const u64, x_len: usize, y: *const u64, y_len: usize, lengths: *const u32, lengths_len: usize,
        bytes: *mut u8, bytes_len: usize, out: *mut u64, out_len: usize) -> u32;
    fn mt_lines_of_members(x: *const u64, x_len: usize, y: *const u64, y_len: usize, lengths: *const u32, lengths_len: usize,
        start_x: *mut f64, start_x_len: usize, start_y: *mut f64, start_y_len: usize, end_x: *mut f64, end_x_len: usize,
        end_y: *mut f64, end_y_len: usize, out: *mut u64, out_len: usize) -> u32;
    fn mt_clean(x: *const u64, x_len: usize, y: *const u64, y_len: usize, lengths: *const u32, lengths_len: usize,
        kept_x: *mut u64, kept_x_len: usize, kept_y: *mut u64, kept_y_len: usize, kept_lengths: *mut u32, kept_lengths_len: usize,
        reasons: *mut u32, reasons_len: usize, out: *mut u64, out_len: usize) -> u32;
}

/// `mt_least` of the header.
#[inline]
pub fn least(a: f64, b: f64) -> f64 {
    // SAFETY: numbers by value alone.
    unsafe { mt_least(a, b) }
}

/// `mt_greatest` of the header.
#[inline]
pub fn greatest(a: f64, b: f64) -> f64 {
    // SAFETY: numbers by value alone.
    unsafe { mt_greatest(a, b) }
}

/// `mt_magnitude` of the header.
#[inline]
pub fn magnitude(v: f64) -> f64 {
    // SAFETY: numbers by value alone.
    unsafe { mt_magnitude(v) }
}

/// `mt_floor` of the header.
#[inline]
pub fn floor(v: f64) -> f64 {
    // SAFETY: numbers by value alone.
    unsafe { mt_floor(v) }
}

/// `mt_clamped_floor` of the header.
#[inline]
pub fn clamped_floor(v: f64, count: u32) -> u32 {
    // SAFETY: numbers by value alone.
    unsafe { mt_clamped_floor(v, count) }
}

/// `mt_ceiling` of the header.
#[inline]
pub fn ceiling(v: f64) -> u64 {
    // SAFETY: numbers by value alone.
    unsafe { mt_ceiling(v) }
}

/// `mt_round_half_away` of the header.
#[inline]
pub fn round_half_away(v: f64) -> f64 {
    // SAFETY: numbers by value alone.
    unsafe { mt_round_half_away(v) }
}

/// `mt_square_root` of the header.
#[inline]
pub fn square_root(v: f64) -> f64 {
    // SAFETY: numbers by value alone.
    unsafe { mt_square_root(v) }
}

/// `mt_snap` of the header.
#[inline]
pub fn snap(x: f64, y: f64, size: f64, strategy: u32, out: &mut [u64]) -> u32 {
    // SAFETY: numbers by value, and Rust slices that are lent for this call.
    unsafe { mt_snap(x, y, size, strategy, out.as_mut_ptr(), out.len()) }
}

/// `mt_strategies_agree` of the header.
#[inline]
pub fn strategies_agree(v: f64, size: f64, out: &mut [u64]) -> u32 {
    // SAFETY: numbers by value, and Rust slices that are lent for this call.
    unsafe { mt_strategies_agree(v, size, out.as_mut_ptr(), out.len()) }
}

/// `mt_point_owned` of the header.
#[inline]
pub fn point_owned(grid: &[u64], row: u32, col: u32, x: f64, y: f64, out: &mut [u64]) -> u32 {
    // SAFETY: numbers by value, and Rust slices that are lent for this call.
    unsafe { mt_point_owned(grid.as_ptr(), grid.len(), row, col, x, y, out.as_mut_ptr(), out.len()) }
}

/// `mt_overlap_owned` of the header.
#[inline]
pub fn overlap_owned(grid: &[u64], row: u32, col: u32, x: f64, y: f64, size: f64, strategy: u32, out: &mut [u64]) -> u32 {
    // SAFETY: numbers by value, and Rust slices that are lent for this call.
    unsafe { mt_overlap_owned(grid.as_ptr(), grid.len(), row, col, x, y, size, strategy, out.as_mut_ptr(), out.len()) }
}

/// `mt_owner` of the header.
#[inline]
pub fn owner(grid: &[u64], x: f64, y: f64, out: &mut [u64]) -> u32 {
    // SAFETY: numbers by value, and Rust slices that are lent for this call.
    unsafe { mt_owner(grid.as_ptr(), grid.len(), x, y, out.as_mut_ptr(), out.len()) }
}

/// `mt_owners` of the header.
#[inline]
pub fn owners(grid: &[u64], x: &[f64], y: &[f64], answers: &mut [u32], out: &mut [u64]) -> u32 {
    // SAFETY: numbers by value, and Rust slices that are lent for this call.
    unsafe { mt_owners(grid.as_ptr(), grid.len(), x.as_ptr(), x.len(), y.as_ptr(), y.len(), answers.as_mut_ptr(), answers.len(),
        out.as_mut_ptr(), out.len()) }
}

/// `mt_segment_cells` of the header.
#[inline]
pub fn segment_cells(grid: &[u64], start_x: f64, start_y: f64, end_x: f64, end_y: f64, mode: u32, scratch: &mut [u32],
    out: &mut [u64]) -> u32 {
    // SAFETY: numbers by value, and Rust slices that are lent for this call.
    unsafe { mt_segment_cells(grid.as_ptr(), grid.len(), start_x, start_y, end_x, end_y, mode, scratch.as_mut_ptr(), scratch.len(),
        out.as_mut_ptr(), out.len()) }
}

/// `mt_build` of the header.
#[inline]
pub fn build(start_x: &[f64], start_y: &[f64], end_x: &[f64], end_y: &[f64], sizing: u32, mode: u32, offsets: &mut [u32], items: &mut [u32],
    globals: &mut [u32], scratch: &mut [u32], out: &mut [u64]) -> u32 {
    // SAFETY: numbers by value, and Rust slices that are lent for this call.
    unsafe { mt_build(start_x.as_ptr(), start_x.len(), start_y.as_ptr(), start_y.len(), end_x.as_ptr(), end_x.len(),
        end_y.as_ptr(), end_y.len(), sizing, mode, offsets.as_mut_ptr(), offsets.len(), items.as_mut_ptr(), items.len(),
        globals.as_mut_ptr(), globals.len(), scratch.as_mut_ptr(), scratch.len(), out.as_mut_ptr(), out.len()) }
}

/// `mt_agreed_grid` of the header.
#[inline]
pub fn agreed_grid(start_x: f64, start_y: f64, end_x: f64, end_y: f64, lines: usize, sizing: u32, out: &mut [u64]) -> u32 {
    // SAFETY: numbers by value, and Rust slices that are lent for this call.
    unsafe { mt_agreed_grid(start_x, start_y, end_x, end_y, lines, sizing, out.as_mut_ptr(), out.len()) }
}

/// `mt_count` of the header.
#[inline]
pub fn count(start_x: &[f64], start_y: &[f64], end_x: &[f64], end_y: &[f64], grid: &[u64], mode: u32, counts: &mut [u32],
    scratch: &mut [u32], out: &mut [u64]) -> u32 {
    // SAFETY: numbers by value, and Rust slices that are lent for this call.
    unsafe { mt_count(start_x.as_ptr(), start_x.len(), start_y.as_ptr(), start_y.len(), end_x.as_ptr(), end_x.len(),
        end_y.as_ptr(), end_y.len(), grid.as_ptr(), grid.len(), mode, counts.as_mut_ptr(), counts.len(),
        scratch.as_mut_ptr(), scratch.len(), out.as_mut_ptr(), out.len()) }
}

/// `mt_add` of the header.
#[inline]
pub fn add(into: &mut [u32], from: &[u32], out: &mut [u64]) -> u32 {
    // SAFETY: numbers by value, and Rust slices that are lent for this call.
    unsafe { mt_add(into.as_mut_ptr(), into.len(), from.as_ptr(), from.len(), out.as_mut_ptr(), out.len()) }
}

/// `mt_tables_on` of the header.
#[inline]
pub fn tables_on(start_x: &[f64], start_y: &[f64], end_x: &[f64], end_y: &[f64], grid: &[u64], mode: u32, offsets: &mut [u32],
    items: &mut [u32], globals: &mut [u32], scratch: &mut [u32], out: &mut [u64]) -> u32 {
    // SAFETY: numbers by value, and Rust slices that are lent for this call.
    unsafe { mt_tables_on(start_x.as_ptr(), start_x.len(), start_y.as_ptr(), start_y.len(), end_x.as_ptr(), end_x.len(),
        end_y.as_ptr(), end_y.len(), grid.as_ptr(), grid.len(), mode, offsets.as_mut_ptr(), offsets.len(), items.as_mut_ptr(), items.len(),
        globals.as_mut_ptr(), globals.len(), scratch.as_mut_ptr(), scratch.len(), out.as_mut_ptr(), out.len()) }
}

/// `mt_add_line` of the header.
#[inline]
pub fn add_line(grid: &[u64], mode: u32, start_x: f64, start_y: f64, end_x: f64, end_y: f64, lines: usize, offsets: &mut [u32],
    items: &mut [u32], globals: &mut [u32], global_count: u64, scratch: &mut [u32], out: &mut [u64]) -> u32 {
    // SAFETY: numbers by value, and Rust slices that are lent for this call.
    unsafe { mt_add_line(grid.as_ptr(), grid.len(), mode, start_x, start_y, end_x, end_y, lines, offsets.as_mut_ptr(), offsets.len(),
        items.as_mut_ptr(), items.len(), globals.as_mut_ptr(), globals.len(), global_count, scratch.as_mut_ptr(), scratch.len(),
        out.as_mut_ptr(), out.len()) }
}

/// `mt_check_tables` of the header.
#[inline]
pub fn check_tables(grid: &[u64], lines: usize, offsets: &[u32], items: &[u32], globals: &[u32], global_count: u64,
    out: &mut [u64]) -> u32 {
    // SAFETY: numbers by value, and Rust slices that are lent for this call.
    unsafe { mt_check_tables(grid.as_ptr(), grid.len(), lines, offsets.as_ptr(), offsets.len(), items.as_ptr(), items.len(),
        globals.as_ptr(), globals.len(), global_count, out.as_mut_ptr(), out.len()) }
}

/// `mt_cell_list` of the header.
#[inline]
pub fn cell_list(grid: &[u64], lines: usize, offsets: &[u32], items: &[u32], globals: &[u32], global_count: u64, row: u32, col: u32,
    out: &mut [u64]) -> u32 {
    // SAFETY: numbers by value, and Rust slices that are lent for this call.
    unsafe { mt_cell_list(grid.as_ptr(), grid.len(), lines, offsets.as_ptr(), offsets.len(), items.as_ptr(), items.len(),
        globals.as_ptr(), globals.len(), global_count, row, col, out.as_mut_ptr(), out.len()) }
}

/// `mt_global_list` of the header.
#[inline]
pub fn global_list(grid: &[u64], lines: usize, offsets: &[u32], items: &[u32], globals: &[u32], global_count: u64, position: u64,
    out: &mut [u64]) -> u32 {
    // SAFETY: numbers by value, and Rust slices that are lent for this call.
    unsafe { mt_global_list(grid.as_ptr(), grid.len(), lines, offsets.as_ptr(), offsets.len(), items.as_ptr(), items.len(),
        globals.as_ptr(), globals.len(), global_count, position, out.as_mut_ptr(), out.len()) }
}

/// `mt_test_at` of the header.
#[inline]
pub fn test_at(grid: &[u64], start_x: &[f64], start_y: &[f64], end_x: &[f64], end_y: &[f64], offsets: &[u32], items: &[u32],
    globals: &[u32], global_count: u64, bookmark: u64, out: &mut [u64]) -> u32 {
    // SAFETY: numbers by value, and Rust slices that are lent for this call.
    unsafe { mt_test_at(grid.as_ptr(), grid.len(), start_x.as_ptr(), start_x.len(), start_y.as_ptr(), start_y.len(),
        end_x.as_ptr(), end_x.len(), end_y.as_ptr(), end_y.len(), offsets.as_ptr(), offsets.len(), items.as_ptr(), items.len(),
        globals.as_ptr(), globals.len(), global_count, bookmark, out.as_mut_ptr(), out.len()) }
}

/// `mt_visit_cost` of the header.
#[inline]
pub fn visit_cost(grid: &[u64], lines: usize, offsets: &[u32], items: &[u32], globals: &[u32], global_count: u64, out: &mut [u64]) -> u32 {
    // SAFETY: numbers by value, and Rust slices that are lent for this call.
    unsafe { mt_visit_cost(grid.as_ptr(), grid.len(), lines, offsets.as_ptr(), offsets.len(), items.as_ptr(), items.len(),
        globals.as_ptr(), globals.len(), global_count, out.as_mut_ptr(), out.len()) }
}

/// `mt_lists_by_line` of the header.
#[inline]
pub fn lists_by_line(grid: &[u64], lines: usize, offsets: &[u32], items: &[u32], globals: &[u32], global_count: u64, starts: &mut [u32],
    listing: &mut [u32], out: &mut [u64]) -> u32 {
    // SAFETY: numbers by value, and Rust slices that are lent for this call.
    unsafe { mt_lists_by_line(grid.as_ptr(), grid.len(), lines, offsets.as_ptr(), offsets.len(), items.as_ptr(), items.len(),
        globals.as_ptr(), globals.len(), global_count, starts.as_mut_ptr(), starts.len(), listing.as_mut_ptr(), listing.len(),
        out.as_mut_ptr(), out.len()) }
}

/// `mt_batch` of the header.
#[inline]
pub fn batch(grid: &[u64], start_x: &[f64], start_y: &[f64], end_x: &[f64], end_y: &[f64], offsets: &[u32], items: &[u32], globals: &[u32],
    global_count: u64, bookmark: u64, first: &mut [u32], second: &mut [u32], out: &mut [u64]) -> u32 {
    // SAFETY: numbers by value, and Rust slices that are lent for this call.
    unsafe { mt_batch(grid.as_ptr(), grid.len(), start_x.as_ptr(), start_x.len(), start_y.as_ptr(), start_y.len(),
        end_x.as_ptr(), end_x.len(), end_y.as_ptr(), end_y.len(), offsets.as_ptr(), offsets.len(), items.as_ptr(), items.len(),
        globals.as_ptr(), globals.len(), global_count, bookmark, first.as_mut_ptr(), first.len(), second.as_mut_ptr(), second.len(),
        out.as_mut_ptr(), out.len()) }
}

/// `mt_batch_places` of the header.
#[inline]
pub fn batch_places(grid: &[u64], start_x: &[f64], start_y: &[f64], end_x: &[f64], end_y: &[f64], offsets: &[u32], items: &[u32],
    globals: &[u32], global_count: u64, bookmark: u64, first: &mut [u32], second: &mut [u32], places: &mut [u32], out: &mut [u64]) -> u32 {
    // SAFETY: numbers by value, and Rust slices that are lent for this call.
    unsafe { mt_batch_places(grid.as_ptr(), grid.len(), start_x.as_ptr(), start_x.len(), start_y.as_ptr(), start_y.len(),
        end_x.as_ptr(), end_x.len(), end_y.as_ptr(), end_y.len(), offsets.as_ptr(), offsets.len(), items.as_ptr(), items.len(),
        globals.as_ptr(), globals.len(), global_count, bookmark, first.as_mut_ptr(), first.len(), second.as_mut_ptr(), second.len(),
        places.as_mut_ptr(), places.len(), out.as_mut_ptr(), out.len()) }
}

/// `mt_start` of the header.
#[inline]
pub fn start(grid: &[u64], start_x: &[f64], start_y: &[f64], end_x: &[f64], end_y: &[f64], offsets: &[u32], items: &[u32], globals: &[u32],
    global_count: u64, bookmark: u64, out: &mut [u64]) -> u32 {
    // SAFETY: numbers by value, and Rust slices that are lent for this call.
    unsafe { mt_start(grid.as_ptr(), grid.len(), start_x.as_ptr(), start_x.len(), start_y.as_ptr(), start_y.len(),
        end_x.as_ptr(), end_x.len(), end_y.as_ptr(), end_y.len(), offsets.as_ptr(), offsets.len(), items.as_ptr(), items.len(),
        globals.as_ptr(), globals.len(), global_count, bookmark, out.as_mut_ptr(), out.len()) }
}

/// `mt_next_unchecked` of the header.
#[inline]
pub fn next_unchecked(grid: &[u64], start_x: &[f64], start_y: &[f64], end_x: &[f64], end_y: &[f64], offsets: &[u32], items: &[u32],
    globals: &[u32], global_count: u64, place: u64, i: u64, j: u64, first: &mut [u32], second: &mut [u32], out: &mut [u64]) -> u32 {
    // SAFETY: numbers by value, and Rust slices that are lent for this call.
    unsafe { mt_next_unchecked(grid.as_ptr(), grid.len(), start_x.as_ptr(), start_x.len(), start_y.as_ptr(), start_y.len(),
        end_x.as_ptr(), end_x.len(), end_y.as_ptr(), end_y.len(), offsets.as_ptr(), offsets.len(), items.as_ptr(), items.len(),
        globals.as_ptr(), globals.len(), global_count, place, i, j, first.as_mut_ptr(), first.len(), second.as_mut_ptr(), second.len(),
        out.as_mut_ptr(), out.len()) }
}

/// `mt_pairs_once` of the header.
#[inline]
pub fn pairs_once(grid: &[u64], start_x: &[f64], start_y: &[f64], end_x: &[f64], end_y: &[f64], offsets: &[u32], items: &[u32],
    globals: &[u32], global_count: u64, first: &mut [u32], second: &mut [u32], starts: &mut [u32], listing: &mut [u32], counts: &mut [u32],
    out: &mut [u64]) -> u32 {
    // SAFETY: numbers by value, and Rust slices that are lent for this call.
    unsafe { mt_pairs_once(grid.as_ptr(), grid.len(), start_x.as_ptr(), start_x.len(), start_y.as_ptr(), start_y.len(),
        end_x.as_ptr(), end_x.len(), end_y.as_ptr(), end_y.len(), offsets.as_ptr(), offsets.len(), items.as_ptr(), items.len(),
        globals.as_ptr(), globals.len(), global_count, first.as_mut_ptr(), first.len(), second.as_mut_ptr(), second.len(),
        starts.as_mut_ptr(), starts.len(), listing.as_mut_ptr(), listing.len(), counts.as_mut_ptr(), counts.len(),
        out.as_mut_ptr(), out.len()) }
}

/// `mt_window` of the header.
#[inline]
pub fn window(grid: &[u64], start_x: &[f64], start_y: &[f64], end_x: &[f64], end_y: &[f64], offsets: &[u32], items: &[u32], globals: &[u32],
    global_count: u64, low_x: f64, low_y: f64, high_x: f64, high_y: f64, found: &mut [u32], out: &mut [u64]) -> u32 {
    // SAFETY: numbers by value, and Rust slices that are lent for this call.
    unsafe { mt_window(grid.as_ptr(), grid.len(), start_x.as_ptr(), start_x.len(), start_y.as_ptr(), start_y.len(),
        end_x.as_ptr(), end_x.len(), end_y.as_ptr(), end_y.len(), offsets.as_ptr(), offsets.len(), items.as_ptr(), items.len(),
        globals.as_ptr(), globals.len(), global_count, low_x, low_y, high_x, high_y, found.as_mut_ptr(), found.len(),
        out.as_mut_ptr(), out.len()) }
}

/// `mt_crossings` of the header.
#[inline]
pub fn crossings(grid: &[u64], start_x: &[i32], start_y: &[i32], end_x: &[i32], end_y: &[i32], offsets: &[u32], items: &[u32],
    globals: &[u32], global_count: u64, first: &mut [u32], second: &mut [u32], starts: &mut [u32], listing: &mut [u32], counts: &mut [u32],
    out: &mut [u64]) -> u32 {
    // SAFETY: numbers by value, and Rust slices that are lent for this call.
    unsafe { mt_crossings(grid.as_ptr(), grid.len(), start_x.as_ptr(), start_x.len(), start_y.as_ptr(), start_y.len(),
        end_x.as_ptr(), end_x.len(), end_y.as_ptr(), end_y.len(), offsets.as_ptr(), offsets.len(), items.as_ptr(), items.len(),
        globals.as_ptr(), globals.len(), global_count, first.as_mut_ptr(), first.len(), second.as_mut_ptr(), second.len(),
        starts.as_mut_ptr(), starts.len(), listing.as_mut_ptr(), listing.len(), counts.as_mut_ptr(), counts.len(),
        out.as_mut_ptr(), out.len()) }
}

/// `mt_block_counts` of the header.
#[inline]
pub fn block_counts(grid: &[u64], lines: usize, offsets: &[u32], items: &[u32], globals: &[u32], global_count: u64, summary: &mut [u32],
    out: &mut [u64]) -> u32 {
    // SAFETY: numbers by value, and Rust slices that are lent for this call.
    unsafe { mt_block_counts(grid.as_ptr(), grid.len(), lines, offsets.as_ptr(), offsets.len(), items.as_ptr(), items.len(),
        globals.as_ptr(), globals.len(), global_count, summary.as_mut_ptr(), summary.len(), out.as_mut_ptr(), out.len()) }
}

/// `mt_items_in_blocks` of the header.
#[inline]
pub fn items_in_blocks(grid: &[u64], summary: &[u32], low_row: u32, low_col: u32, high_row: u32, high_col: u32, out: &mut [u64]) -> u32 {
    // SAFETY: numbers by value, and Rust slices that are lent for this call.
    unsafe { mt_items_in_blocks(grid.as_ptr(), grid.len(), summary.as_ptr(), summary.len(), low_row, low_col, high_row, high_col,
        out.as_mut_ptr(), out.len()) }
}

/// `mt_add_line_blocks` of the header.
#[inline]
pub fn add_line_blocks(grid: &[u64], mode: u32, start_x: f64, start_y: f64, end_x: f64, end_y: f64, lines: usize, offsets: &mut [u32],
    items: &mut [u32], globals: &mut [u32], global_count: u64, summary: &mut [u32], scratch: &mut [u32], out: &mut [u64]) -> u32 {
    // SAFETY: numbers by value, and Rust slices that are lent for this call.
    unsafe { mt_add_line_blocks(grid.as_ptr(), grid.len(), mode, start_x, start_y, end_x, end_y, lines, offsets.as_mut_ptr(), offsets.len(),
        items.as_mut_ptr(), items.len(), globals.as_mut_ptr(), globals.len(), global_count, summary.as_mut_ptr(), summary.len(),
        scratch.as_mut_ptr(), scratch.len(), out.as_mut_ptr(), out.len()) }
}

/// `mt_read_line_string` of the header.
#[inline]
pub fn read_line_string(bytes: &[u8], x: &mut [f64], y: &mut [f64], out: &mut [u64]) -> u32 {
    // SAFETY: numbers by value, and Rust slices that are lent for this call.
    unsafe { mt_read_line_string(bytes.as_ptr(), bytes.len(), x.as_mut_ptr(), x.len(), y.as_mut_ptr(), y.len(),
        out.as_mut_ptr(), out.len()) }
}

/// `mt_read_multi_line_string` of the header.
#[inline]
pub fn read_multi_line_string(bytes: &[u8], x: &mut [u64], y: &mut [u64], lengths: &mut [u32], out: &mut [u64]) -> u32 {
    // SAFETY: numbers by value, and Rust slices that are lent for this call.
    unsafe { mt_read_multi_line_string(bytes.as_ptr(), bytes.len(), x.as_mut_ptr(), x.len(), y.as_mut_ptr(), y.len(),
        lengths.as_mut_ptr(), lengths.len(), out.as_mut_ptr(), out.len()) }
}

/// `mt_write_multi_line_string` of the header.
#[inline]
pub fn write_multi_line_string(x: &[u64], y: &[u64], lengths: &[u32], bytes: &mut [u8], out: &mut [u64]) -> u32 {
    // SAFETY: numbers by value, and Rust slices that are lent for this call.
    unsafe { mt_write_multi_line_string(x.as_ptr(), x.len(), y.as_ptr(), y.len(), lengths.as_ptr(), lengths.len(),
        bytes.as_mut_ptr(), bytes.len(), out.as_mut_ptr(), out.len()) }
}

/// `mt_lines_of_members` of the header.
#[inline]
pub fn lines_of_members(x: &[u64], y: &[u64], lengths: &[u32], start_x: &mut [f64], start_y: &mut [f64], end_x: &mut [f64],
    end_y: &mut [f64], out: &mut [u64]) -> u32 {
    // SAFETY: numbers by value, and Rust slices that are lent for this call.
    unsafe { mt_lines_of_members(x.as_ptr(), x.len(), y.as_ptr(), y.len(), lengths.as_ptr(), lengths.len(),
        start_x.as_mut_ptr(), start_x.len(), start_y.as_mut_ptr(), start_y.len(), end_x.as_mut_ptr(), end_x.len(),
        end_y.as_mut_ptr(), end_y.len(), out.as_mut_ptr(), out.len()) }
}

/// `mt_clean` of the header.
#[inline]
pub fn clean(x: &[u64], y: &[u64], lengths: &[u32], kept_x: &mut [u64], kept_y: &mut [u64], kept_lengths: &mut [u32], reasons: &mut [u32],
    out: &mut [u64]) -> u32 {
    // SAFETY: numbers by value, and Rust slices that are lent for this call.
    unsafe { mt_clean(x.as_ptr(), x.len(), y.as_ptr(), y.len(), lengths.as_ptr(), lengths.len(), kept_x.as_mut_ptr(), kept_x.len(),
        kept_y.as_mut_ptr(), kept_y.len(), kept_lengths.as_mut_ptr(), kept_lengths.len(), reasons.as_mut_ptr(), reasons.len(),
        out.as_mut_ptr(), out.len()) }
}
// ---- written by tools/declarations: to here
