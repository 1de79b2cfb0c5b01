//! The port: the functions of the library, as `bindings/rust` declares them, and the inner walks with their ordering, which are no part of it. Here they
//! take what the model takes. The answer is document 01's number, 0 for success, with values in `out`. A wrapper is inlined, so that what is timed is
//! one call.

#![allow(clippy::too_many_arguments)]

use crate::inner;
use crate::model::{Coordinates, Cursor, Lists, OnceLent, Standing};
use crate::{Grid, Line};
use morelturret::sys;

pub use morelturret::sys::{add, read_line_string, read_multi_line_string, snap, strategies_agree, write_multi_line_string};

pub mod numbers {
    pub use morelturret::sys::{ceiling, clamped_floor, floor, greatest, least, magnitude, round_half_away, square_root};
}

/// out: the number of points and the number of pieces that are kept.
#[inline]
pub fn clean(x: &[u64], y: &[u64], lengths: &[u32], kept: [&mut [u64]; 2], kept_lengths: &mut [u32], reasons: &mut [u32], out: &mut [u64]) -> u32 {
    let [kept_x, kept_y] = kept;
    sys::clean(x, y, lengths, kept_x, kept_y, kept_lengths, reasons, out)
}

/// The four slices are start x, start y, end x, end y. out: the number of lines.
#[inline]
pub fn lines_of_members(x: &[u64], y: &[u64], lengths: &[u32], slices: [&mut [f64]; 4], out: &mut [u64]) -> u32 {
    let [start_x, start_y, end_x, end_y] = slices;
    sys::lines_of_members(x, y, lengths, start_x, start_y, end_x, end_y, out)
}

/// The entry for one segment, in the mode of a number: 0 the Rust's, 1 the sided one. out: the number of cells.
#[inline]
pub fn segment_cells(g: &Grid, line: &Line, mode: u32, scratch: &mut [u32], out: &mut [u64]) -> u32 {
    let [x0, y0, x1, y1] = *line;
    sys::segment_cells(&g.words(), x0, y0, x1, y1, mode, scratch, out)
}

/// The sizes of a grid, as the inner walks take them: its minima, and the width and the height of its cells.
#[inline]
pub fn sizes(g: &Grid) -> [f64; 4] {
    [g.min_x, g.min_y, g.cell_width, g.cell_height]
}

/// The walk that a build takes, in the Rust's mode: it leaves the scratch beyond the cells as it comes. out: the number of cells.
#[inline]
pub fn inner_walk(g: &Grid, line: &Line, scratch: &mut [u32], out: &mut [u64]) -> u32 {
    let [x0, y0, x1, y1] = *line;
    inner::inner_walk(&sizes(g), g.cols, g.rows, x0, y0, x1, y1, scratch, out)
}

/// The covering walk. out: the number of cells. It answers 16 where the line is in every cell of a grid of more than 2,048.
#[inline]
pub fn inner_cover(g: &Grid, line: &Line, scratch: &mut [u32], out: &mut [u64]) -> u32 {
    let [x0, y0, x1, y1] = *line;
    inner::inner_cover(&sizes(g), g.cols, g.rows, x0, y0, x1, y1, scratch, out)
}

/// The ordering of a walk's cells.
#[inline]
pub fn order(entries: &mut [u32]) -> u32 {
    inner::inner_order(entries)
}

/// The sizing is asked for by its number: 0 square, 1 by axis; and the mode of walk: 0 the Rust's, 1 the sided one. out: the words of the grid, the number of items, the number of globals.
#[inline]
pub fn build(
    l: Coordinates, sizing: u32, mode: u32, offsets: &mut [u32], items: &mut [u32], globals: &mut [u32], scratch: &mut [u32], out: &mut [u64],
) -> u32 {
    sys::build(l.start_x, l.start_y, l.end_x, l.end_y, sizing, mode, offsets, items, globals, scratch, out)
}

/// out: the sum of all counts, the number of global lines.
#[inline]
pub fn count(l: Coordinates, g: &Grid, mode: u32, counts: &mut [u32], scratch: &mut [u32], out: &mut [u64]) -> u32 {
    sys::count(l.start_x, l.start_y, l.end_x, l.end_y, &g.words(), mode, counts, scratch, out)
}

/// out: the number of items, the number of globals.
#[inline]
pub fn tables_on(
    l: Coordinates, g: &Grid, mode: u32, offsets: &mut [u32], items: &mut [u32], globals: &mut [u32], scratch: &mut [u32], out: &mut [u64],
) -> u32 {
    sys::tables_on(l.start_x, l.start_y, l.end_x, l.end_y, &g.words(), mode, offsets, items, globals, scratch, out)
}

/// The corners of the bounds are the start and the end of a line. out: the words of the grid.
#[inline]
pub fn agreed_grid(corners: &Line, lines: usize, sizing: u32, out: &mut [u64]) -> u32 {
    let [x0, y0, x1, y1] = *corners;
    sys::agreed_grid(x0, y0, x1, y1, lines, sizing, out)
}

/// out: written only on a refusal.
#[inline]
pub fn check_tables(t: &Lists, out: &mut [u64]) -> u32 {
    sys::check_tables(&t.grid.words(), t.lines, t.offsets, t.items, t.globals, t.global_count, out)
}

/// out: where the list starts in the items, and its length.
#[inline]
pub fn cell_list(t: &Lists, row: u32, col: u32, out: &mut [u64]) -> u32 {
    sys::cell_list(&t.grid.words(), t.lines, t.offsets, t.items, t.globals, t.global_count, row, col, out)
}

/// out: where the list starts in the globals, and its length.
#[inline]
pub fn global_list(t: &Lists, position: u64, out: &mut [u64]) -> u32 {
    sys::global_list(&t.grid.words(), t.lines, t.offsets, t.items, t.globals, t.global_count, position, out)
}

/// out: the tests of a full visit, and the length of the longest list.
#[inline]
pub fn visit_cost(t: &Lists, out: &mut [u64]) -> u32 {
    sys::visit_cost(&t.grid.words(), t.lines, t.offsets, t.items, t.globals, t.global_count, out)
}

/// out: how many cells the lists by line have.
#[inline]
pub fn lists_by_line(t: &Lists, starts: &mut [u32], listing: &mut [u32], out: &mut [u64]) -> u32 {
    sys::lists_by_line(&t.grid.words(), t.lines, t.offsets, t.items, t.globals, t.global_count, starts, listing, out)
}

/// out: how many blocks there are.
#[inline]
pub fn block_counts(t: &Lists, summary: &mut [u32], out: &mut [u64]) -> u32 {
    sys::block_counts(&t.grid.words(), t.lines, t.offsets, t.items, t.globals, t.global_count, summary, out)
}

/// The blocks from a lower corner to an upper, each [row, column]. out: how many items.
#[inline]
pub fn items_in_blocks(g: &Grid, summary: &[u32], low: [u32; 2], high: [u32; 2], out: &mut [u64]) -> u32 {
    sys::items_in_blocks(&g.words(), summary, low[0], low[1], high[0], high[1], out)
}

/// out: tests, overlaps, the new bookmark.
#[inline]
pub fn batch(s: &Standing, bookmark: u64, first: &mut [u32], second: &mut [u32], out: &mut [u64]) -> u32 {
    let l = &s.lines;
    sys::batch(
        &s.grid.words(), l.start_x, l.start_y, l.end_x, l.end_y, s.offsets, s.items, s.globals, s.global_count, bookmark, first, second, out,
    )
}

/// out: the cursor of a bookmark.
#[inline]
pub fn start(s: &Standing, bookmark: u64, out: &mut [u64]) -> u32 {
    let l = &s.lines;
    sys::start(&s.grid.words(), l.start_x, l.start_y, l.end_x, l.end_y, s.offsets, s.items, s.globals, s.global_count, bookmark, out)
}

/// out: tests, overlaps, the new cursor.
#[inline]
pub fn next(s: &Standing, at: Cursor, first: &mut [u32], second: &mut [u32], out: &mut [u64]) -> u32 {
    let (l, [place, i, j]) = (&s.lines, at);
    sys::next_unchecked(
        &s.grid.words(), l.start_x, l.start_y, l.end_x, l.end_y, s.offsets, s.items, s.globals, s.global_count, place, i, j, first, second, out,
    )
}

/// The outputs are first, second and places. out: tests, overlaps, the new bookmark.
#[inline]
pub fn batch_places(s: &Standing, bookmark: u64, outputs: [&mut [u32]; 3], out: &mut [u64]) -> u32 {
    let l = &s.lines;
    let [first, second, places] = outputs;
    sys::batch_places(
        &s.grid.words(), l.start_x, l.start_y, l.end_x, l.end_y, s.offsets, s.items, s.globals, s.global_count, bookmark, first, second, places, out,
    )
}

/// The slices are the offsets, the items, the globals and the scratch. out: the number of items, the number of globals, how many cells list the line.
#[inline]
pub fn add_line(g: &Grid, mode: u32, line: &Line, n: usize, slices: [&mut [u32]; 4], global_count: u64, out: &mut [u64]) -> u32 {
    let [offsets, items, globals, scratch] = slices;
    sys::add_line(&g.words(), mode, line[0], line[1], line[2], line[3], n, offsets, items, globals, global_count, scratch, out)
}

/// out: how many pairs there are.
#[inline]
pub fn pairs_once(s: &Standing, lent: &mut OnceLent, out: &mut [u64]) -> u32 {
    let l = &s.lines;
    let OnceLent { first, second, starts, listing, counts } = lent;
    sys::pairs_once(
        &s.grid.words(), l.start_x, l.start_y, l.end_x, l.end_y, s.offsets, s.items, s.globals, s.global_count, first, second, starts, listing, counts, out,
    )
}

/// The slices are the offsets, the items, the globals, the summary and the scratch. out: as `add_line`.
#[inline]
pub fn add_line_blocks(g: &Grid, mode: u32, line: &Line, n: usize, slices: [&mut [u32]; 5], global_count: u64, out: &mut [u64]) -> u32 {
    let [offsets, items, globals, summary, scratch] = slices;
    sys::add_line_blocks(&g.words(), mode, line[0], line[1], line[2], line[3], n, offsets, items, globals, global_count, summary, scratch, out)
}

/// The lines in the window [low x, low y, high x, high y]. out: how many there are.
#[inline]
pub fn window(s: &Standing, w: [f64; 4], found: &mut [u32], out: &mut [u64]) -> u32 {
    let l = &s.lines;
    sys::window(
        &s.grid.words(), l.start_x, l.start_y, l.end_x, l.end_y, s.offsets, s.items, s.globals, s.global_count, w[0], w[1], w[2], w[3], found, out,
    )
}

/// Lines of samples, in four columns.
pub struct Sampled<'a> {
    pub start_x: &'a [i32],
    pub start_y: &'a [i32],
    pub end_x: &'a [i32],
    pub end_y: &'a [i32],
}

/// The crossings of samples; the slices are first, second, starts, listing and counts. out: how many there are.
#[inline]
pub fn crossings(s: &Standing, l: &Sampled, [first, second, starts, listing, counts]: &mut [Vec<u32>; 5], out: &mut [u64]) -> u32 {
    sys::crossings(
        &s.grid.words(), l.start_x, l.start_y, l.end_x, l.end_y, s.offsets, s.items, s.globals, s.global_count, first, second, starts, listing, counts,
        out,
    )
}

/// out: 0 for a cell, 1 for a global line, 2 for the end mark; row or position; column; first; second; overlap.
#[inline]
pub fn test_at(s: &Standing, bookmark: u64, out: &mut [u64]) -> u32 {
    let l = &s.lines;
    sys::test_at(&s.grid.words(), l.start_x, l.start_y, l.end_x, l.end_y, s.offsets, s.items, s.globals, s.global_count, bookmark, out)
}

/// out: 1 where the cell owns the point, else 0.
#[inline]
pub fn point_owned(g: &Grid, row: u32, col: u32, x: f64, y: f64, out: &mut [u64]) -> u32 {
    sys::point_owned(&g.words(), row, col, x, y, out)
}

/// out: 1 where the cell owns the overlap, else 0.
#[inline]
pub fn overlap_owned(g: &Grid, row: u32, col: u32, x: f64, y: f64, size: f64, strategy: u32, out: &mut [u64]) -> u32 {
    sys::overlap_owned(&g.words(), row, col, x, y, size, strategy, out)
}

/// out: 1, row, column; 2, 0, 0 in a seam; or 0, 0, 0 outside the grid.
#[inline]
pub fn owner(g: &Grid, x: f64, y: f64, out: &mut [u64]) -> u32 {
    sys::owner(&g.words(), x, y, out)
}

/// answers: for each point the number of its cell, 2^32 - 2 in a seam, 2^32 - 1 outside. out: nothing, or a refusal's value.
#[inline]
pub fn owners(g: &Grid, x: &[f64], y: &[f64], answers: &mut [u32], out: &mut [u64]) -> u32 {
    sys::owners(&g.words(), x, y, answers, out)
}
