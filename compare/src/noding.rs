//! The Rust's own text: grid.rs whole, the candidates of noding/mod.rs, and `SnapNoder::snap`.
//! `reach` stands inside the module that holds grid.rs, so that it reaches what is private there.

#![allow(dead_code)]

use crate::stand_in::geo;

include!(concat!(env!("OUT_DIR"), "/candidates.rs"));

pub mod snap {
    use super::ExactCandidate;
    use crate::options::SnapStrategy;
    use crate::types::Coord3D;

    pub struct SnapNoder {
        pub grid_size: f64,
        pub snap_strategy: SnapStrategy,
    }

    include!(concat!(env!("OUT_DIR"), "/snap.rs"));

    impl SnapNoder {
        /// Splitting is outside the port. One event says that the cell owns the candidate.
        #[inline]
        pub(crate) fn append_exact_candidate_splits(&self, exact: ExactCandidate, events: &mut Vec<(usize, Coord3D)>) {
            events.push((exact.pair.first, exact.first.start));
        }
    }
}

pub mod grid {
    use crate::stand_in::{geo, wide};

    include!(env!("COMPARE_GRID"));

    pub mod reach {
        use super::*;
        use crate::stand_in::geo::algorithm::line_intersection::NEXT;

        /// The cells of a line on a grid of square cells: their size is the width.
        #[inline]
        pub fn cells(line: &Line3D, g: &crate::Grid) -> SmallVec<[usize; 64]> {
            segment_cells(line, g.min_x, g.min_y, g.cell_width, g.cols as usize, g.rows as usize)
        }

        pub fn record(grid: &UniformGrid) -> crate::Grid {
            crate::Grid {
                min_x: grid.bounds_min.x,
                min_y: grid.bounds_min.y,
                cell_width: grid.cell_size,
                cell_height: grid.cell_size,
                cols: grid.cols as u32,
                rows: grid.rows as u32,
            }
        }

        pub fn offsets(grid: &UniformGrid) -> &[usize] {
            &grid.cell_offsets
        }

        pub fn items(grid: &UniformGrid) -> &[u32] {
            &grid.cell_items
        }

        pub fn globals(grid: &UniformGrid) -> &[usize] {
            &grid.global_lines
        }

        /// A grid of square cells with no lists: all that an ownership test reads.
        pub fn bare(g: &crate::Grid) -> UniformGrid {
            standing(g, &[], &[], &[])
        }

        /// A grid with lists: a visit reads these and the counts, and no size.
        pub fn standing(g: &crate::Grid, offsets: &[u32], items: &[u32], globals: &[u32]) -> UniformGrid {
            UniformGrid {
                cell_offsets: offsets.iter().map(|&o| o as usize).collect(),
                cell_items: items.to_vec(),
                global_lines: globals.iter().map(|&l| l as usize).collect(),
                cell_size: g.cell_width,
                cols: g.cols as usize,
                rows: g.rows as usize,
                bounds_min: Coord { x: g.min_x, y: g.min_y },
            }
        }

        /// Both visits, in the order of `find_splits`, each pair handed to `visit`. `tracker` counts the tests.
        #[inline]
        pub fn visit_all(
            grid: &UniformGrid,
            lines: &[Line3D],
            soa: &SoALines,
            mut tracker: Option<&mut ExecutionWorkTracker<'_>>,
            mut visit: impl FnMut(usize, usize),
        ) {
            for index in 0..grid.rows * grid.cols {
                let list = &grid.cell_items[grid.cell_offsets[index]..grid.cell_offsets[index + 1]];
                grid.visit_cell_candidates(list, soa, tracker.as_deref_mut(), |pair| {
                    visit(pair.first, pair.second);
                    Ok(())
                })
                .unwrap();
            }
            for &line in &grid.global_lines {
                grid.visit_global_candidates_for_line(line, lines, soa, tracker.as_deref_mut(), |pair| {
                    visit(pair.first, pair.second);
                    Ok(())
                })
                .unwrap();
            }
        }

        /// The callbacks of the visit of one list, in order.
        pub fn cell_callbacks(grid: &UniformGrid, cell: usize, soa: &SoALines) -> Vec<(usize, usize)> {
            let mut pairs = Vec::new();
            let list = &grid.cell_items[grid.cell_offsets[cell]..grid.cell_offsets[cell + 1]];
            grid.visit_cell_candidates(list, soa, None, |pair| {
                pairs.push((pair.first, pair.second));
                Ok(())
            })
            .unwrap();
            pairs
        }

        /// The callbacks of the visit of one line as a global one, in order.
        pub fn global_callbacks(grid: &UniformGrid, line: usize, lines: &[Line3D], soa: &SoALines) -> Vec<(usize, usize)> {
            let mut pairs = Vec::new();
            grid.visit_global_candidates_for_line(line, lines, soa, None, |pair| {
                pairs.push((pair.first, pair.second));
                Ok(())
            })
            .unwrap();
            pairs
        }

        /// Whether the cell owns the intersection. `events` is a buffer that is left empty.
        #[inline]
        pub fn owned(
            grid: &UniformGrid,
            row: usize,
            col: usize,
            intersection: LineIntersection<f64>,
            noder: &SnapNoder,
            lines: &[Line3D; 2],
            events: &mut Vec<(usize, Coord3D)>,
        ) -> bool {
            NEXT.set(Some(intersection));
            grid.process_cell_candidate(row, col, CandidatePair { first: 0, second: 1 }, lines, noder, events, 0, None);
            let owned = !events.is_empty();
            events.clear();
            owned
        }
    }
}
