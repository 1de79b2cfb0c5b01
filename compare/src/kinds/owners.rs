//! The owners of many points in one call: each answer against the single call's, and the cell that it names against the Rust's ownership test.

use super::{answers, float, show_grid, word, Kind, JUNK};
use crate::cases;
use crate::kinds::own;
use crate::model;
use crate::port;
use crate::random::Random;
use crate::Grid;

#[derive(Clone)]
pub struct Case {
    grid: Grid,
    x: Vec<f64>,
    y: Vec<f64>,
    room: usize,
}

/// The points of a call that is not about lengths.
const POINTS: usize = 1000;

pub struct Owners<const AXES: bool>;

impl<const AXES: bool> Kind for Owners<AXES> {
    type Case = Case;
    const NAME: &'static str = if AXES { "axes-owners" } else { "owners" };
    const SIDES: &'static str = "port and model, each point by the single call too, and the cells named by the Rust where it can be asked";

    fn draw(r: &mut Random) -> (&'static str, Case) {
        let mut grid = if AXES { cases::oblong(r) } else { cases::grid(r) };
        let (mut shape, n) = if r.once_in(20) { ("few points", r.below(4) as usize) } else { ("1,000 points", POINTS) };
        let mut along = |low: f64, size: f64, count: u32| -> Vec<f64> { (0..n).map(|_| cases::coordinate(r, low, size, count)).collect() };
        let mut x = along(grid.min_x, grid.cell_width, grid.cols);
        let mut y = along(grid.min_y, grid.cell_height, grid.rows);
        let mut room = n;
        if r.once_in(10) {
            shape = "edge of the domain";
            for _ in 0..1 + r.below(2) {
                match r.below(6) {
                    0 => room = r.below(n as u64 + 2) as usize,
                    1 => x.truncate(r.below(n as u64 + 1) as usize),
                    2 => y.truncate(r.below(n as u64 + 1) as usize),
                    3 => {
                        let bad = cases::bad(r);
                        let axis = if r.once_in(2) { &mut x } else { &mut y };
                        if !axis.is_empty() {
                            let at = r.below(axis.len() as u64) as usize;
                            axis[at] = bad;
                        }
                    }
                    4 => cases::resize::<AXES>(r, &mut grid),
                    _ => (grid.cols, grid.rows) = r.pick(&[(0, 0), (0, 3), (4005, 1)]),
                }
            }
        }
        (shape, Case { grid, x, y, room })
    }

    fn check(c: &Case) -> Result<&'static str, String> {
        let g = &c.grid;
        let (mut of_model, mut of_port) = (vec![JUNK; c.room], vec![JUNK; c.room]);
        let (mut wanted, mut out) = ([u64::MAX; 2], [u64::MAX; 2]);
        let number = model::owners(g, &c.x, &c.y, &mut of_model, &mut wanted);
        let got = port::owners(g, &c.x, &c.y, &mut of_port, &mut out);
        answers("port: owners", (number, &wanted), (got, &out))?;
        super::slices("answers", &of_model, &of_port)?;
        if number != 0 {
            return Ok(word(number));
        }
        let mut rust = own::by_rust(g);
        for (i, &answer) in of_port.iter().enumerate() {
            let mut one = [u64::MAX; 3];
            let by_one = port::owner(g, c.x[i], c.y[i], &mut one);
            let told = match answer {
                4294967294 => [2, 0, 0],
                4294967295 => [0, 0, 0],
                cell => [1, (cell / g.cols) as u64, (cell % g.cols) as u64],
            };
            answers(&format!("port: the owner of point {i}"), (0, &told), (by_one, &one))?;
            if let (1, Some(rust)) = (told[0], &mut rust) {
                if !rust.point(told[1] as u32, told[2] as u32, c.x[i], c.y[i]) {
                    return Err(format!("answers[{i}] is {answer}, and by the Rust that cell does not own the point"));
                }
            }
        }
        Ok(if rust.is_some() { "answered, cells by the Rust too" } else { "answered" })
    }

    fn smaller(case: &Case) -> Vec<Case> {
        let n = case.x.len();
        let mut all = Vec::new();
        // one point, or half of them
        if case.y.len() == n && case.room == n {
            let part = |from: usize, to: usize| Case { x: case.x[from..to].to_vec(), y: case.y[from..to].to_vec(), room: to - from, ..case.clone() };
            if n > 1 {
                all.extend([part(0, n / 2), part(n / 2, n)]);
            }
        }
        all
    }

    fn show(c: &Case) -> String {
        let points: Vec<String> = c.x.iter().zip(&c.y).take(8).map(|(&x, &y)| format!("point {}, {}", float(x), float(y))).collect();
        format!("{}{} x, {} y, room for {} answers\n{}\n", show_grid(&c.grid), c.x.len(), c.y.len(), c.room, points.join("\n"))
    }
}
