//! The covering mode of the entries: the walk of one segment and the build, by the port and by the model. Of a build that succeeds every two lines that
//! share an exact point, as far as `exact` can be asked, are held to share a list, or one of them to be global.

use super::build::{self, Build, Columns};
use super::cover::{self, Cover};
use super::walk::{self, Walk};
use super::Kind;
use crate::exact::share_a_point;
use crate::model::{self, SCRATCH};
use crate::random::Random;
use crate::{Grid, Mode};

const COVERING: u32 = Mode::Covering as u32;

// ---- walks

pub struct CoveringWalk;

impl Kind for CoveringWalk {
    type Case = walk::Case;
    const NAME: &'static str = "covering-walk";
    const SIDES: &'static str = "port and model";

    fn draw(r: &mut Random) -> (&'static str, walk::Case) {
        let (shape, case) = Cover::draw(r);
        // a mode that there is not stays
        (shape, walk::Case { mode: case.walk.mode.max(COVERING), ..case.walk })
    }

    fn check(case: &walk::Case) -> Result<&'static str, String> {
        Walk::<false>::check(case)
    }

    fn smaller(case: &walk::Case) -> Vec<walk::Case> {
        Walk::<true>::smaller(case)
    }

    fn show(case: &walk::Case) -> String {
        Walk::<true>::show(case)
    }
}

/// The fixed lines of the inner walk, and two that are refused before 16.
pub fn fixed_walks() -> Vec<(&'static str, walk::Case)> {
    let mut all: Vec<_> = cover::fixed().into_iter().map(|(shape, case)| (shape, case.walk)).collect();
    let (shape, off) = all[10].clone();
    all.push((shape, walk::Case { scratch: SCRATCH - 1, ..off.clone() }));
    all.push((shape, walk::Case { grid: Grid { cell_height: 0.0, ..off.grid }, ..off }));
    all
}

// ---- builds

pub struct CoveringBuild;

impl Kind for CoveringBuild {
    type Case = build::Case;
    const NAME: &'static str = "covering-build";
    const SIDES: &'static str = "port and model";

    fn draw(r: &mut Random) -> (&'static str, build::Case) {
        let (shape, mut case) = if r.once_in(2) { Build::<false>::draw(r) } else { Build::<true>::draw(r) };
        case.mode = case.mode.max(COVERING);
        (shape, case)
    }

    fn check(case: &build::Case) -> Result<&'static str, String> {
        let answer = Build::<false>::check(case)?;
        let built = answer.starts_with("built") || answer.contains("halving");
        // every two lines by exact arithmetic: of many it takes long
        let Some(sizing) = model::sizing_of(case.sizing).filter(|_| built && case.lines.len() <= 60) else {
            return Ok(answer);
        };
        let columns = Columns::new(&case.lines);
        let Ok(t) = model::tables(columns.coordinates(), sizing, Mode::Covering, usize::MAX) else { return Ok(answer) };
        for a in 0..case.lines.len() {
            for b in 0..a {
                let global = [a, b].iter().any(|&k| t.globals.contains(&(k as u32)));
                let listed = t.offsets.windows(2).any(|o| {
                    let list = &t.items[o[0] as usize..o[1] as usize];
                    list.contains(&(a as u32)) && list.contains(&(b as u32))
                });
                if !global && !listed && share_a_point(&case.lines[a], &case.lines[b]) == Some(true) {
                    return Err(format!("the lines {b} and {a} share a point, and no list"));
                }
            }
        }
        Ok("nothing dropped")
    }

    fn smaller(case: &build::Case) -> Vec<build::Case> {
        Build::<false>::smaller(case)
    }

    fn show(case: &build::Case) -> String {
        Build::<false>::show(case)
    }
}
