//! compare [--seed S] [--cases N | --share P] [KIND..]: the port beside the Rust, kind by kind. Without kinds, all of them; without N, a full run
//! of each, or P hundredths of one. The kinds named axes-, and seams, are of cells whose width and height are kept apart, those named sided- of the
//! second mode of walk, and those named covering- of the third; `cover` is the covering walk itself.
//! The port takes part in every kind: --port may be said, and changes nothing.
//! Ends with status 1 at the first difference.

use compare::kinds::{self, added, blocks, build, clean, clean_program, counts, cover, covering, crossings, drop_in, lists, multi, numbers, once, own, owners, pairs, places, resume, seams, sided, snap, straight, strategies, visit, walk, window, wkb};

/// The kinds, with the cases of a full run.
const KINDS: [(&str, u64); 38] = [
    ("sample", 1),
    ("numbers", 10_000_000),
    ("walk", 1_000_000),
    ("straight", 1_000_000),
    ("build", 2_000),
    ("visit", 2_000),
    ("lists", 10_000),
    ("own", 1_000_000),
    ("snap", 2_200_000),
    ("strategies", 12_000_000),
    ("window", 2_000),
    ("wkb", 100_000),
    ("multi", 100_000),
    ("members", 100_000),
    ("clean", 100_000),
    ("clean-program", 1_500),
    ("axes-walk", 500_000),
    ("axes-build", 3_000),
    ("axes-visit", 2_000),
    ("axes-lists", 5_000),
    ("axes-own", 500_000),
    ("seams", 20_000),
    ("sided-walk", 1_000_000),
    ("sided-build", 2_000),
    ("owners", 1_100),
    ("axes-owners", 1_100),
    ("cover", 3_000_000),
    ("covering-walk", 1_000_000),
    ("covering-build", 2_000),
    ("pairs", 20_000),
    ("once", 4_000),
    ("places", 4_000),
    ("resume", 2_000),
    ("drop-in", 1_000),
    ("counts", 2_700),
    ("added", 1_000),
    ("crossings", 10_000),
    ("blocks", 2_000),
];

fn main() {
    let mut words = std::env::args().skip(1);
    let (mut seed, mut cases, mut share, mut asked) = (1, None, 100, Vec::new());
    while let Some(word) = words.next() {
        let mut number = || words.next().and_then(|w| w.replace('_', "").parse().ok()).unwrap_or_else(|| stop(&format!("{word} needs a number")));
        match word.as_str() {
            "--seed" => seed = number(),
            "--cases" => cases = Some(number()),
            "--share" => share = number(),
            "--port" => {}
            kind if KINDS.iter().any(|k| k.0 == kind) => asked.push(word),
            _ => stop(&format!("compare [--seed S] [--cases N | --share P] [--port] [KIND..], with KIND one of {}", KINDS.map(|k| k.0).join(" "))),
        }
    }
    let kinds = KINDS.iter().copied().filter(|k| asked.is_empty() || asked.iter().any(|a| a == k.0));
    for (kind, full) in kinds {
        let n = cases.unwrap_or(full * share / 100).max(1);
        let begun = std::time::Instant::now();
        let right = match kind {
            "sample" => sample() & by_axis() & by_side(),
            "numbers" => numbers::run(seed, n),
            "walk" => kinds::run::<walk::Walk<false>>(seed, n, walk::fixed()),
            "straight" => kinds::run::<straight::Straight>(seed, n, straight::fixed()),
            "build" => kinds::run::<build::Build<false>>(seed, n, build::fixed(seed)),
            "visit" => kinds::run::<visit::Visit<false>>(seed, n, vec![]),
            "lists" => kinds::run::<lists::Lists<false>>(seed, n, vec![]),
            "own" => kinds::run::<own::Own<false>>(seed, n, vec![]),
            "snap" => kinds::run::<snap::Snap>(seed, n, vec![]),
            "strategies" => kinds::run::<strategies::Strategies>(seed, n, strategies::fixed()),
            "window" => kinds::run::<window::Window>(seed, n, vec![]),
            "wkb" => kinds::run::<wkb::Wkb>(seed, n, vec![]),
            "multi" => kinds::run::<multi::Multi>(seed, n, multi::fixed(seed)),
            "members" => kinds::run::<multi::Members>(seed, n, multi::fixed_members(seed)),
            "clean" => kinds::run::<clean::Clean>(seed, n, clean::fixed()),
            "clean-program" => {
                let right = kinds::run::<clean_program::Program>(seed, n, clean_program::fixed());
                clean_program::end();
                right
            }
            "axes-walk" => kinds::run::<walk::Walk<true>>(seed, n, walk::fixed_by_axis()),
            "axes-build" => kinds::run::<build::Build<true>>(seed, n, build::fixed_by_axis(seed)),
            "axes-visit" => kinds::run::<visit::Visit<true>>(seed, n, vec![]),
            "axes-lists" => kinds::run::<lists::Lists<true>>(seed, n, vec![]),
            "axes-own" => kinds::run::<own::Own<true>>(seed, n, vec![]),
            "seams" => kinds::run::<seams::Seams>(seed, n, seams::found(seed, n / 200 + 1)),
            "sided-walk" => kinds::run::<sided::SidedWalk>(seed, n, sided::fixed_walks()),
            "sided-build" => kinds::run::<sided::SidedBuild>(seed, n, sided::fixed_builds(seed)),
            "owners" => kinds::run::<owners::Owners<false>>(seed, n, vec![]),
            "axes-owners" => kinds::run::<owners::Owners<true>>(seed, n, vec![]),
            "covering-walk" => kinds::run::<covering::CoveringWalk>(seed, n, covering::fixed_walks()),
            "drop-in" => kinds::run::<drop_in::DropIn>(seed, n, drop_in::fixed()),
            "covering-build" => kinds::run::<covering::CoveringBuild>(seed, n, vec![]),
            "cover" => kinds::run::<cover::Cover>(seed, n, cover::fixed()),
            "added" => kinds::run::<added::Added>(seed, n, added::fixed()),
            "blocks" => kinds::run::<blocks::Blocks>(seed, n, blocks::fixed()),
            "pairs" => kinds::run::<pairs::Pairs>(seed, n, vec![]),
            "once" => kinds::run::<once::Once>(seed, n, vec![]),
            "places" => kinds::run::<places::Places>(seed, n, vec![]),
            "resume" => kinds::run::<resume::Resume>(seed, n, vec![]),
            "crossings" => kinds::run::<crossings::Crossings>(seed, n, crossings::fixed()),
            _ => kinds::run::<counts::Counts>(seed, n, counts::fixed()),
        };
        println!("  (seed {seed}, {:.1} s)", begun.elapsed().as_secs_f64());
        if !right {
            std::process::exit(1);
        }
    }
}

fn stop(text: &str) -> ! {
    eprintln!("{text}");
    std::process::exit(2)
}

/// Document 01's sample and measured points, by the Rust alone: they show that the Rust at hand is the one that the document speaks of.
fn sample() -> bool {
    use compare::{oracle, Grid};
    let four = Grid { min_x: 0.0, min_y: 0.0, cell_width: 1.0, cell_height: 1.0, cols: 4, rows: 4 };
    let cells = |line| oracle::segment_cells(&four, &line);
    let at = |x| cells([x, 0.5, x, 0.5]);
    let hair = 2f64.powi(-41);
    let mut owners = oracle::Owners::new(&four);
    let row = |x| oracle::segment_cells(&Grid { cols: 4004, rows: 1, ..four }, &[0.5, 0.5, x, 0.5]).len();
    let (grid, geos) = (|v| oracle::snap(v, 0.0, 1.0).0, |v| oracle::snap_by_geos(v, 0.0, 1.0).0);
    let measured = [
        ("P1", cells([0.5, 0.5, 2.5, 0.5]) == [0, 1, 2]),
        ("P2", cells([1.0, 0.5, 1.0, 2.5]) == [0, 1, 4, 5, 8, 9]),
        ("P3", cells([1.0; 4]) == [0, 1, 4, 5]),
        ("P4", at(1.0 + hair) == [0, 1]),
        ("P5", at(1.0 + 4.0 * hair) == [1]),
        ("P6", at(1.0 - hair) == [0]),
        ("P7", owners.point(0, 1, 1.0, 0.5) && !owners.point(0, 0, 1.0, 0.5)),
        ("P8", owners.point(3, 3, 4.0, 4.0)),
        ("P9", grid(0.49999999999999994) == 0.0 && geos(0.49999999999999994) == 1.0),
        ("P10", grid(-2.5) == -3.0 && geos(-2.5) == -3.0),
        ("2,048 cells", row(2047.5) == 2048),
        ("2,049 cells", row(2048.5) == 2049),
    ];
    for (name, _) in measured.iter().filter(|m| !m.1) {
        println!("sample: the Rust answers another thing than document 01 at {name}");
    }
    let wanted = "grid 3 3 3ff0000000000000 18 0
cell 0 0 0 3
cell 0 1 0 1
cell 0 2 0 1
cell 1 0 2 3
cell 1 1 1 2
cell 1 2 1 2
cell 2 0 2 3
cell 2 1 1 2
cell 2 2 1 2
visit 9 9
";
    let lines = oracle::Lines::new(&[[0.0, 0.0, 2.0, 0.0], [2.0, 0.0, 2.0, 2.0], [2.0, 2.0, 0.0, 2.0], [0.0, 2.0, 0.0, 0.0]]);
    let built = oracle::build(&lines);
    let (g, offsets, items) = (built.grid(), built.offsets(), built.items());
    let mut text = format!("grid {} {} {:016x} {} {}\n", g.cols, g.rows, g.cell_width.to_bits(), items.len(), built.globals().len());
    for cell in 0..(g.cols * g.rows) as usize {
        let list = &items[offsets[cell] as usize..offsets[cell + 1] as usize];
        if !list.is_empty() {
            text += &format!("cell {} {}", cell as u32 / g.cols, cell as u32 % g.cols);
            list.iter().for_each(|i| text += &format!(" {i}"));
            text += "\n";
        }
    }
    let (tests, pairs) = built.visit(&lines);
    text += &format!("visit {tests} {}\n", pairs.len());
    if text == wanted {
        let as_there = measured.iter().filter(|m| m.1).count();
        println!("sample: the Rust prints document 01's sample; {as_there} of {} measured points are as there", measured.len());
    } else {
        println!("sample: the Rust prints\n{text}where document 01 has\n{wanted}");
    }
    text == wanted && measured.iter().all(|m| m.1)
}

/// Document 02's sizing by axis, by the model alone, at values that are worked out by hand: columns, rows, cell width, cell height, items.
fn by_axis() -> bool {
    use compare::kinds::build::Columns;
    use compare::{model, Line, Mode, Sizing};
    let square = [[0.0, 0.0, 2.0, 0.0], [2.0, 0.0, 2.0, 2.0], [2.0, 2.0, 0.0, 2.0], [0.0, 2.0, 0.0, 0.0]];
    let milli = square.map(|[a, b, c, d]| [a * 1000.0, b, c * 1000.0, d]);
    let wide = [[-1e9, 0.0, 1e9, 0.0], [0.0, 0.0, 0.0, 1e-9], [0.0; 4], [0.0; 4]];
    // 574 points at one place: half the width, half the height, and both once more
    let crowd: Vec<Line> = vec![[0.0, 0.0, 24.0, 48.0], [24.0, 48.0, 0.0, 0.0]].into_iter().chain(vec![[24.0, 48.0, 24.0, 48.0]; 574]).collect();
    let wanted: [(&str, &[Line], (u32, u32, f64, f64, usize)); 7] = [
        ("no lines", &[], (0, 0, 1.0, 1.0, 0)),
        ("one point", &[[0.0; 4]], (1, 1, 1e-6, 1e-6, 1)),
        ("one diagonal", &[[0.0, 0.0, 2.0, 2.0]], (2, 2, 2.0, 2.0, 4)),
        ("the square", &square, (3, 3, 1.0, 1.0, 18)),
        ("the square, x in thousandths", &milli, (3, 3, 1000.0, 1.0, 18)),
        ("2e9 wide, 1e-9 high", &wide, (2, 1, 1e9, 1e-6, 8)),
        ("two halvings", &crowd, (97, 97, 0.25, 0.5, 2 * 289 + 574 * 4)),
    ];
    let mut right = 0;
    for (name, lines, wanted) in wanted {
        let t = model::tables(Columns::new(lines).coordinates(), Sizing::Axes, Mode::Rust, usize::MAX).unwrap();
        let got = (t.grid.cols, t.grid.rows, t.grid.cell_width, t.grid.cell_height, t.items.len());
        if got == wanted {
            right += 1;
        } else {
            println!("sample: the model sizes {name} by axis as {got:?}, where document 02 has {wanted:?}");
        }
    }
    println!("sample: the model has {right} of {} grids by axis as document 02", wanted.len());
    right == wanted.len()
}

/// Document 02's second mode of walk, by the model alone, at values that are worked out by hand: 4 by 4 cells of 1 by 1.
fn by_side() -> bool {
    use compare::{model, Grid, Line, Mode};
    let four = Grid { min_x: 0.0, min_y: 0.0, cell_width: 1.0, cell_height: 1.0, cols: 4, rows: 4 };
    let hair = 2f64.powi(-41);
    let at = |x: f64| [x, 0.5, x, 0.5];
    let wanted: [(&str, Line, &[u32]); 14] = [
        ("P1", [0.5, 0.5, 2.5, 0.5], &[0, 1, 2]),
        ("P2", [1.0, 0.5, 1.0, 2.5], &[0, 1, 4, 5, 8, 9]),
        ("P3", [1.0; 4], &[0, 1, 4, 5]),
        ("P4", at(1.0 + hair), &[0, 1]),
        ("P5", at(1.0 + 4.0 * hair), &[1]),
        ("P6", at(1.0 - hair), &[0, 1]),
        ("off the boundary", at(1.0 - 4.0 * hair), &[0]),
        ("the upper one instead", at(2.0 - hair), &[1, 2]),
        ("the last edge", at(4.0 - hair), &[3]),
        ("under the first edge", at(-hair), &[0, 1]),
        ("a whole line", [1.0 - hair, 0.5, 1.0 - hair, 2.5], &[0, 1, 4, 5, 8, 9]),
        ("a level line", [0.5, 2.0 - hair, 1.5, 2.0 - hair], &[4, 5, 8, 9]),
        ("a corner by two sides", [0.5, 1.5, 1.0 - hair, 1.0], &[0, 1, 4, 5]),
        ("a corner from below", [1.0 - hair; 4], &[0, 1, 4, 5]),
    ];
    let mut right = 0;
    for (name, line, wanted) in wanted {
        let mut cells = Vec::new();
        model::walk(Mode::Sided, &four, &line, &mut cells);
        if cells == wanted {
            right += 1;
        } else {
            println!("sample: the model has the cells {cells:?} at {name} in the sided mode, where document 02 has {wanted:?}");
        }
    }
    println!("sample: the model has {right} of {} walks in the sided mode as document 02", wanted.len());
    right == wanted.len()
}
