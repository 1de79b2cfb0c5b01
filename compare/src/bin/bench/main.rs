//! bench [--seed S] [--rounds R] [STAGE..]: times of the port and of the Rust, in one process, turn by turn, and the bytes that each uses.
//! Prints medians, port / Rust, and beside a ratio that has a bar, the bar and whether it is met. Without stages, all of them.

mod added;
mod blocks;
mod clock;
mod counts;
mod covers;
mod crossings;
mod geos;
mod heap;
mod legs;
mod members;
mod numbers;
mod orderings;
mod points;
mod sizings;
mod walks;
mod windows;
mod year;

use compare::random::Random;
use compare::Mode;

fn main() {
    let mut words = std::env::args().skip(1);
    let (mut seed, mut rounds, mut asked) = (1, 15, Vec::new());
    while let Some(word) = words.next() {
        let mut number = || words.next().and_then(|w| w.parse::<u64>().ok()).unwrap_or_else(|| stop());
        match word.as_str() {
            "--seed" => seed = number(),
            "--rounds" => rounds = number().max(1) as usize,
            stage if STAGES.contains(&stage) => asked.push(word),
            _ => stop(),
        }
    }
    println!("seed {seed}, {rounds} rounds, medians");
    let clock = &clock::Clock::new(rounds);
    let wanted = |stage: &str| asked.is_empty() || asked.iter().any(|a| a == stage);
    let r = &mut Random::new(seed);
    if wanted("numbers") {
        numbers::times(clock, r);
    }
    if wanted("walks") {
        walks::times(clock, r);
    }
    if wanted("covers") {
        covers::times(clock, &mut Random::new(seed));
        legs::builds(clock, &mut Random::new(seed), Mode::Covering);
    }
    if wanted("orderings") {
        orderings::times(clock, &mut Random::new(seed));
    }
    if ["builds", "visits", "once", "memory"].into_iter().any(wanted) {
        let years = [1023, 8192, 65536].map(|n| year::Year::new(r, n));
        if wanted("builds") {
            year::builds(clock, &years);
            legs::builds(clock, &mut Random::new(seed), Mode::Rust);
        }
        if wanted("visits") {
            year::visits(clock, &years);
        }
        if wanted("once") {
            year::once(clock, &years, seed);
        }
        if wanted("memory") {
            year::memory(clock, &years[2]);
        }
    }
    if wanted("resume") {
        year::resumed(clock, seed);
    }
    if wanted("trees") {
        year::trees(clock, seed);
    }
    if wanted("points") {
        points::owners(clock, r);
        points::snaps(clock, r);
    }
    if wanted("sizings") {
        sizings::times(clock, seed);
    }
    if wanted("members") {
        members::times(clock, &mut Random::new(seed));
    }
    if wanted("counts") {
        counts::times(clock, &mut Random::new(seed));
    }
    if wanted("added") {
        added::times(clock, &mut Random::new(seed));
    }
    if wanted("window") {
        windows::times(clock, seed);
    }
    if wanted("crossings") {
        crossings::times(clock, seed);
    }
    if wanted("blocks") {
        blocks::times(clock, &mut Random::new(seed));
    }
    clock.end();
}

const STAGES: [&str; 18] =
    ["numbers", "walks", "covers", "orderings", "builds", "visits", "once", "memory", "points", "sizings", "members", "counts", "added", "blocks", "window", "crossings", "resume", "trees"];

fn stop() -> ! {
    eprintln!("bench [--seed S] [--rounds R] [STAGE..], with STAGE one of {}", STAGES.join(" "));
    std::process::exit(2)
}
