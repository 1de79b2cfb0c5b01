//! Times of two or more parties that do the same work, turn by turn, and the bars that ratios are held to.

use std::cell::Cell;

/// Seconds of a processor that this thread has had, on Linux: what else runs on the machine takes part only by the caches.
fn now() -> f64 {
    #[repr(C)]
    #[derive(Default)]
    struct Time {
        seconds: i64,
        nanos: i64,
    }
    extern "C" {
        fn clock_gettime(clock: i32, time: *mut Time) -> i32;
    }
    const THREAD_CPUTIME: i32 = 3;
    let mut time = Time::default();
    // SAFETY: a struct of two 64-bit numbers, as a 64-bit Linux has it, that lives through the call.
    assert_eq!(unsafe { clock_gettime(THREAD_CPUTIME, &mut time) }, 0);
    time.seconds as f64 + time.nanos as f64 * 1e-9
}

/// A turn is repeated until the fastest party takes about so long, in seconds.
const TURN: f64 = 1e-3;

pub struct Clock {
    rounds: usize,
    bars: Cell<usize>,
    met: Cell<usize>,
}

/// The times of each party in seconds, round by round. The port is the first.
pub struct Times(Vec<Vec<f64>>);

fn median(mut all: Vec<f64>) -> f64 {
    all.sort_by(f64::total_cmp);
    all[all.len() / 2]
}

impl Times {
    pub fn of(&self, party: usize) -> f64 {
        median(self.0[party].clone())
    }

    /// The time of one party without what another takes, which it does too.
    pub fn beyond(&self, party: usize, part: usize) -> f64 {
        median(self.0[party].iter().zip(&self.0[part]).map(|(a, c)| a - c).collect())
    }

    /// The time of one party by that of another, both without what a third takes, which they do too.
    pub fn ratio_beyond(&self, party: usize, other: usize, part: usize) -> f64 {
        median((0..self.0[part].len()).map(|i| (self.0[party][i] - self.0[part][i]) / (self.0[other][i] - self.0[part][i])).collect())
    }

    /// The time of one party by that of another, taken round by round.
    pub fn ratio(&self, party: usize, other: usize) -> f64 {
        median(self.0[party].iter().zip(&self.0[other]).map(|(a, b)| a / b).collect())
    }
}

impl Clock {
    pub fn new(rounds: usize) -> Self {
        Clock { rounds, bars: Cell::new(0), met: Cell::new(0) }
    }

    pub fn head(&self, text: &str) {
        println!("\n{text}");
    }

    /// Times all parties in each round. Each round begins with another party, since what one leaves in the caches meets the next.
    pub fn turns(&self, parties: &mut [&mut dyn FnMut()]) -> Times {
        // the first round warms up, and says how often a turn is repeated
        let mut fastest = f64::INFINITY;
        for party in parties.iter_mut() {
            let begun = now();
            party();
            fastest = fastest.min(now() - begun);
        }
        let repeats = (TURN / fastest.max(1e-9)).ceil().max(1.0) as usize;
        let mut times = vec![Vec::with_capacity(self.rounds); parties.len()];
        for round in 0..self.rounds {
            for k in 0..parties.len() {
                let k = (round + k) % parties.len();
                let begun = now();
                for _ in 0..repeats {
                    parties[k]();
                }
                times[k].push((now() - begun) / repeats as f64);
            }
        }
        Times(times)
    }

    /// The least time of one party alone, in seconds: over as many rounds as take about `most` seconds, two at least. Where nobody takes turns with
    /// it, what else runs only adds.
    pub fn alone(&self, most: f64, party: &mut dyn FnMut()) -> f64 {
        let mut timed = || {
            let begun = now();
            party();
            now() - begun
        };
        let first = timed();
        let rounds = ((most / first) as usize).clamp(1, self.rounds);
        (0..rounds).map(|_| timed()).fold(first, f64::min)
    }

    /// Times the port and the Rust, and prints them.
    pub fn both(&self, name: &str, unit: &str, units: usize, bar: Option<f64>, port: &mut dyn FnMut(), rust: &mut dyn FnMut()) {
        self.show(name, unit, units, bar, &self.turns(&mut [port, rust]), &[]);
    }

    /// Prints nanoseconds for each of `units` of the first two parties, and the ratio beside its bar; in brackets the port against each further party.
    pub fn show(&self, name: &str, unit: &str, units: usize, bar: Option<f64>, times: &Times, others: &[&str]) {
        let ns = |party: usize| times.of(party) * 1e9 / units as f64;
        let ratio = times.ratio(0, 1);
        let others: Vec<String> = others.iter().zip(2..).map(|(what, k)| format!("{what} {:.2} ns, {:.3}", ns(k), times.ratio(0, k))).collect();
        let others = if others.is_empty() { String::new() } else { format!("  ({})", others.join("; ")) };
        println!("  {name:<44} port {:>9.2}  Rust {:>9.2} ns a {unit:<6} port/Rust {ratio:.3}{}{others}", ns(0), ns(1), self.held(ratio, bar));
    }

    /// The same of the first two parties, without what the third takes, which they do too.
    pub fn show_beyond(&self, name: &str, unit: &str, units: usize, bar: Option<f64>, times: &Times) {
        let ns = |party: usize| times.beyond(party, 2) * 1e9 / units as f64;
        let ratio = times.ratio_beyond(0, 1, 2);
        println!("  {name:<44} port {:>9.2}  Rust {:>9.2} ns a {unit:<6} port/Rust {ratio:.3}{}", ns(0), ns(1), self.held(ratio, bar));
    }

    /// The bar of a ratio, and whether it is met. Each is counted.
    pub fn held(&self, ratio: f64, bar: Option<f64>) -> String {
        let Some(bar) = bar else { return String::new() };
        let met = ratio <= bar;
        self.bars.set(self.bars.get() + 1);
        self.met.set(self.met.get() + met as usize);
        format!("  bar {bar:?} {}", if met { "ok" } else { "MISSED" })
    }

    /// How the time grows from one size to the next. `work` says how often as much work that is.
    pub fn growth(&self, name: &str, work: &str, port: [&mut dyn FnMut(); 2], rust: [&mut dyn FnMut(); 2]) {
        let ([port, more_port], [rust, more_rust]) = (port, rust);
        let times = self.turns(&mut [port, more_port, rust, more_rust]);
        println!("  {name:<44} port {:>9.2}  Rust {:>9.2} times the time, for {work}", times.ratio(1, 0), times.ratio(3, 2));
    }

    pub fn end(&self) {
        println!("\n{} of {} bars are met", self.met.get(), self.bars.get());
    }
}
