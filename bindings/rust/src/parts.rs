//! Any number of lines: in parts, every two of them together.

use crate::refusal::Refusal;
use crate::{LineVec, Lines, Mode, Plan, Room, Tables, MAX_LINES};
use std::iter::FusedIterator;
use std::ops::Range;

/// Lines of any number, cut in parts of at most 32,768, with a build for every two parts. Two lines of different parts stand together in one build
/// alone. Two lines of one part stand together in several: their pairs are taken from the first, which for the parts A, B, C and D is AB for those
/// inside A and inside B, AC for those inside C, and AD for those inside D. So no pair is handed out twice.
///
/// In the covering mode, which is the default here, every two lines that share a point are handed out. Up to 65,536 lines there is one build, of all.
///
/// What a build does is proved; that the parts are put together rightly is tested.
///
/// ```
/// use morelturret::{Lines, Parts};
///
/// let (x, y) = ([0.0, 1.0, 2.0, 3.0, 4.0, 5.0, 6.0], [0.0; 7]);
/// let parts = Parts::of(Lines::chain(&x, &y))?.of_at_most(2);
/// assert_eq!(parts.builds(), 3);
/// let mut pairs = Vec::new();
/// for of_build in parts.pairs() {
///     pairs.extend(of_build?);
/// }
/// pairs.sort();
/// assert_eq!(pairs, [(0, 1), (1, 2), (2, 3), (3, 4), (4, 5)]);
/// # Ok::<(), morelturret::Refusal>(())
/// ```
#[derive(Clone, Debug)]
pub struct Parts<'a> {
    lines: Lines<'a>,
    plan: Plan,
    most: usize,
}

impl<'a> Parts<'a> {
    /// The parts of these lines, to be built on square cells in the covering mode: [`Parts::planned`] by that plan.
    ///
    /// Refuses by 3 (lengths).
    pub fn of(lines: Lines<'a>) -> Result<Parts<'a>, Refusal> {
        Parts::planned(lines, Mode::Covering)
    }

    /// The parts of these lines, to be built by a plan. Only in the covering mode is every two lines that share a point handed out, and a
    /// [`Sizing`](crate::Sizing) alone is a plan by the Rust's walk: so name both, as `Plan { sizing: Sizing::Axes, mode: Mode::Covering }`.
    ///
    /// Refuses by 3 (lengths).
    pub fn planned(lines: Lines<'a>, plan: impl Into<Plan>) -> Result<Parts<'a>, Refusal> {
        let Lines { start_x, start_y, end_x, end_y } = lines;
        if [start_y, end_x, end_y].iter().any(|side| side.len() != start_x.len()) {
            return Err(Refusal { number: Refusal::BAD_LENGTHS, value: 0 });
        }
        Ok(Parts { lines, plan: plan.into(), most: MAX_LINES / 2 })
    }

    /// The same lines in parts of at most so many: 0 is taken as 1, and more than 32,768 as 32,768. Smaller parts make more builds, and each needs less
    /// room.
    pub fn of_at_most(self, most: usize) -> Parts<'a> {
        Parts { most: most.clamp(1, MAX_LINES / 2), ..self }
    }

    /// How many builds there will be: for k parts k (k - 1) / 2, and one where two parts are enough.
    pub fn builds(&self) -> usize {
        let count = self.count();
        (count * (count - 1) / 2).max(1)
    }

    /// The pairs of lines whose boxes overlap and that share a cell of their build, or one of which is global there: for each build a vector, in the
    /// order of its visit, with the numbers that the lines have among all. No pair comes twice, in whichever order of its two lines.
    ///
    /// A build can be refused by 1 (a coordinate) and, in modes other than the covering one, by 7 (a walk too long); the value is the number that
    /// the line has among all. The first refusal by 1 names the first such line. The pairs of that build are then missing; the next builds are made
    /// where they are asked for.
    pub fn pairs(&self) -> PartPairs<'a> {
        PartPairs { parts: self.clone(), next: Some((0, 1)), tables: Tables::with_room(Room { offsets: 0, items: 0, globals: 0 }) }
    }

    /// How many parts there are. Where two are enough it is 1, since all lines are then built at once.
    fn count(&self) -> usize {
        if self.lines.len() <= 2 * self.most {
            1
        } else {
            (self.lines.len() - 1) / self.most + 1
        }
    }

    /// The lines of part k: parts differ by one line at most.
    fn part(&self, k: usize) -> Range<usize> {
        let (n, count) = (self.lines.len() as u128, self.count() as u128);
        let edge = |k: usize| (n * k as u128 / count) as usize;
        edge(k)..edge(k + 1)
    }
}

/// The pairs of each build: see [`Parts::pairs`].
#[derive(Clone, Debug)]
pub struct PartPairs<'a> {
    parts: Parts<'a>,
    /// The two parts that are built next, the lower first.
    next: Option<(usize, usize)>,
    /// Kept, so that their room is.
    tables: Tables,
}

impl PartPairs<'_> {
    /// The pairs that are taken from the build of two parts.
    fn of_build(&mut self, a: usize, b: usize) -> Result<Vec<(usize, usize)>, Refusal> {
        let (lower, upper) = match self.parts.count() {
            1 => (self.parts.part(0), 0..0),
            _ => (self.parts.part(a), self.parts.part(b)),
        };
        let size = lower.len();
        let number = |line: usize| if line < size { lower.start + line } else { upper.start + (line - size) };
        let owned: LineVec = lower.clone().chain(upper.clone()).filter_map(|i| self.parts.lines.get(i)).collect();
        let pairs = self.tables.fill(owned.lines(), self.parts.plan).and_then(|()| self.tables.pairs_once(owned.lines()));
        let pairs = pairs.map_err(|refusal| match refusal.number {
            Refusal::BAD_COORDINATE | Refusal::WALK_TOO_LONG => Refusal { value: number(refusal.value as usize) as u64, ..refusal },
            _ => refusal,
        })?;
        // inside the lower part from its first build, which for parts 0 and 1 is (0, 1); inside the upper from that with part 0
        let taken = |first: usize, second: usize| match (first < size, second < size) {
            (true, true) => b == 1,
            (false, false) => a == 0,
            _ => true,
        };
        let pairs = pairs.into_iter().map(|(first, second)| (first as usize, second as usize));
        Ok(pairs.filter(|&(first, second)| taken(first, second)).map(|(first, second)| (number(first), number(second))).collect())
    }
}

impl Iterator for PartPairs<'_> {
    type Item = Result<Vec<(usize, usize)>, Refusal>;

    fn next(&mut self) -> Option<Self::Item> {
        let (a, b) = self.next?;
        let after = if a + 1 < b { (a + 1, b) } else { (0, b + 1) };
        self.next = (after.1 < self.parts.count()).then_some(after);
        Some(self.of_build(a, b))
    }
}

impl FusedIterator for PartPairs<'_> {}
