//! The projection's derived numbers and the three projections: rows of 24 words.

use crate::{
    numbers::{corners, mixed},
    random::Random,
    vectors::{any_vector, in_range, ONE},
};
use reference::door;

pub const ROW_WORDS: usize = 24;
/// Where a row's outcome stands: the answer and four results.
pub const OUTCOME: std::ops::Range<usize> = 11..16;

const DERIVED: u32 = 0;
const PROJECT: u32 = 1;
const DUAL_PROJECT: u32 = 2;
const DUAL_PROJECT_UNSCALED: u32 = 3;
pub const NAMES: [&str; 4] = [
    "derived",
    "project",
    "dual_project",
    "dual_project_unscaled",
];

/// Seed of the rows that no corner fixes.
const SEED: u64 = 0x7072_6F6A;

#[derive(Copy, Clone, PartialEq, Eq, Debug)]
pub struct ProjectionRow {
    pub op: u32,
    /// Projection, dual and freedom vector, x then y.
    pub vectors: [i32; 6],
    /// The two points, x then y.
    pub points: [i32; 4],
}

/// The answer's number, and the results where it is 0.
#[derive(Copy, Clone, PartialEq, Eq, Debug)]
pub struct ProjectionOutcome {
    pub answer: u32,
    pub results: [i32; 4],
}

impl ProjectionRow {
    pub fn is_known(&self) -> bool {
        self.op <= DUAL_PROJECT_UNSCALED
    }

    pub fn outcome(&self) -> ProjectionOutcome {
        if !in_range(self.vectors) {
            return ProjectionOutcome {
                answer: 3,
                results: [0; 4],
            };
        }
        let results = match self.op {
            DERIVED => self.derived(),
            _ => [self.projected(), 0, 0, 0],
        };
        ProjectionOutcome { answer: 0, results }
    }

    fn derived(&self) -> [i32; 4] {
        let derived = door::derived(self.vectors);
        let [projection, dual, freedom] = derived.axes.map(|axis| axis as i32);
        [derived.fdotp, projection, dual, freedom]
    }

    fn projected(&self) -> i32 {
        let [x1, y1, x2, y2] = self.points;
        let project = match self.op {
            PROJECT => door::project,
            DUAL_PROJECT => door::dual_project,
            _ => door::dual_project_unscaled,
        };
        project(self.vectors, (x1, y1), (x2, y2))
    }

    pub fn words(&self) -> [u32; ROW_WORDS] {
        let mut words = [0; ROW_WORDS];
        let outcome = self.outcome();
        let given = self.vectors.iter().chain(&self.points);
        let numbers = given.map(|number| *number as u32);
        let results = outcome.results.iter().map(|result| *result as u32);
        let all = std::iter::once(self.op)
            .chain(numbers)
            .chain(std::iter::once(outcome.answer))
            .chain(results);
        for (word, value) in words.iter_mut().zip(all) {
            *word = value;
        }
        words
    }

    pub fn from_words(words: &[u32]) -> Self {
        let number = |index: usize| words[index] as i32;
        Self {
            op: words[0],
            vectors: [1, 2, 3, 4, 5, 6].map(number),
            points: [7, 8, 9, 10].map(number),
        }
    }

    pub fn name(&self) -> &'static str {
        NAMES[self.op as usize]
    }

    /// Size for sorting: small numbers first.
    pub fn weight(&self) -> u64 {
        let numbers = self.vectors.iter().chain(&self.points);
        numbers.map(|number| u64::from(number.unsigned_abs())).sum()
    }
}

impl std::fmt::Display for ProjectionRow {
    fn fmt(&self, f: &mut std::fmt::Formatter) -> std::fmt::Result {
        let name = self.name();
        write!(
            f,
            "{name} vectors {:?} points {:?}",
            self.vectors, self.points
        )
    }
}

impl std::fmt::Display for ProjectionOutcome {
    fn fmt(&self, f: &mut std::fmt::Formatter) -> std::fmt::Result {
        write!(f, "answer {} results {:?}", self.answer, self.results)
    }
}

/// Document 01's rows of fdotp: along x, along y, and by the sum of products.
pub fn rows_of_01() -> Vec<(ProjectionRow, i32)> {
    let mut rows = Vec::new();
    for (before, after) in [
        (0x3FF, 0x4000),
        (-0x3FF, 0x4000),
        (0x400, 0x400),
        (-0x400, -0x400),
    ] {
        let along_x = [before, 16352, before, 16352, ONE, 0];
        let along_y = [16352, before, 16352, before, 0, ONE];
        // The floor of a sum of products; its freedom vector is no axis.
        let by_sum = [0, before, 0, before, ONE - 1, ONE];
        let by_products = [before * 16, 0, before * 16, 0, 0x400, 16352];
        for vectors in [along_x, along_y, by_sum, by_products] {
            rows.push((derived_row(vectors), after));
        }
    }
    rows
}

fn derived_row(vectors: [i32; 6]) -> ProjectionRow {
    ProjectionRow {
        op: DERIVED,
        vectors,
        points: [0; 4],
    }
}

/// The committed sample: 01's rows, every corner, then random rows.
pub fn sample() -> Vec<ProjectionRow> {
    let mut rows: Vec<ProjectionRow> = rows_of_01().into_iter().map(|(row, _)| row).collect();
    let mut random = Random::new(SEED);
    rows.extend(component_corners(&mut random));
    rows.extend(point_corners(&mut random));
    rows.extend(exact_halves());
    rows.extend((0..2200).map(|_| random_row(&mut random)));
    rows
}

/// Each component at and around its ends, zero and the ends of the word.
fn component_corners(random: &mut Random) -> Vec<ProjectionRow> {
    let turns = [
        0,
        1,
        -1,
        0x3FF,
        0x400,
        11585,
        ONE - 1,
        ONE,
        ONE + 1,
        -0x3FF,
        -0x400,
        -11585,
        1 - ONE,
        -ONE,
        -1 - ONE,
        i32::MAX,
        i32::MIN,
    ];
    let mut rows = Vec::new();
    for place in 0..6 {
        for turn in turns {
            for op in [DERIVED, PROJECT, DUAL_PROJECT, DUAL_PROJECT_UNSCALED] {
                let mut row = inside_row(random, op);
                row.vectors[place] = turn;
                rows.push(row);
            }
        }
    }
    rows
}

/// Each corner in each coordinate of each projection.
fn point_corners(random: &mut Random) -> Vec<ProjectionRow> {
    let mut rows = Vec::new();
    for corner in corners() {
        for place in 0..4 {
            for op in [PROJECT, DUAL_PROJECT, DUAL_PROJECT_UNSCALED] {
                let mut row = inside_row(random, op);
                row.points[place] = corner;
                rows.push(row);
            }
        }
    }
    rows
}

/// Projections that lie exactly between two results.
fn exact_halves() -> Vec<ProjectionRow> {
    let mut rows = Vec::new();
    for vector in [
        [0x2000, 0],
        [0, 0x2000],
        [0x2000, 0x1000],
        [-0x2000, 0],
        [0, -0x2000],
    ] {
        for odd in [1, -1, 3, -3, 63, -63, i32::MAX, -i32::MAX] {
            for op in [PROJECT, DUAL_PROJECT, DUAL_PROJECT_UNSCALED] {
                let [x, y] = vector;
                rows.push(ProjectionRow {
                    op,
                    vectors: [x, y, x, y, ONE, 0],
                    points: [odd, odd, 0, 0],
                });
            }
        }
    }
    rows
}

/// A row whose vectors are all in range.
fn inside_row(random: &mut Random, op: u32) -> ProjectionRow {
    loop {
        let mut row = random_row(random);
        row.op = op;
        if in_range(row.vectors) {
            return row;
        }
    }
}

/// A random row of any op, for samples and comparisons alike.
pub fn random_row(random: &mut Random) -> ProjectionRow {
    let op = random.below(4) as u32;
    let [px, py] = any_vector(random);
    let [dx, dy] = any_vector(random);
    let [fx, fy] = any_vector(random);
    let points = if op == DERIVED {
        [0; 4]
    } else {
        [(); 4].map(|_| mixed(random))
    };
    ProjectionRow {
        op,
        vectors: [px, py, dx, dy, fx, fy],
        points,
    }
}
