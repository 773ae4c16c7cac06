//! Small worlds written by hand, for claims about single lines.

use crate::{answer::Answer, case::Case, direct::Call, rules::Rules, world::*};
use reference::door::{Pair, Refused, State};

/// A world to be run, in document 01's fresh state unless told otherwise.
#[derive(Clone)]
pub struct Scene {
    world: World,
}

/// What a scene's run left.
pub struct Played {
    pub answer: Answer,
    pub world: World,
}

impl Scene {
    /// Points that stand where they were, all on the curve and untouched.
    pub fn new(points: &[Pair]) -> Self {
        let world = World {
            state: fresh_state(),
            lists: Default::default(),
        };
        let mut scene = Self { world };
        for x in [UNSCALED_X, ORIGINAL_X, CURRENT_X] {
            scene.put(x, points);
        }
        scene.world.lists[FLAGS] = vec![1; points.len()];
        scene
    }

    pub fn unscaled(self, points: &[Pair]) -> Self {
        self.with(UNSCALED_X, points)
    }

    pub fn original(self, points: &[Pair]) -> Self {
        self.with(ORIGINAL_X, points)
    }

    /// Twilight points: originals, then currents.
    pub fn twilight(self, original: &[Pair], current: &[Pair]) -> Self {
        let mut scene = self
            .with(TWILIGHT_ORIGINAL_X, original)
            .with(TWILIGHT_CURRENT_X, current);
        scene.world.lists[TWILIGHT_FLAGS] = vec![1; original.len()];
        scene
    }

    pub fn flags(self, flags: &[u32]) -> Self {
        self.with_words(FLAGS, flags)
    }

    /// Those of the twilight points, which must be there by then.
    pub fn twilight_flags(self, flags: &[u32]) -> Self {
        self.with_words(TWILIGHT_FLAGS, flags)
    }

    pub fn contours(self, ends: &[u32]) -> Self {
        self.with_words(CONTOURS, ends)
    }

    pub fn control_values(self, values: &[i32]) -> Self {
        self.with_words(CONTROL_VALUES, &unsigned(values))
    }

    pub fn sheet(self, words: &[i32]) -> Self {
        self.with_words(SHEET, &unsigned(words))
    }

    pub fn state(mut self, change: impl FnOnce(&mut State)) -> Self {
        change(&mut self.world.state);
        self
    }

    pub fn play(&self) -> Played {
        self.call(Call::run(0, u64::MAX))
    }

    /// The same by FreeType's rules.
    pub fn play_by_freetype(&self) -> Played {
        self.call(Call::Run {
            start: 0,
            budget: u64::MAX,
            rules: Rules::FreeType,
        })
    }

    pub fn call(&self, call: Call) -> Played {
        let mut world = self.world.clone();
        let answer = call.perform(&mut world).answer;
        Played { answer, world }
    }

    /// The sheet's one line as the Rust decides it by itself: its refusal, if
    /// it has one, and what it left.
    pub fn by_the_rust_alone(&self) -> (Option<Refused>, Played) {
        let mut world = self.world.clone();
        let sheet = world.sheet();
        let mut buffers = world.buffers();
        let refused = buffers.with_machine(&mut world.state, |machine| {
            machine.instruct(sheet[0] as u8, &sheet[2..]).err()
        });
        world.keep(&buffers);
        let answer = Answer::default();
        (refused, Played { answer, world })
    }

    pub fn world(&self) -> &World {
        &self.world
    }

    pub fn case(&self, call: Call) -> Case {
        Case {
            call,
            world: self.world.clone(),
        }
    }

    fn with(mut self, x: usize, points: &[Pair]) -> Self {
        self.put(x, points);
        self
    }

    fn with_words(mut self, list: usize, words: &[u32]) -> Self {
        self.world.lists[list] = words.to_vec();
        self
    }

    fn put(&mut self, x: usize, points: &[Pair]) {
        self.world.lists[x] = points.iter().map(|point| point.0 as u32).collect();
        self.world.lists[x + 1] = points.iter().map(|point| point.1 as u32).collect();
    }
}

impl Played {
    /// Number and detail.
    pub fn said(&self) -> (u32, u64) {
        (self.answer.number, self.answer.detail)
    }

    pub fn point(&self, index: usize) -> Pair {
        self.pair(CURRENT_X, index)
    }

    pub fn twilight_original(&self, index: usize) -> Pair {
        self.pair(TWILIGHT_ORIGINAL_X, index)
    }

    pub fn twilight_point(&self, index: usize) -> Pair {
        self.pair(TWILIGHT_CURRENT_X, index)
    }

    pub fn xs(&self) -> Vec<i32> {
        signed(&self.world.lists[CURRENT_X])
    }

    pub fn ys(&self) -> Vec<i32> {
        signed(&self.world.lists[CURRENT_Y])
    }

    pub fn flags(&self) -> &[u32] {
        &self.world.lists[FLAGS]
    }

    pub fn loop_counter(&self) -> u32 {
        self.world.state.loop_counter
    }

    fn pair(&self, x: usize, index: usize) -> Pair {
        let lists = &self.world.lists;
        (lists[x][index] as i32, lists[x + 1][index] as i32)
    }
}

fn signed(words: &[u32]) -> Vec<i32> {
    words.iter().map(|word| *word as i32).collect()
}

fn unsigned(numbers: &[i32]) -> Vec<u32> {
    numbers.iter().map(|number| *number as u32).collect()
}
