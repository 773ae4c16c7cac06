//! The three sides: the proved library, the yardstick, and the Rust's own engine over buffers that were prepared.

use crate::world::World;
use reference::door::{Buffers, Outline, Pair, Rounding, State};

/// The C call that the library and the yardstick have in common.
type Run = unsafe extern "C" fn(
    u32,
    usize,
    u64,
    *mut u32,
    usize,
    *const i32,
    usize,
    *const i32,
    usize,
    *const i32,
    usize,
    *const i32,
    usize,
    *const i32,
    usize,
    *const i32,
    usize,
    *mut i32,
    usize,
    *mut i32,
    usize,
    *mut u8,
    usize,
    *const u16,
    usize,
    *mut i32,
    usize,
    *mut i32,
    usize,
    *mut i32,
    usize,
    *mut i32,
    usize,
    *mut u8,
    usize,
    *mut u64,
    usize,
) -> u32;

extern "C" {
    fn taleviqa_run(
        rules: u32,
        start: usize,
        budget: u64,
        state: *mut u32,
        state_length: usize,
        sheet: *const i32,
        sheet_length: usize,
        controls: *const i32,
        controls_length: usize,
        unscaled_x: *const i32,
        unscaled_x_length: usize,
        unscaled_y: *const i32,
        unscaled_y_length: usize,
        original_x: *const i32,
        original_x_length: usize,
        original_y: *const i32,
        original_y_length: usize,
        x: *mut i32,
        x_length: usize,
        y: *mut i32,
        y_length: usize,
        flags: *mut u8,
        flags_length: usize,
        contours: *const u16,
        contours_length: usize,
        twilight_original_x: *mut i32,
        twilight_original_x_length: usize,
        twilight_original_y: *mut i32,
        twilight_original_y_length: usize,
        twilight_x: *mut i32,
        twilight_x_length: usize,
        twilight_y: *mut i32,
        twilight_y_length: usize,
        twilight_flags: *mut u8,
        twilight_flags_length: usize,
        answer: *mut u64,
        answer_length: usize,
    ) -> u32;
}

pub const NAMES: [&str; 3] = ["ours", "yardstick", "skrifa"];
pub const OURS: usize = 0;
pub const YARDSTICK: usize = 1;

/// The rules that every side has: those of the Rust.
const RULES: u32 = 0;

/// A side with a world of its own.
pub enum Side {
    Called(Run, World),
    Engine(Box<Prepared>),
}

/// What the Rust's engine works on.
pub struct Prepared {
    state: State,
    buffers: Buffers,
    sheet: Vec<i32>,
}

impl Side {
    pub fn new(side: usize, world: &World) -> Self {
        match side {
            OURS => Self::Called(taleviqa_run, world.clone()),
            YARDSTICK => Self::Called(yardstick::yardstick_run, world.clone()),
            _ => Self::Engine(Box::new(Prepared::new(world))),
        }
    }

    /// The buffers as they were.
    pub fn restore(&mut self, world: &World) {
        match self {
            Self::Called(_, own) => own.restore(world),
            Self::Engine(prepared) => **prepared = Prepared::new(world),
        }
    }

    /// What is measured: one run.
    #[inline(never)]
    pub fn run(&mut self) -> u32 {
        match self {
            Self::Called(run, world) => call(*run, world),
            Self::Engine(prepared) => prepared.run(),
        }
    }

    /// The number, and what a run leaves that every side has: points, flags and the state, but for its three counts and what was pushed last.
    pub fn left(&self, world: &World) -> World {
        match self {
            Self::Called(_, own) => {
                let mut left = own.clone();
                left.answer = [0; 4];
                for word in [26, 32, 33] {
                    left.state[word] = 0;
                }
                left
            }
            Self::Engine(prepared) => prepared.left(world),
        }
    }
}

fn call(run: Run, world: &mut World) -> u32 {
    let World {
        state,
        sheet,
        controls,
        unscaled,
        original,
        current,
        flags,
        contours,
        twilight_original,
        twilight,
        twilight_flags,
        answer,
    } = world;
    unsafe {
        run(
            RULES,
            0,
            u64::MAX,
            state.as_mut_ptr(),
            state.len(),
            sheet.as_ptr(),
            sheet.len(),
            controls.as_ptr(),
            controls.len(),
            unscaled[0].as_ptr(),
            unscaled[0].len(),
            unscaled[1].as_ptr(),
            unscaled[1].len(),
            original[0].as_ptr(),
            original[0].len(),
            original[1].as_ptr(),
            original[1].len(),
            current[0].as_mut_ptr(),
            current[0].len(),
            current[1].as_mut_ptr(),
            current[1].len(),
            flags.as_mut_ptr(),
            flags.len(),
            contours.as_ptr(),
            contours.len(),
            twilight_original[0].as_mut_ptr(),
            twilight_original[0].len(),
            twilight_original[1].as_mut_ptr(),
            twilight_original[1].len(),
            twilight[0].as_mut_ptr(),
            twilight[0].len(),
            twilight[1].as_mut_ptr(),
            twilight[1].len(),
            twilight_flags.as_mut_ptr(),
            twilight_flags.len(),
            answer.as_mut_ptr(),
            answer.len(),
        )
    }
}

fn pairs(lists: &[Vec<i32>; 2]) -> Vec<Pair> {
    lists[0]
        .iter()
        .copied()
        .zip(lists[1].iter().copied())
        .collect()
}

fn outline(original: &[Vec<i32>; 2], current: &[Vec<i32>; 2], flags: &[u8]) -> Outline {
    Outline::new(&pairs(original), &pairs(current), flags)
}

impl Prepared {
    fn new(world: &World) -> Self {
        Self {
            state: state_of(&world.state),
            buffers: Buffers::new(
                &pairs(&world.unscaled),
                outline(&world.original, &world.current, &world.flags),
                &world.contours,
                outline(
                    &world.twilight_original,
                    &world.twilight,
                    &world.twilight_flags,
                ),
                &world.controls,
                world.sheet.len(),
            ),
            sheet: world.sheet.clone(),
        }
    }

    /// Each line's operands are put on the engine's own stack, and its dispatch does the rest.
    fn run(&mut self) -> u32 {
        let sheet = &self.sheet;
        self.buffers.with_machine(&mut self.state, |machine| {
            let mut words = &sheet[..];
            while let [opcode, count, rest @ ..] = words {
                let (operands, behind) = rest.split_at(*count as usize);
                if machine.instruct(*opcode as u8, operands).is_err() {
                    return 1;
                }
                words = behind;
            }
            0
        })
    }

    fn left(&self, world: &World) -> World {
        let mut left = world.clone();
        left.state = words_of(&self.state);
        let kept = |pairs: Vec<Pair>| {
            let (xs, ys) = pairs.into_iter().unzip();
            [xs, ys]
        };
        let (glyph, twilight) = (self.buffers.glyph(), self.buffers.twilight());
        left.current = kept(glyph.current().collect());
        left.flags = glyph.flags().collect();
        left.twilight_original = kept(twilight.original().collect());
        left.twilight = kept(twilight.current().collect());
        left.twilight_flags = twilight.flags().collect();
        left
    }
}

fn state_of(words: &[u32]) -> State {
    let number = |at: usize| words[at] as i32;
    let reference = |at: usize| u64::from(words[at]) | u64::from(words[at + 1]) << 32;
    State {
        vectors: [0, 1, 2, 3, 4, 5].map(number),
        rounding: Rounding {
            mode: words[6],
            threshold: number(7),
            phase: number(8),
            period: number(9),
        },
        references: [10, 12, 14].map(reference),
        loop_counter: words[16],
        zones: [words[17], words[18], words[19]],
        backward_compatibility: words[20] == 1,
        pedantic: words[21] == 1,
        native_cleartype_x: words[22] == 1,
        x_interpolated: words[23] == 1,
        y_interpolated: words[24] == 1,
        cut_in: number(25),
        wrapped_roundings: 0,
        min_distance: number(27),
        single_width: number(28),
        single_width_cut_in: number(29),
        auto_flip: words[30] == 1,
        scale: number(31),
        last_pushed: 0,
        pushes: 0,
    }
}

fn words_of(state: &State) -> Vec<u32> {
    let mut words: Vec<u32> = state.vectors.map(|number| number as u32).to_vec();
    let rounding = &state.rounding;
    words.push(rounding.mode);
    words.extend([rounding.threshold, rounding.phase, rounding.period].map(|number| number as u32));
    words.extend(
        state
            .references
            .iter()
            .flat_map(|at| [*at as u32, (*at >> 32) as u32]),
    );
    words.push(state.loop_counter);
    words.extend(state.zones);
    words.extend(
        [
            state.backward_compatibility,
            state.pedantic,
            state.native_cleartype_x,
            state.x_interpolated,
            state.y_interpolated,
        ]
        .map(u32::from),
    );
    words.extend([state.cut_in as u32, 0]);
    words.extend(
        [
            state.min_distance,
            state.single_width,
            state.single_width_cut_in,
        ]
        .map(|number| number as u32),
    );
    words.extend([u32::from(state.auto_flip), state.scale as u32, 0, 0]);
    words
}
