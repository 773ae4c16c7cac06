//! What a call is given and may change: the state and the fifteen lists.

use crate::words::{halves, joined};
use reference::door::{Buffers, Outline, Pair, Rounding, State};

pub const STATE_WORDS: usize = 34;
pub const LIST_COUNT: usize = 15;
/// The place of the one fact that doesn't stand with the other five.
pub const AUTO_FLIP: usize = 30;

/// The lists' places in the order of the record of document 02. A list of y
/// stands right after its list of x.
pub const UNSCALED_X: usize = 0;
pub const ORIGINAL_X: usize = 2;
pub const CURRENT_X: usize = 4;
pub const CURRENT_Y: usize = CURRENT_X + 1;
pub const FLAGS: usize = 6;
pub const CONTOURS: usize = 7;
pub const TWILIGHT_ORIGINAL_X: usize = 8;
pub const TWILIGHT_CURRENT_X: usize = 10;
pub const TWILIGHT_FLAGS: usize = 12;
pub const CONTROL_VALUES: usize = 13;
pub const SHEET: usize = 14;

pub const GLYPH_LISTS: std::ops::RangeInclusive<usize> = UNSCALED_X..=FLAGS;
pub const TWILIGHT_LISTS: std::ops::RangeInclusive<usize> = TWILIGHT_ORIGINAL_X..=TWILIGHT_FLAGS;

pub const LIST_NAMES: [&str; LIST_COUNT] = [
    "unscaled x",
    "unscaled y",
    "original x",
    "original y",
    "current x",
    "current y",
    "flags",
    "contours",
    "twilight original x",
    "twilight original y",
    "twilight current x",
    "twilight current y",
    "twilight flags",
    "control values",
    "sheet",
];

pub const MOST_POINTS: usize = 65_535;
pub const MOST_CONTOURS: usize = 65_535;
pub const MOST_CONTROL_VALUES: usize = 16_384;
pub const MOST_SHEET_WORDS: usize = 262_144;

/// The three bits of a flag byte that the Rust knows; the rest never changes.
const KNOWN_FLAGS: u32 = 7;

#[derive(Clone, PartialEq, Debug)]
pub struct World {
    pub state: State,
    /// The lists in record order, a word for each element.
    pub lists: [Vec<u32>; LIST_COUNT],
}

/// Document 01's fresh state, with document 02's numbers as older records read.
pub fn fresh_state() -> State {
    State {
        vectors: [0x4000, 0, 0x4000, 0, 0x4000, 0],
        rounding: Rounding {
            mode: 0,
            threshold: 0,
            phase: 0,
            period: 64,
        },
        references: [0; 3],
        loop_counter: 1,
        zones: [1; 3],
        backward_compatibility: false,
        pedantic: false,
        native_cleartype_x: false,
        x_interpolated: false,
        y_interpolated: false,
        cut_in: 68,
        wrapped_roundings: 0,
        min_distance: 64,
        single_width: 0,
        single_width_cut_in: 0,
        auto_flip: true,
        scale: 0,
        last_pushed: 0,
        pushes: 0,
    }
}

pub fn state_words(state: &State) -> [u32; STATE_WORDS] {
    let mut words = [0; STATE_WORDS];
    for (word, component) in words.iter_mut().zip(state.vectors) {
        *word = component as u32;
    }
    let rounding = state.rounding;
    words[6] = rounding.mode;
    words[7] = rounding.threshold as u32;
    words[8] = rounding.phase as u32;
    words[9] = rounding.period as u32;
    for (pair, reference) in words[10..16].chunks_exact_mut(2).zip(state.references) {
        pair.copy_from_slice(&halves(reference));
    }
    words[16] = state.loop_counter;
    words[17..20].copy_from_slice(&state.zones);
    let facts = [
        state.backward_compatibility,
        state.pedantic,
        state.native_cleartype_x,
        state.x_interpolated,
        state.y_interpolated,
    ];
    for (word, fact) in words[20..25].iter_mut().zip(facts) {
        *word = u32::from(fact);
    }
    words[25] = state.cut_in as u32;
    words[26] = state.wrapped_roundings;
    words[27] = state.min_distance as u32;
    words[28] = state.single_width as u32;
    words[29] = state.single_width_cut_in as u32;
    words[AUTO_FLIP] = u32::from(state.auto_flip);
    words[31] = state.scale as u32;
    words[32] = state.last_pushed as u32;
    words[33] = state.pushes;
    words
}

/// The state that the words say; refused where a word has no meaning.
pub fn state_of(words: &[u32]) -> Result<State, String> {
    let number = |index: usize| words[index] as i32;
    let reference = |index: usize| joined(words[index], words[index + 1]);
    if words[6] > 7 {
        return Err(format!("round mode {} is none of 0 to 7", words[6]));
    }
    let mut yes_or_no = words[17..25].iter().chain([&words[AUTO_FLIP]]);
    if let Some(word) = yes_or_no.find(|word| **word > 1) {
        return Err(format!("a zone pointer or a fact is {word}, not 0 or 1"));
    }
    Ok(State {
        vectors: [0, 1, 2, 3, 4, 5].map(number),
        rounding: Rounding {
            mode: words[6],
            threshold: number(7),
            phase: number(8),
            period: number(9),
        },
        references: [10, 12, 14].map(reference),
        loop_counter: words[16],
        zones: [words[17], words[18], words[19]],
        backward_compatibility: words[20] == 1,
        pedantic: words[21] == 1,
        native_cleartype_x: words[22] == 1,
        x_interpolated: words[23] == 1,
        y_interpolated: words[24] == 1,
        cut_in: number(25),
        wrapped_roundings: words[26],
        min_distance: number(27),
        single_width: number(28),
        single_width_cut_in: number(29),
        auto_flip: words[AUTO_FLIP] == 1,
        scale: number(31),
        last_pushed: number(32),
        pushes: words[33],
    })
}

/// The names of the state's words, for what is printed.
pub const STATE_NAMES: [&str; STATE_WORDS] = [
    "projection x",
    "projection y",
    "dual x",
    "dual y",
    "freedom x",
    "freedom y",
    "round mode",
    "threshold",
    "phase",
    "period",
    "rp0 low",
    "rp0 high",
    "rp1 low",
    "rp1 high",
    "rp2 low",
    "rp2 high",
    "loop",
    "zp0",
    "zp1",
    "zp2",
    "backward compatibility",
    "pedantic",
    "native ClearType x",
    "x interpolated",
    "y interpolated",
    "cut-in",
    "wrapped roundings",
    "minimum distance",
    "single width",
    "single width cut-in",
    "auto flip",
    "scale",
    "last pushed",
    "pushes",
];

/// True of the state's words that have no sign.
pub fn is_unsigned(place: usize) -> bool {
    matches!(STATE_NAMES[place], "loop" | "wrapped roundings" | "pushes")
}

impl World {
    pub fn points(&self) -> usize {
        self.lists[FLAGS].len()
    }

    pub fn twilight_points(&self) -> usize {
        self.lists[TWILIGHT_FLAGS].len()
    }

    /// How many points the zone has that a pointer names.
    pub fn points_of(&self, zone: u32) -> usize {
        match zone {
            0 => self.twilight_points(),
            _ => self.points(),
        }
    }

    /// How many contours that zone has; the twilight zone has one.
    pub fn contours_of(&self, zone: u32) -> usize {
        match zone {
            0 => 1,
            _ => self.lists[CONTOURS].len(),
        }
    }

    pub fn sheet(&self) -> Vec<i32> {
        self.signed(SHEET)
    }

    /// State and lists as one row of words, as changed words are counted.
    pub fn expanded(&self) -> Vec<u32> {
        let lists = self.lists.iter().flatten().copied();
        state_words(&self.state).into_iter().chain(lists).collect()
    }

    /// What the word at an index of the expanded row is called.
    pub fn word_name(&self, index: usize) -> String {
        if index < STATE_WORDS {
            return STATE_NAMES[index].into();
        }
        let mut left = index - STATE_WORDS;
        for (list, name) in self.lists.iter().zip(LIST_NAMES) {
            if left < list.len() {
                return format!("{name} {left}");
            }
            left -= list.len();
        }
        format!("word {index}, beyond the end")
    }

    /// Buffers for the Rust's engine; the zones' lengths must be equal.
    pub fn buffers(&self) -> Buffers {
        let contours: Vec<u16> = self.lists[CONTOURS].iter().map(|end| *end as u16).collect();
        Buffers::new(
            &self.pairs(UNSCALED_X),
            self.outline(ORIGINAL_X, CURRENT_X, FLAGS),
            &contours,
            self.outline(TWILIGHT_ORIGINAL_X, TWILIGHT_CURRENT_X, TWILIGHT_FLAGS),
            &self.signed(CONTROL_VALUES),
            self.lists[SHEET].len(),
        )
    }

    /// Takes back what the engine may have changed.
    pub fn keep(&mut self, buffers: &Buffers) {
        self.keep_outline(buffers.glyph(), ORIGINAL_X, CURRENT_X, FLAGS);
        self.keep_outline(
            buffers.twilight(),
            TWILIGHT_ORIGINAL_X,
            TWILIGHT_CURRENT_X,
            TWILIGHT_FLAGS,
        );
    }

    fn outline(&self, original: usize, current: usize, flags: usize) -> Outline {
        let bytes: Vec<u8> = self.lists[flags].iter().map(|word| *word as u8).collect();
        Outline::new(&self.pairs(original), &self.pairs(current), &bytes)
    }

    fn keep_outline(&mut self, outline: &Outline, original: usize, current: usize, flags: usize) {
        self.keep_pairs(outline.original(), original);
        self.keep_pairs(outline.current(), current);
        for (word, byte) in self.lists[flags].iter_mut().zip(outline.flags()) {
            *word = (*word & !KNOWN_FLAGS) | u32::from(byte);
        }
    }

    /// A list of x and the list of y after it, as pairs.
    fn pairs(&self, x: usize) -> Vec<Pair> {
        let ys = &self.lists[x + 1];
        let pairs = self.lists[x].iter().zip(ys);
        pairs.map(|(x, y)| (*x as i32, *y as i32)).collect()
    }

    fn keep_pairs(&mut self, pairs: impl Iterator<Item = Pair>, x: usize) {
        for (index, pair) in pairs.enumerate() {
            self.lists[x][index] = pair.0 as u32;
            self.lists[x + 1][index] = pair.1 as u32;
        }
    }

    fn signed(&self, list: usize) -> Vec<i32> {
        self.lists[list].iter().map(|word| *word as i32).collect()
    }
}
