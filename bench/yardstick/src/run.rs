//! A run: the tests at the entry, lines read off the sheet, and the answer.

use crate::{
    state::State,
    zones::{Glyph, Twilight},
};

#[derive(Copy, Clone, PartialEq, Eq, Debug)]
pub enum Rules {
    Skrifa,
    FreeType,
}

impl Rules {
    pub fn numbered(number: u32) -> Option<Self> {
        match number {
            0 => Some(Self::Skrifa),
            1 => Some(Self::FreeType),
            _ => None,
        }
    }
}

/// Why a line or a run is refused, with its detail.
#[derive(Copy, Clone, PartialEq, Eq, Debug)]
pub enum Refusal {
    Sizes,
    State,
    Line,
    Surplus,
    Missing,
    Point(usize),
    ControlValue(usize),
    ZonePointer(usize),
    LoopCount(usize),
    Range(usize),
    Contour(usize),
    Compatibility,
    Ends,
}

impl Refusal {
    fn number_and_detail(self) -> (u32, usize) {
        match self {
            Self::Sizes => (2, 0),
            Self::State => (3, 0),
            Self::Line => (4, 0),
            Self::Surplus => (5, 0),
            Self::Missing => (6, 0),
            Self::Point(index) => (7, index),
            Self::ControlValue(index) => (8, index),
            Self::ZonePointer(operand) => (9, operand),
            Self::LoopCount(operand) => (10, operand),
            Self::Range(start) => (11, start),
            Self::Contour(index) => (12, index),
            Self::Compatibility => (13, 0),
            Self::Ends => (14, 0),
        }
    }
}

#[derive(Copy, Clone, PartialEq, Eq, Debug)]
pub struct Answer {
    pub number: u32,
    pub place: usize,
    pub lines: u64,
    pub detail: usize,
}

/// How many operands a line takes.
#[derive(Copy, Clone)]
enum Takes {
    Number(usize),
    Loop,
    AmountAndLoop,
    Unknown,
}

const MOST_POINTS: usize = 65_535;
const MOST_CONTOURS: usize = 65_535;
const MOST_CONTROL_VALUES: usize = 16_384;
const MOST_WORDS: usize = 262_144;

/// What a run is given and changes.
pub struct Replayer<'a> {
    pub rules: Rules,
    pub state: State,
    pub controls: &'a [i32],
    pub glyph: Glyph<'a>,
    pub twilight: Twilight<'a>,
}

impl Replayer<'_> {
    /// Replays the lines of the sheet from a word on, at most as many as the budget says.
    pub fn run(&mut self, sheet: &[i32], start: usize, budget: u64) -> Answer {
        let mut place = start;
        let mut lines = 0;
        let said = self
            .enter(sheet, start)
            .and_then(|()| self.run_lines(sheet, &mut place, budget, &mut lines));
        let (number, detail) = match said {
            Ok(true) => (0, 0),
            Ok(false) => (1, 0),
            Err(refusal) => refusal.number_and_detail(),
        };
        Answer {
            number,
            place,
            lines,
            detail,
        }
    }

    fn enter(&self, sheet: &[i32], start: usize) -> Result<(), Refusal> {
        if !self.sizes_fit(sheet) {
            Err(Refusal::Sizes)
        } else if !self.ends_rise() {
            Err(Refusal::Ends)
        } else if !self.state.is_usable() {
            Err(Refusal::State)
        } else if start > sheet.len() {
            Err(Refusal::Line)
        } else {
            Ok(())
        }
    }

    fn sizes_fit(&self, sheet: &[i32]) -> bool {
        let (glyph, twilight) = (&self.glyph, &self.twilight);
        let points = glyph.x.len();
        let twilight_points = twilight.x.len();
        points <= MOST_POINTS
            && glyph.unscaled_x.len() == points
            && glyph.unscaled_y.len() == points
            && glyph.original_x.len() == points
            && glyph.original_y.len() == points
            && glyph.y.len() == points
            && glyph.flags.len() == points
            && glyph.contours.len() <= MOST_CONTOURS
            && twilight_points <= MOST_POINTS
            && twilight.original_x.len() == twilight_points
            && twilight.original_y.len() == twilight_points
            && twilight.y.len() == twilight_points
            && twilight.flags.len() == twilight_points
            && self.controls.len() <= MOST_CONTROL_VALUES
            && sheet.len() <= MOST_WORDS
    }

    fn ends_rise(&self) -> bool {
        let ends = self.glyph.contours;
        let last_is_there = ends
            .last()
            .is_none_or(|end| usize::from(*end) < self.glyph.x.len());
        last_is_there && ends.windows(2).all(|pair| pair[0] < pair[1])
    }

    /// Whether the sheet's end was reached; else the budget is used.
    fn run_lines(
        &mut self,
        sheet: &[i32],
        place: &mut usize,
        budget: u64,
        lines: &mut u64,
    ) -> Result<bool, Refusal> {
        while *place < sheet.len() {
            if *lines == budget {
                return Ok(false);
            }
            let (opcode, operands) = self.decode(&sheet[*place..])?;
            self.perform(opcode, operands)?;
            *place += 2 + operands.len();
            *lines += 1;
        }
        Ok(true)
    }

    /// The opcode and the operands of the line that words start with.
    fn decode<'s>(&self, words: &'s [i32]) -> Result<(u8, &'s [i32]), Refusal> {
        let opcode = u8::try_from(words[0]).map_err(|_| Refusal::Line)?;
        let takes = TAKES[usize::from(opcode)];
        let loop_counter = self.state.loop_counter as usize;
        let most = match takes {
            Takes::Unknown => return Err(Refusal::Line),
            Takes::Number(count) => count,
            Takes::Loop => loop_counter,
            Takes::AmountAndLoop => loop_counter + 1,
        };
        let count = words.get(1).ok_or(Refusal::Line)?;
        let count = usize::try_from(*count).map_err(|_| Refusal::Line)?;
        let operands = words[2..].get(..count).ok_or(Refusal::Line)?;
        if count > most {
            return Err(Refusal::Surplus);
        }
        Ok((opcode, operands))
    }
}

/// One entry for each of the 256 opcodes.
static TAKES: [Takes; 256] = {
    let mut takes = [Takes::Unknown; 256];
    let mut opcode = 0;
    while opcode < 256 {
        takes[opcode] = match opcode {
            0x00..=0x05 | 0x18 | 0x19 | 0x3D | 0x7A | 0x7C | 0x7D | 0x30 | 0x31 => Takes::Number(0),
            0x0E | 0x4D | 0x4E => Takes::Number(0),
            0x10..=0x17
            | 0x1A
            | 0x1D..=0x1F
            | 0x29
            | 0x2E
            | 0x2F
            | 0x34..=0x37
            | 0x46
            | 0x47
            | 0x76
            | 0x77
            | 0xC0..=0xDF => Takes::Number(1),
            0x27 | 0x3A | 0x3B | 0x3E | 0x3F | 0x49 | 0x4A | 0x81 | 0x82 | 0xE0..=0xFF => {
                Takes::Number(2)
            }
            0x06..=0x0B | 0x86 | 0x87 => Takes::Number(2),
            0x0F => Takes::Number(5),
            0x32 | 0x33 | 0x39 | 0x3C | 0x80 => Takes::Loop,
            0x38 => Takes::AmountAndLoop,
            _ => Takes::Unknown,
        };
        opcode += 1;
    }
    takes
};
