//! What the Rust takes from a later read-fonts or from files that are missing:
//! names, and no behaviour that the oracle runs.

use crate::{
    tables::glyf::bytecode::{DecodeError, Opcode},
    types::GlyphId,
};

/// The three programs of a font; `initial == Glyph` is the oracle's case.
#[derive(Copy, Clone, PartialEq, Eq, Default, Debug)]
#[repr(u8)]
pub enum Program {
    #[default]
    Font = 0,
    ControlValue = 1,
    Glyph = 2,
}

/// Every reason that the Rust names for stopping.
#[derive(Clone, PartialEq, Debug)]
pub enum HintErrorKind {
    CallStackOverflow,
    CallStackUnderflow,
    DefinitionInGlyphProgram,
    DefinitionTooLarge,
    DivideByZero,
    ExceededExecutionBudget,
    InvalidContourIndex(usize),
    InvalidCvtIndex(usize),
    InvalidDefinition(usize),
    InvalidJump,
    InvalidPointIndex(usize),
    InvalidPointRange(usize, usize),
    InvalidStackValue(i32),
    InvalidStorageIndex(usize),
    InvalidZoneIndex(i32),
    NegativeLoopCounter,
    NestedDefinition,
    TooManyDefinitions,
    UnexpectedEndOfBytecode,
    UnhandledOpcode(Opcode),
    ValueStackOverflow,
    ValueStackUnderflow,
}

impl From<DecodeError> for HintErrorKind {
    fn from(_: DecodeError) -> Self {
        Self::UnexpectedEndOfBytecode
    }
}

/// Where the Rust stopped, and why.
#[derive(Clone, Debug)]
pub struct HintError {
    pub program: Program,
    pub glyph_id: Option<GlyphId>,
    pub pc: usize,
    pub opcode: Option<Opcode>,
    pub kind: HintErrorKind,
}

/// Never made; hint/mod.rs hands the name on.
pub struct DropoutControl;

/// The hinting target, read only by instructions that are no lines of ours.
#[derive(Copy, Clone, Default, Debug)]
pub struct Target;

impl Target {
    pub fn is_smooth(&self) -> bool {
        true
    }

    pub fn preserve_linear_metrics(&self) -> bool {
        false
    }

    pub fn is_vertical_lcd(&self) -> bool {
        false
    }

    pub fn symmetric_rendering(&self) -> bool {
        true
    }

    pub fn is_grayscale_cleartype(&self) -> bool {
        false
    }
}
