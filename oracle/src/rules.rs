//! The rules that a run is given, by their numbers and by their names: document
//! 02, K9. They differ in what MSIRP makes a twilight point from.

#[derive(Copy, Clone, PartialEq, Eq, Debug)]
pub enum Rules {
    /// The Rust's own: from its own original.
    Skrifa,
    /// FreeType's Ins_MSIRP: from rp0's original.
    FreeType,
}

pub const ALL: [Rules; 2] = [Rules::Skrifa, Rules::FreeType];

impl Rules {
    pub fn number(self) -> u32 {
        self as u32
    }

    pub fn name(self) -> &'static str {
        match self {
            Self::Skrifa => "skrifa",
            Self::FreeType => "freetype",
        }
    }

    pub fn numbered(number: u32) -> Option<Self> {
        ALL.into_iter().find(|rules| rules.number() == number)
    }

    pub fn named(name: &str) -> Option<Self> {
        ALL.into_iter().find(|rules| rules.name() == name)
    }

    pub fn other(self) -> Self {
        match self {
            Self::Skrifa => Self::FreeType,
            Self::FreeType => Self::Skrifa,
        }
    }
}
