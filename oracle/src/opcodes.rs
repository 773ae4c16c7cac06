//! The table of opcodes: a row for each instruction. The driver, the generator
//! and coverage read it, so that what they share of an instruction is said once.

use std::ops::RangeInclusive;
use Access::{Each, Named, OfShift, Rp0, Rp1, Rp2};
use Codes::{Axes, FiveBits, Flags, One};
use Family::{Distances, Outline, Selector, Setter, Shift, Single, Size, Vector};
use Operand::{
    Amount, Component, Contour, ControlValue, ControlValueOrNone, Distance, FontUnits, High,
    LoopCount, Low, Point, PointNumber, SelectorByte, ZoneNumber,
};
use Zone::{Glyph, Zp0, Zp1, Zp2};

/// An instruction.
pub struct Row {
    pub name: &'static str,
    codes: Codes,
    pub family: Family,
    /// The operands that it always takes, in the order of the sheet.
    pub operands: &'static [Operand],
    /// The zone of the points that it takes after those, as many as the loop
    /// counter says.
    pub looped: Option<Zone>,
    /// The points that it looks for, in the order of document 01.
    pub accesses: &'static [Access],
    /// The answers from 7 on that it can give.
    pub refusals: &'static [u32],
    /// The bit of its codes that asks for rounding by the state; 0 if none does.
    rounding_bit: u8,
    /// How many numbers it pushes where it is done.
    pub pushes: usize,
}

/// The codes of an instruction, and how they are told apart.
#[derive(Copy, Clone)]
enum Codes {
    One(u8),
    /// Along y, then along x.
    Axes(u8),
    /// The first to the last, numbered from 0.
    Flags(u8, u8),
    /// All that five bits make, from the first on: OpenType's [abcde].
    FiveBits(u8),
}

/// The instructions that some cases are made of. New ones make a new family: the
/// cases of the others, and so the sample's files, stay as they are.
#[derive(Copy, Clone, PartialEq, Eq, Debug)]
pub enum Family {
    /// Document 01's that set the state.
    Setter,
    /// Document 01's others.
    Outline,
    /// Document 02's shifts and range flips.
    Shift,
    /// Document 02's SROUND and S45ROUND.
    Selector,
    /// Document 02's GC, MD, MDRP and MIRP.
    Distances,
    /// Document 02's IP, ALIGNPTS and UTP.
    Single,
    /// Those that set a vector by points, from their operands or by another vector:
    /// SPVTL, SFVTL, SPVFS, SFVFS, SFVTPV and SDPVTL.
    Vector,
    /// Those that set a number or a fact that distances go by: SMD, SCVTCI, SSWCI,
    /// SSW, FLIPON and FLIPOFF.
    Size,
}

/// What an operand is, and so which wrong ones are worth making.
#[derive(Copy, Clone, PartialEq, Eq, Debug)]
pub enum Operand {
    /// A point of a zone.
    Point(Zone),
    /// A number for rp0 to rp2: any is right.
    PointNumber,
    ZoneNumber,
    LoopCount,
    Distance,
    /// How far SHPIX shifts.
    Amount,
    /// Of a vector: its low 16 bits count.
    Component,
    /// What SSW scales.
    FontUnits,
    ControlValue,
    /// The same, but that -1 stands for the value 0.
    ControlValueOrNone,
    /// A contour of zp2's zone.
    Contour,
    SelectorByte,
    /// The last point of a range of the glyph, and the first.
    High,
    Low,
}

/// The zone that a pointer names, or the glyph's.
#[derive(Copy, Clone, PartialEq, Eq, Debug)]
pub enum Zone {
    Zp0,
    Zp1,
    Zp2,
    Glyph,
}

/// A point that a line looks for.
#[derive(Copy, Clone)]
pub enum Access {
    /// The point that an operand names: what it is called, the operand's number.
    Named(&'static str, usize),
    Rp0,
    /// IP's references: of zp0's zone, and of zp1's.
    Rp1,
    Rp2,
    /// The reference of SHP, SHC and SHZ.
    OfShift,
    /// Each point of the loop, and after it these.
    Each(&'static [Access]),
}

/// A reference point: which of rp0 to rp2, and where it is looked for.
#[derive(Copy, Clone)]
pub struct Reference {
    pub number: usize,
    pub zone: Zone,
}

/// Every instruction. Chance and the sample go by the order within a family.
pub static TABLE: [Row; 51] = [
    row("SVTCA", Axes(0x00), Setter),
    row("SPVTCA", Axes(0x02), Setter),
    row("SFVTCA", Axes(0x04), Setter),
    row("SRP0", One(0x10), Setter).takes(&[PointNumber]),
    row("SRP1", One(0x11), Setter).takes(&[PointNumber]),
    row("SRP2", One(0x12), Setter).takes(&[PointNumber]),
    row("SZP0", One(0x13), Setter)
        .takes(&[ZoneNumber])
        .refuses(&[9]),
    row("SZP1", One(0x14), Setter)
        .takes(&[ZoneNumber])
        .refuses(&[9]),
    row("SZP2", One(0x15), Setter)
        .takes(&[ZoneNumber])
        .refuses(&[9]),
    row("SZPS", One(0x16), Setter)
        .takes(&[ZoneNumber])
        .refuses(&[9]),
    row("SLOOP", One(0x17), Setter)
        .takes(&[LoopCount])
        .refuses(&[10]),
    row("RTG", One(0x18), Setter),
    row("RTHG", One(0x19), Setter),
    row("RTDG", One(0x3D), Setter),
    row("RDTG", One(0x7D), Setter),
    row("RUTG", One(0x7C), Setter),
    row("ROFF", One(0x7A), Setter),
    row("FLIPPT", One(0x80), Outline)
        .takes_looped(Glyph)
        .accesses(&[Each(&[])])
        .refuses(&[7]),
    row("SHP", Flags(0x32, 0x33), Outline)
        .takes_looped(Zp2)
        .accesses(&[OfShift, Each(&[])])
        .refuses(&[7]),
    row("MSIRP", Flags(0x3A, 0x3B), Outline)
        .takes(&[Distance, Point(Zp1)])
        .accesses(&[Named("point", 1), Rp0])
        .refuses(&[7]),
    row("MDAP", Flags(0x2E, 0x2F), Outline)
        .takes(&[Point(Zp0)])
        .accesses(&[Named("point", 0)])
        .refuses(&[7])
        .rounds_by(1),
    row("MIAP", Flags(0x3E, 0x3F), Outline)
        .takes(&[ControlValue, Point(Zp0)])
        .accesses(&[Named("point", 1)])
        .refuses(&[7, 8])
        .rounds_by(1),
    row("ALIGNRP", One(0x3C), Outline)
        .takes_looped(Zp1)
        .accesses(&[Each(&[Rp0])])
        .refuses(&[7]),
    row("ISECT", One(0x0F), Outline)
        .takes(&[Point(Zp0), Point(Zp0), Point(Zp1), Point(Zp1), Point(Zp2)])
        .accesses(&[
            Named("a0", 3),
            Named("a1", 2),
            Named("b0", 1),
            Named("b1", 0),
            Named("point", 4),
        ])
        .refuses(&[7]),
    row("IUP", Axes(0x30), Outline),
    row("SHC", Flags(0x34, 0x35), Shift)
        .takes(&[Contour])
        .accesses(&[OfShift])
        .refuses(&[7, 12]),
    row("SHZ", Flags(0x36, 0x37), Shift)
        .takes(&[ZoneNumber])
        .accesses(&[OfShift])
        .refuses(&[7, 9]),
    row("SHPIX", One(0x38), Shift)
        .takes(&[Amount])
        .takes_looped(Zp2)
        .accesses(&[Each(&[])])
        .refuses(&[7, 13]),
    row("FLIPRGON", One(0x81), Shift)
        .takes(&[High, Low])
        .refuses(&[11]),
    row("FLIPRGOFF", One(0x82), Shift)
        .takes(&[High, Low])
        .refuses(&[11]),
    row("SROUND", One(0x76), Selector).takes(&[SelectorByte]),
    row("S45ROUND", One(0x77), Selector).takes(&[SelectorByte]),
    row("GC", Flags(0x46, 0x47), Distances)
        .takes(&[Point(Zp2)])
        .accesses(&[Named("point", 0)])
        .refuses(&[7])
        .pushes_one(),
    row("MD", Flags(0x49, 0x4A), Distances)
        .takes(&[Point(Zp1), Point(Zp0)])
        .accesses(&[Named("point of zp0", 1), Named("point of zp1", 0)])
        .refuses(&[7])
        .pushes_one(),
    row("MDRP", FiveBits(0xC0), Distances)
        .takes(&[Point(Zp1)])
        .accesses(&[Named("point", 0), Rp0])
        .refuses(&[7])
        .rounds_by(4),
    row("MIRP", FiveBits(0xE0), Distances)
        .takes(&[ControlValueOrNone, Point(Zp1)])
        .accesses(&[Named("point", 1), Rp0])
        .refuses(&[7, 8])
        .rounds_by(4),
    row("IP", One(0x39), Single)
        .takes_looped(Zp2)
        .accesses(&[Rp1, Rp2, Each(&[])])
        .refuses(&[7]),
    row("ALIGNPTS", One(0x27), Single)
        .takes(&[Point(Zp0), Point(Zp1)])
        .accesses(&[Named("point of zp0", 0), Named("point of zp1", 1)])
        .refuses(&[7]),
    row("UTP", One(0x29), Single)
        .takes(&[Point(Zp0)])
        .accesses(&[Named("point", 0)])
        .refuses(&[7]),
    row("SPVTL", Flags(0x06, 0x07), Vector).to_line(),
    row("SFVTL", Flags(0x08, 0x09), Vector).to_line(),
    row("SDPVTL", Flags(0x86, 0x87), Vector).to_line(),
    row("SPVFS", One(0x0A), Vector).takes(&[Component, Component]),
    row("SFVFS", One(0x0B), Vector).takes(&[Component, Component]),
    row("SFVTPV", One(0x0E), Vector),
    row("SMD", One(0x1A), Size).takes(&[Distance]),
    row("SCVTCI", One(0x1D), Size).takes(&[Distance]),
    row("SSWCI", One(0x1E), Size).takes(&[Distance]),
    row("SSW", One(0x1F), Size).takes(&[FontUnits]),
    row("FLIPON", One(0x4D), Size),
    row("FLIPOFF", One(0x4E), Size),
];

/// A row that takes and looks for nothing.
const fn row(name: &'static str, codes: Codes, family: Family) -> Row {
    Row {
        name,
        codes,
        family,
        operands: &[],
        looped: None,
        accesses: &[],
        refusals: &[],
        rounding_bit: 0,
        pushes: 0,
    }
}

/// What a row adds to that.
impl Row {
    const fn takes(self, operands: &'static [Operand]) -> Self {
        Self { operands, ..self }
    }

    const fn takes_looped(self, zone: Zone) -> Self {
        let looped = Some(zone);
        Self { looped, ..self }
    }

    const fn accesses(self, accesses: &'static [Access]) -> Self {
        Self { accesses, ..self }
    }

    const fn refuses(self, refusals: &'static [u32]) -> Self {
        Self { refusals, ..self }
    }

    const fn rounds_by(self, rounding_bit: u8) -> Self {
        Self {
            rounding_bit,
            ..self
        }
    }

    const fn pushes_one(self) -> Self {
        Self { pushes: 1, ..self }
    }

    /// Takes a point of zp2 and one of zp1, and looks for that of zp1 first.
    const fn to_line(self) -> Self {
        self.takes(&[Point(Zp2), Point(Zp1)])
            .accesses(&[Named("point of zp1", 1), Named("point of zp2", 0)])
            .refuses(&[7])
    }
}

/// What is asked of a row.
impl Row {
    pub fn codes(&self) -> RangeInclusive<u8> {
        let (first, last) = self.codes.ends();
        first..=last
    }

    /// Its codes for chance to pick from: one that rounds stands there twice.
    pub fn picked_codes(&self) -> Vec<u8> {
        let rounding = self.codes().filter(|code| rounds(*code));
        self.codes().chain(rounding).collect()
    }

    pub fn takes_operands(&self) -> bool {
        self.most_operands(1) > 0
    }

    pub fn most_operands(&self, loop_counter: u32) -> u64 {
        let looped = self.looped.map_or(0, |_| u64::from(loop_counter));
        self.operands.len() as u64 + looped
    }

    /// The reference points that a line of the code goes by.
    pub fn references(&self, code: u8) -> Vec<Reference> {
        let accesses = self.accesses.iter();
        accesses
            .filter_map(|access| access.reference(code))
            .collect()
    }

    /// What its accesses are called, given how many points a loop has.
    pub fn steps(&self, points: usize) -> Vec<String> {
        let mut steps = Vec::new();
        for access in self.accesses {
            let name = access.name();
            match access {
                Each(after) => {
                    let numbers = self.operands.len()..self.operands.len() + points;
                    steps.extend(numbers.map(|number| format!("{name} {number}")));
                    steps.extend(after.iter().map(|access| access.name().into()));
                }
                _ => steps.push(name.into()),
            }
        }
        steps
    }

    fn name_of(&self, code: u8) -> String {
        let name = self.name;
        match self.codes {
            One(_) => name.into(),
            Axes(y) if code == y => format!("{name}[y]"),
            Axes(_) => format!("{name}[x]"),
            Flags(first, _) => format!("{name}[{}]", code - first),
            FiveBits(first) => format!("{name}[{:05b}]", code - first),
        }
    }
}

impl Codes {
    const fn ends(self) -> (u8, u8) {
        match self {
            One(code) => (code, code),
            Axes(y) => (y, y + 1),
            Flags(first, last) => (first, last),
            FiveBits(first) => (first, first + 31),
        }
    }
}

impl Family {
    /// The cases made before document 02 take the codes of the others for unknown.
    pub fn is_of_01(self) -> bool {
        matches!(self, Setter | Outline)
    }

    /// True if the files that hold a line of each code were there before it.
    pub fn is_later(self) -> bool {
        matches!(self, Single | Vector | Size)
    }

    /// True if its lines leave points alone, and look at none.
    pub fn sets_the_state(self) -> bool {
        matches!(self, Setter | Selector | Size)
    }
}

impl Zone {
    /// The zone's number, given those that zp0 to zp2 hold.
    pub fn number(self, pointers: [u32; 3]) -> u32 {
        match self {
            Zp0 => pointers[0],
            Zp1 => pointers[1],
            Zp2 => pointers[2],
            Glyph => 1,
        }
    }
}

impl Access {
    /// What it is called; a loop's point has its number as an operand as well.
    pub fn name(&self) -> &'static str {
        match self {
            Named(name, _) => name,
            Rp0 => "rp0",
            Rp1 => "rp1",
            Rp2 => "rp2",
            OfShift => "reference",
            Each(_) => "point",
        }
    }

    /// The reference point that a line of the code looks for here.
    pub fn reference(&self, code: u8) -> Option<Reference> {
        match self {
            Rp0 => Some(Reference::new(0, Zp0)),
            Rp1 => Some(Reference::new(1, Zp0)),
            Rp2 => Some(Reference::new(2, Zp1)),
            OfShift => Some(Reference::of_shift(code)),
            Each(after) => after.iter().find_map(|access| access.reference(code)),
            _ => None,
        }
    }
}

impl Reference {
    fn new(number: usize, zone: Zone) -> Self {
        Self { number, zone }
    }

    /// The one that SHP, SHC and SHZ go by.
    pub fn of_shift(code: u8) -> Self {
        if code & 1 == 1 {
            Self::new(1, Zp0)
        } else {
            Self::new(2, Zp1)
        }
    }
}

/// The row of each code, by its place. A code in two rows doesn't compile.
const PLACES: [Option<usize>; 256] = places();

const fn places() -> [Option<usize>; 256] {
    let mut places = [None; 256];
    let mut place = 0;
    while place < TABLE.len() {
        let (first, last) = TABLE[place].codes.ends();
        let mut code = first as usize;
        while code <= last as usize {
            assert!(places[code].is_none(), "a code in two rows");
            places[code] = Some(place);
            code += 1;
        }
        place += 1;
    }
    places
}

/// The row of a code; none if it is unknown.
pub fn row_of(code: u8) -> Option<&'static Row> {
    PLACES[usize::from(code)].map(|place| &TABLE[place])
}

/// A code's name, for what is printed and counted.
pub fn name_of(code: u8) -> String {
    row_of(code).map_or("unknown".into(), |row| row.name_of(code))
}

pub fn rows_of(family: Family) -> Vec<&'static Row> {
    TABLE.iter().filter(|row| row.family == family).collect()
}

pub fn codes_of(family: Family) -> Vec<u8> {
    rows_of(family).iter().flat_map(|row| row.codes()).collect()
}

pub fn is_of(code: u8, family: Family) -> bool {
    row_of(code).is_some_and(|row| row.family == family)
}

/// True if a line of the code rounds by the state.
pub fn rounds(code: u8) -> bool {
    row_of(code).is_some_and(|row| code & row.rounding_bit != 0)
}

/// The codes of a family that round by the state.
pub fn rounding_codes_of(family: Family) -> Vec<u8> {
    let codes = codes_of(family).into_iter();
    codes.filter(|code| rounds(*code)).collect()
}
