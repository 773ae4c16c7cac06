//! The inputs. Each is the same in every run: what looks random comes from a row of numbers that is worked out.

use crate::world::{World, FRESH};

/// A run to measure.
pub struct Case {
    pub kind: &'static str,
    pub name: String,
    /// Points or lines that the run goes over, and which of the two.
    pub size: usize,
    pub of: &'static str,
    /// How many times the yardstick's it may take.
    pub aim: f64,
    pub world: World,
}

const IUP_AIM: f64 = 1.0;
const AIM: f64 = 1.3;
const REAL_AIM: f64 = 1.2;

/// The sizes that a cost is followed over.
const POINTS: [usize; 4] = [64, 1_024, 16_384, 65_535];
const LINES: [usize; 4] = [64, 1_024, 16_384, 65_536];

const SCALE: i64 = 0xC000;
const MOST_POINTS: usize = 65_535;
const MOST_WORDS: usize = 262_144;

struct Random(u64);

impl Random {
    fn below(&mut self, bound: u64) -> u64 {
        self.0 = self
            .0
            .wrapping_mul(6364136223846793005)
            .wrapping_add(1442695040888963407);
        (self.0 >> 33) % bound
    }
}

/// Points anywhere in an em of 2,048 units at 24 pixels, each moved by up to half a pixel; contours of one size; 16 points of twilight.
fn world(points: usize, contour: usize) -> World {
    let mut random = Random(points as u64 + 7);
    let mut world = World {
        state: FRESH.to_vec(),
        controls: (0..16).map(|k| 100 * k + 7).collect(),
        flags: vec![1; points],
        contours: (0..points / contour.max(1))
            .map(|k| ((k + 1) * contour - 1) as u16)
            .collect(),
        twilight_flags: vec![0; 16],
        ..World::default()
    };
    world.state[31] = SCALE as u32;
    for axis in 0..2 {
        world.unscaled[axis] = (0..points).map(|_| random.below(2_048) as i32).collect();
        let scaled = |unscaled: &i32| ((i64::from(*unscaled) * SCALE + 0x8000) >> 16) as i32;
        world.original[axis] = world.unscaled[axis].iter().map(scaled).collect();
        world.current[axis] = world.original[axis]
            .iter()
            .map(|at| at + random.below(65) as i32 - 32)
            .collect();
        world.twilight_original[axis] = (0..16).map(|k| 70 * k + 3).collect();
        world.twilight[axis] = (0..16).map(|k| 70 * k + 9).collect();
    }
    // rp1 and rp2
    world.state[12] = 1;
    world.state[14] = 2;
    world
}

fn case(kind: &'static str, name: String, size: usize, of: &'static str, world: World) -> Case {
    let aim = match kind {
        "IUP" if size >= 64 => IUP_AIM,
        "glyph" | "record" => REAL_AIM,
        _ => AIM,
    };
    Case {
        kind,
        name,
        size,
        of,
        aim,
        world,
    }
}

fn line(sheet: &mut Vec<i32>, opcode: i32, operands: &[i32]) {
    sheet.extend([opcode, operands.len() as i32]);
    sheet.extend(operands);
}

// ---- IUP
/// Untouched points stand where they were; of a contour every so many points is touched.
fn untouched(points: usize, contour: usize, every: usize) -> World {
    let mut world = world(points, contour);
    for k in 0..points {
        if k % contour % every == every / 2 {
            world.flags[k] |= 6;
        } else {
            world.current[0][k] = world.original[0][k];
            world.current[1][k] = world.original[1][k];
        }
    }
    world
}

fn iup(cases: &mut Vec<Case>) {
    for (name, every) in [
        ("every second", 2),
        ("every eighth", 8),
        ("every 64th", 64),
        ("one", usize::MAX),
    ] {
        for points in [16, 64, 256, 1_024, 4_096, 16_384, MOST_POINTS] {
            if every == 64 && points <= 64 {
                continue;
            }
            let mut world = untouched(points, points, every.min(points));
            line(&mut world.sheet, 0x30, &[]);
            cases.push(case(
                "IUP",
                format!("{name} point touched"),
                points,
                "points",
                world,
            ));
        }
    }
    for (points, contour) in [(1_024, 4), (65_532, 4), (1_024, 16), (65_520, 16)] {
        let mut world = untouched(points, contour, 4);
        line(&mut world.sheet, 0x31, &[]);
        cases.push(case(
            "IUP",
            format!("contours of {contour}, every fourth point touched"),
            points,
            "points",
            world,
        ));
    }
}

// ---- lines
const DIRECTIONS: [(&str, [u32; 2]); 3] = [
    ("x", [0x4000, 0]),
    ("y", [0, 0x4000]),
    ("diagonal", [0x2D41, 0x2D41]),
];

fn along(world: &mut World, vector: [u32; 2]) {
    for at in [0, 2, 4] {
        world.state[at..at + 2].copy_from_slice(&vector);
    }
}

const LINE_COUNT: usize = 400;

/// A point that isn't a reference.
fn point(k: usize) -> i32 {
    3 + (k * 7 % 60) as i32
}

fn lines_of(world: &mut World, count: usize, opcode: i32, operands: &dyn Fn(usize) -> Vec<i32>) {
    for k in 0..count {
        line(&mut world.sheet, opcode, &operands(k));
    }
}

type Operands = fn(usize) -> Vec<i32>;

const ONE_POINT: Operands = |k| vec![point(k)];
const CONTROL: Operands = |k| vec![k as i32 % 16, point(k)];
const DISTANCE: Operands = |k| vec![64 + k as i32 % 100, point(k)];

const MOVING: [(&str, i32, Operands); 21] = [
    ("MDAP[0]", 0x2E, ONE_POINT),
    ("MDAP[1]", 0x2F, ONE_POINT),
    ("MIAP[0]", 0x3E, CONTROL),
    ("MIAP[1]", 0x3F, CONTROL),
    ("MSIRP[0]", 0x3A, DISTANCE),
    ("MSIRP[1]", 0x3B, DISTANCE),
    ("ALIGNRP", 0x3C, ONE_POINT),
    ("SHP[0]", 0x32, ONE_POINT),
    ("SHP[1]", 0x33, ONE_POINT),
    ("SHPIX", 0x38, DISTANCE),
    ("GC[0]", 0x46, ONE_POINT),
    ("GC[1]", 0x47, ONE_POINT),
    ("MD[0]", 0x49, |k| vec![point(k), point(k + 3)]),
    ("MD[1]", 0x4A, |k| vec![point(k), point(k + 3)]),
    ("MDRP[00000]", 0xC0, ONE_POINT),
    ("MDRP[11100]", 0xDC, ONE_POINT),
    ("MIRP[00000]", 0xE0, CONTROL),
    ("MIRP[11100]", 0xFC, CONTROL),
    ("IP", 0x39, ONE_POINT),
    ("ALIGNPTS", 0x27, |k| vec![point(k), point(k + 3)]),
    ("UTP", 0x29, ONE_POINT),
];

fn lines(cases: &mut Vec<Case>) {
    for (name, opcode, operands) in MOVING {
        for (direction, vector) in DIRECTIONS {
            let mut world = world(64, 16);
            along(&mut world, vector);
            lines_of(&mut world, LINE_COUNT, opcode, &operands);
            cases.push(case(
                "line",
                format!("{name}, {direction}"),
                LINE_COUNT,
                "lines",
                world,
            ));
        }
    }
    for (name, opcode, operands) in MOVING {
        if !name.starts_with("M") {
            continue;
        }
        let mut world = world(64, 16);
        world.state[17..20].fill(0);
        let in_twilight = |k: usize| {
            let mut all = operands(k);
            if let Some(last) = all.last_mut() {
                *last = 3 + *last % 13;
            }
            all
        };
        lines_of(&mut world, LINE_COUNT, opcode, &in_twilight);
        cases.push(case(
            "line",
            format!("{name}, x, twilight"),
            LINE_COUNT,
            "lines",
            world,
        ));
    }
    for (name, mode) in [
        ("RTHG", 1),
        ("RTDG", 2),
        ("RDTG", 3),
        ("RUTG", 4),
        ("ROFF", 5),
        ("SROUND", 6),
        ("S45ROUND", 7),
    ] {
        let mut world = world(64, 16);
        world.state[6..10].copy_from_slice(&[mode, 24, 16, 45]);
        lines_of(&mut world, LINE_COUNT, 0x2F, &ONE_POINT);
        cases.push(case(
            "line",
            format!("MDAP[1], x, {name}"),
            LINE_COUNT,
            "lines",
            world,
        ));
    }
    let still: [(&str, i32, Operands); 4] = [
        ("ISECT", 0x0F, |k| {
            vec![
                point(k),
                point(k + 1),
                point(k + 2),
                point(k + 3),
                point(k + 4),
            ]
        }),
        ("FLIPPT", 0x80, ONE_POINT),
        ("FLIPRGON, one point", 0x81, |k| vec![point(k), point(k)]),
        ("FLIPRGOFF, one point", 0x82, |k| vec![point(k), point(k)]),
    ];
    for (name, opcode, operands) in still {
        let mut world = world(64, 16);
        lines_of(&mut world, LINE_COUNT, opcode, &operands);
        cases.push(case("line", name.into(), LINE_COUNT, "lines", world));
    }
}

// ---- loops and spans
fn loops(cases: &mut Vec<Case>) {
    for (name, opcode, operands) in [
        ("ALIGNRP", 0x3C, 0),
        ("IP", 0x39, 0),
        ("SHP[0]", 0x32, 0),
        ("SHPIX", 0x38, 1),
    ] {
        for (direction, vector) in DIRECTIONS {
            let mut world = world(64, 16);
            along(&mut world, vector);
            line(&mut world.sheet, 0x17, &[1_000]);
            let all: Vec<i32> = vec![64; operands]
                .into_iter()
                .chain((0..1_000).map(point))
                .collect();
            line(&mut world.sheet, opcode, &all);
            cases.push(case(
                "loop",
                format!("{name}, {direction}"),
                1_000,
                "points",
                world,
            ));
        }
    }
    for points in [64, 1_024, 16_384, MOST_POINTS] {
        let mut flipped = world(points, points);
        line(&mut flipped.sheet, 0x17, &[points as i32]);
        line(
            &mut flipped.sheet,
            0x80,
            &(0..points as i32).collect::<Vec<_>>(),
        );
        cases.push(case("loop", "FLIPPT".into(), points, "points", flipped));
        let mut shifted = world(points, points);
        line(&mut shifted.sheet, 0x17, &[points as i32]);
        line(
            &mut shifted.sheet,
            0x32,
            &(0..points as i32).collect::<Vec<_>>(),
        );
        cases.push(case(
            "loop",
            "SHP[0], x, all points".into(),
            points,
            "points",
            shifted,
        ));
    }
    for (name, opcode, operands) in [("SHC[0]", 0x34, vec![0]), ("SHZ[0]", 0x36, vec![1])] {
        for points in POINTS {
            let mut world = world(points, points);
            line(&mut world.sheet, opcode, &operands);
            cases.push(case("span", format!("{name}, x"), points, "points", world));
        }
        let mut world = world(1_024, 1_024);
        along(&mut world, DIRECTIONS[2].1);
        line(&mut world.sheet, opcode, &operands);
        cases.push(case(
            "span",
            format!("{name}, diagonal"),
            1_024,
            "points",
            world,
        ));
    }
    for points in POINTS {
        let mut world = world(points, points);
        line(&mut world.sheet, 0x81, &[points as i32 - 1, 0]);
        cases.push(case("span", "FLIPRGON".into(), points, "points", world));
    }
}

// ---- setters and sheets
fn setters(cases: &mut Vec<Case>) {
    let all: [(&str, i32, Operands); 11] = [
        ("SVTCA[y]", 0x00, |_| vec![]),
        ("SPVTCA[x]", 0x03, |_| vec![]),
        ("SFVTCA[y]", 0x04, |_| vec![]),
        ("SRP0", 0x10, ONE_POINT),
        ("SRP2", 0x12, ONE_POINT),
        ("SZP0", 0x13, |k| vec![k as i32 % 2]),
        ("SZPS", 0x16, |k| vec![k as i32 % 2]),
        ("SLOOP", 0x17, |k| vec![k as i32]),
        ("RTG", 0x18, |_| vec![]),
        ("ROFF", 0x7A, |_| vec![]),
        ("SROUND", 0x76, |k| vec![k as i32]),
    ];
    for (name, opcode, operands) in all {
        let mut world = world(64, 16);
        lines_of(&mut world, LINE_COUNT, opcode, &operands);
        cases.push(case("setter", name.into(), LINE_COUNT, "lines", world));
    }
    let mut mixed = world(64, 16);
    let mut count = 0;
    while mixed.sheet.len() + 3 <= 65_536 {
        let (_, opcode, operands) = all[(count * 5) % all.len()];
        line(&mut mixed.sheet, opcode, &operands(count));
        count += 1;
    }
    cases.push(case(
        "setter",
        "all of these in turn".into(),
        count,
        "lines",
        mixed,
    ));
}

/// Points on one vertical line, or anywhere.
fn placed(straight: bool) -> World {
    let mut world = world(64, 16);
    if straight {
        world.original[0].fill(100);
        world.current[0].fill(100);
    }
    world
}

const PAIR: Operands = |k| vec![point(k), point(k + 3)];

/// Lines that set a vector, straight and between the axes, and lines that set a size.
fn settings(cases: &mut Vec<Case>) {
    let to_line: [(&str, i32); 6] = [
        ("SPVTL[0]", 0x06),
        ("SPVTL[1]", 0x07),
        ("SFVTL[0]", 0x08),
        ("SFVTL[1]", 0x09),
        ("SDPVTL[0]", 0x86),
        ("SDPVTL[1]", 0x87),
    ];
    for (name, opcode) in to_line {
        for (how, straight) in [("straight", true), ("diagonal", false)] {
            let mut world = placed(straight);
            lines_of(&mut world, LINE_COUNT, opcode, &PAIR);
            let name = format!("{name}, {how}");
            cases.push(case("setter", name, LINE_COUNT, "lines", world));
        }
    }
    let others: [(&str, i32, Operands); 10] = [
        ("SPVFS, straight", 0x0A, |_| vec![0, 0x4000]),
        ("SPVFS, diagonal", 0x0A, |k| vec![k as i32 + 1, 0x2000]),
        ("SFVFS, straight", 0x0B, |_| vec![0x4000, 0]),
        ("SFVFS, diagonal", 0x0B, |k| vec![0x2000, -1 - k as i32]),
        ("SFVTPV", 0x0E, |_| vec![]),
        ("SMD", 0x1A, |k| vec![k as i32]),
        ("SCVTCI", 0x1D, |k| vec![k as i32]),
        ("SSWCI", 0x1E, |k| vec![k as i32]),
        ("SSW", 0x1F, |k| vec![k as i32]),
        ("FLIPON", 0x4D, |_| vec![]),
    ];
    for (name, opcode, operands) in others {
        let mut world = world(64, 16);
        lines_of(&mut world, LINE_COUNT, opcode, &operands);
        cases.push(case("setter", name.into(), LINE_COUNT, "lines", world));
    }
}

fn sheets(cases: &mut Vec<Case>) {
    for (name, points, contour) in [
        ("no point", 0, 1),
        ("64 points", 64, 16),
        ("65,535 points in contours of 3", MOST_POINTS, 3),
    ] {
        cases.push(case(
            "entry",
            format!("an empty sheet, {name}"),
            1,
            "calls",
            world(points, contour),
        ));
    }
    let series: [(&str, i32, Operands); 4] = [
        ("SVTCA[y]", 0x00, |_| vec![]),
        ("MDAP[1], x", 0x2F, ONE_POINT),
        ("MDRP[11100], x", 0xDC, ONE_POINT),
        ("SHP[0], x", 0x32, ONE_POINT),
    ];
    for (name, opcode, operands) in series {
        for count in LINES {
            let mut world = world(64, 16);
            lines_of(&mut world, count, opcode, &operands);
            cases.push(case("sheet", format!("of {name}"), count, "lines", world));
        }
    }
    let mut longest = world(64, 16);
    let mut random = Random(1);
    let mut count = 0;
    while longest.sheet.len() + 8 <= MOST_WORDS {
        some_line(&mut longest.sheet, 64, &mut random);
        count += 1;
    }
    cases.push(case(
        "sheet",
        "of 262,144 words, mixed".into(),
        count,
        "lines",
        longest,
    ));
}

// ---- glyphs
/// A line as glyph programs have them, in about their shares.
fn some_line(sheet: &mut Vec<i32>, points: usize, random: &mut Random) {
    let p = random.below(points as u64) as i32;
    let q = random.below(points as u64) as i32;
    let control = random.below(16) as i32;
    match random.below(100) {
        0..=27 => line(
            sheet,
            0xC0 + [0x04, 0x0C, 0x10, 0x1C, 0x00][(p % 5) as usize],
            &[p],
        ),
        28..=47 => line(
            sheet,
            0xE0 + [0x05, 0x0D, 0x14, 0x1D][(p % 4) as usize],
            &[control, p],
        ),
        48..=59 => line(sheet, 0x10 + p % 3, &[q]),
        60..=67 => line(sheet, 0x3F - p % 2, &[control, q]),
        68..=75 => line(sheet, 0x2F - p % 2, &[q]),
        76..=82 => line(sheet, 0x32 + p % 2, &[q]),
        83..=85 => {
            line(sheet, 0x17, &[3]);
            line(sheet, 0x32 + p % 2, &[p, q, (p + q) / 2]);
        }
        86..=88 => line(sheet, 0x3C, &[q]),
        89..=91 => line(sheet, 0x3A + p % 2, &[control * 10, q]),
        92..=95 => line(sheet, p % 2, &[]),
        96..=97 => line(
            sheet,
            [0x18, 0x19, 0x3D, 0x7C, 0x7D, 0x7A][(p % 6) as usize],
            &[],
        ),
        98 => line(sheet, 0x46, &[p]),
        _ => line(
            sheet,
            0x0F,
            &[
                p,
                q,
                (p + 1) % points as i32,
                (q + 1) % points as i32,
                (p + q) / 2,
            ],
        ),
    }
}

/// A program as glyphs have them: along y, IUP[y], along x, IUP[x].
fn glyph(points: usize, contours: usize, lines: usize, compatible: bool) -> World {
    let mut world = world(points, points / contours);
    for axis in 0..2 {
        world.current[axis] = world.original[axis].clone();
    }
    world.state[20] = u32::from(compatible);
    let mut random = Random((points + lines) as u64);
    let half = (lines - 4) / 2;
    for axis in 0..2 {
        line(&mut world.sheet, axis, &[]);
        for _ in 0..half {
            some_line(&mut world.sheet, points, &mut random);
        }
    }
    line(&mut world.sheet, 0x30, &[]);
    line(&mut world.sheet, 0x31, &[]);
    world
}

fn glyphs(cases: &mut Vec<Case>) {
    for (points, contours, lines) in [(12, 1, 8), (24, 2, 24), (48, 3, 68), (120, 6, 160)] {
        for compatible in [false, true] {
            let world = glyph(points, contours, lines, compatible);
            let mode = if compatible {
                ", backward compatible"
            } else {
                ""
            };
            cases.push(case(
                "glyph",
                format!("{points} points in {contours}, {lines} lines{mode}"),
                lines,
                "lines",
                world,
            ));
        }
    }
}

// ---- records
/// Points with these places, unscaled, original and current, in one contour, and SVTCA[y], MDAP[1] of point 0, IUP[y].
fn record(unscaled: [Vec<i32>; 2], placed: [Vec<i32>; 2]) -> World {
    let points = placed[0].len();
    let mut world = World {
        state: FRESH.to_vec(),
        flags: vec![1; points],
        contours: vec![points as u16 - 1],
        unscaled,
        original: placed.clone(),
        current: placed,
        ..World::default()
    };
    line(&mut world.sheet, 0x00, &[]);
    line(&mut world.sheet, 0x2F, &[0]);
    line(&mut world.sheet, 0x30, &[]);
    world
}

/// What bench/frames has the record programs replay.
fn records(cases: &mut Vec<Case>) {
    let places = [vec![0; 3], vec![40, 100, 130]];
    let whole = record(places.clone(), places);
    cases.push(case(
        "record",
        "document 01's whole run".into(),
        1,
        "records",
        whole,
    ));
    let list = |by: i32, more: i32| -> Vec<i32> { (0..800).map(|k| k * by + more).collect() };
    let many = record([list(7, 0), list(5, 0)], [list(64, 0), list(40, 7)]);
    cases.push(case("record", "800 points".into(), 1, "records", many));
}

pub fn all() -> Vec<Case> {
    let mut cases = Vec::new();
    glyphs(&mut cases);
    records(&mut cases);
    iup(&mut cases);
    lines(&mut cases);
    loops(&mut cases);
    setters(&mut cases);
    settings(&mut cases);
    sheets(&mut cases);
    cases
}
