//! The driver's way in: plain numbers on the outside, the Rust's own functions
//! and its own engine behind.

use super::super::{
    cleartype::ClearTypeState,
    cow_slice::CowSlice,
    definition::{DefinitionMap, DefinitionState},
    graphics::{CoordAxis, GraphicsState, RetainedGraphicsState},
    program::{Program, ProgramState},
    round::{RoundMode, RoundState},
    value_stack::ValueStack,
    zone::{Zone, ZonePointer},
};
use super::{Engine, F26Dot6, Instruction, Point};
use read_fonts::tables::glyf::{
    bytecode::{InlineOperands, Opcode},
    PointFlags, PointMarker,
};
use std::cell::RefCell;

pub use super::super::math::{ceil, div, floor, mul, mul14, mul_div, round, round_pad};
pub use read_fonts::tables::glyf::bytecode::HintErrorKind;

pub type Refused = HintErrorKind;

/// A pair of coordinates.
pub type Pair = (i32, i32);

/// The graphics state of document 01, as numbers, and what document 02 adds.
#[derive(Clone, PartialEq, Debug)]
pub struct State {
    /// Projection, dual and freedom vector, x then y.
    pub vectors: [i32; 6],
    pub rounding: Rounding,
    pub references: [u64; 3],
    pub loop_counter: u32,
    /// Zone pointers: 0 twilight, 1 glyph.
    pub zones: [u32; 3],
    pub backward_compatibility: bool,
    pub pedantic: bool,
    pub native_cleartype_x: bool,
    pub x_interpolated: bool,
    pub y_interpolated: bool,
    pub cut_in: i32,
    /// The Rust has no such number: it is the driver's, and stays here as it is.
    pub wrapped_roundings: u32,
    pub min_distance: i32,
    pub single_width: i32,
    pub single_width_cut_in: i32,
    pub auto_flip: bool,
    /// From font units to 64ths of a pixel, 16.16.
    pub scale: i32,
    /// These two are the driver's as well: what the Rust's value stack was left
    /// with, and how often something was.
    pub last_pushed: i32,
    pub pushes: u32,
}

/// The mode's number in round.rs order, and its three numbers.
#[derive(Copy, Clone, PartialEq, Debug)]
pub struct Rounding {
    pub mode: u32,
    pub threshold: i32,
    pub phase: i32,
    pub period: i32,
}

/// A call of the Rust's rounding, as round.rs reports it: its state, the
/// distance, and the number that came out.
#[derive(Copy, Clone, PartialEq, Debug)]
pub struct Rounded {
    pub rounding: Rounding,
    pub distance: i32,
    pub result: i32,
}

thread_local! {
    static TOLD: RefCell<Vec<Rounded>> = const { RefCell::new(Vec::new()) };
}

/// What the patched line of round.rs calls.
pub fn tell(state: &RoundState, distance: i32, result: i32) {
    let rounding = rounding_of(*state);
    let rounded = Rounded {
        rounding,
        distance,
        result,
    };
    TOLD.with_borrow_mut(|told| told.push(rounded));
}

/// What is done, and the Rust's roundings on the way, in order.
pub fn with_roundings<R>(done: impl FnOnce() -> R) -> (R, Vec<Rounded>) {
    TOLD.take();
    let result = done();
    (result, TOLD.take())
}

/// What the projection state derives from the vectors.
#[derive(Copy, Clone, PartialEq, Debug)]
pub struct Derived {
    pub fdotp: i32,
    /// Projection, dual and freedom axis: 0 both, 1 x, 2 y.
    pub axes: [u32; 3],
}

/// Storage that an engine borrows while it runs.
#[derive(Default)]
pub struct Buffers {
    unscaled: Vec<Point<i32>>,
    glyph: Outline,
    contours: Vec<u16>,
    twilight: Outline,
    /// The end of the twilight zone's one contour.
    twilight_contours: [u16; 1],
    control_values: Vec<i32>,
    stack: Vec<i32>,
}

/// The parts that both zones have.
#[derive(Default)]
pub struct Outline {
    original: Vec<Point<F26Dot6>>,
    current: Vec<Point<F26Dot6>>,
    flags: Vec<PointFlags>,
}

impl Outline {
    pub fn new(original: &[Pair], current: &[Pair], flags: &[u8]) -> Self {
        Self {
            original: original.iter().map(|pair| scaled(*pair)).collect(),
            current: current.iter().map(|pair| scaled(*pair)).collect(),
            flags: flags.iter().map(|byte| flags_of(*byte)).collect(),
        }
    }

    pub fn original(&self) -> impl Iterator<Item = Pair> + '_ {
        self.original.iter().map(|point| pair(*point))
    }

    pub fn current(&self) -> impl Iterator<Item = Pair> + '_ {
        self.current.iter().map(|point| pair(*point))
    }

    pub fn flags(&self) -> impl Iterator<Item = u8> + '_ {
        self.flags.iter().map(|flags| byte_of(*flags))
    }

    fn zone<'a>(&'a mut self, unscaled: &'a [Point<i32>], contours: &'a [u16]) -> Zone<'a> {
        Zone::new(
            unscaled,
            &mut self.original,
            &mut self.current,
            &mut self.flags,
            contours,
        )
    }
}

impl Buffers {
    pub fn new(
        unscaled: &[Pair],
        glyph: Outline,
        contours: &[u16],
        twilight: Outline,
        control_values: &[i32],
        most_operands: usize,
    ) -> Self {
        Self {
            unscaled: unscaled.iter().map(|(x, y)| Point::new(*x, *y)).collect(),
            glyph,
            contours: contours.to_vec(),
            // As the Rust's instance gives it: one contour, and m as its end.
            twilight_contours: [twilight.flags.len() as u16],
            twilight,
            control_values: control_values.to_vec(),
            stack: vec![0; most_operands],
        }
    }

    pub fn glyph(&self) -> &Outline {
        &self.glyph
    }

    pub fn twilight(&self) -> &Outline {
        &self.twilight
    }

    /// Builds the Rust's engine in the given state, uses it, and keeps the state.
    pub fn with_machine<R>(
        &mut self,
        state: &mut State,
        mut used: impl FnMut(&mut Machine) -> R,
    ) -> R {
        let mut engine = Engine::new(
            self.control_values.len(),
            ProgramState::new(&[], &[], &[], Program::Glyph),
            RetainedGraphicsState::default(),
            DefinitionState::new(DefinitionMap::Ref(&[]), DefinitionMap::Ref(&[])),
            CowSlice::new_mut(&mut self.control_values),
            CowSlice::new_mut(&mut []),
            // Pedantic, so that a missing operand is reported and not read as 0.
            ValueStack::new(&mut self.stack, true),
            self.twilight.zone(&[], &self.twilight_contours),
            self.glyph.zone(&self.unscaled, &self.contours),
            0,
            &[],
            false,
            ClearTypeState::given_by_host(state.native_cleartype_x),
        );
        load(&mut engine.graphics, state);
        let mut machine = Machine { engine };
        let result = used(&mut machine);
        store(&machine.engine.graphics, state);
        result
    }
}

/// The Rust's engine with a state and two zones in it.
pub struct Machine<'a> {
    engine: Engine<'a>,
}

impl<'a> Machine<'a> {
    /// Runs one instruction on the given operands, the first of them on top.
    pub fn instruct(&mut self, opcode: u8, operands: &[i32]) -> Result<(), Refused> {
        self.engine.value_stack.clear();
        for operand in operands.iter().rev() {
            self.engine.value_stack.push(*operand)?;
        }
        let instruction = Instruction {
            opcode: Opcode::from_byte(opcode),
            inline_operands: InlineOperands::default(),
            pc: 0,
        };
        self.engine
            .dispatch(&instruction)
            .map_err(|error| error.kind)
    }

    /// What a line that was done left on the value stack, the last on top: what
    /// it pushed, where it has taken all of its operands.
    pub fn left_on_the_stack(&self) -> &[i32] {
        self.engine.value_stack.values()
    }

    pub fn loop_counter(&self) -> u32 {
        self.engine.graphics.loop_counter
    }

    /// The zones that zp0 to zp2 name.
    pub fn zone_pointers(&self) -> [u32; 3] {
        let graphics = &self.engine.graphics;
        [graphics.zp0, graphics.zp1, graphics.zp2].map(|pointer| pointer as u32)
    }

    pub fn rp0(&self) -> u64 {
        self.engine.graphics.rp0 as u64
    }

    pub fn is_pedantic(&self) -> bool {
        self.engine.graphics.is_pedantic
    }

    pub fn is_backward_compatible(&self) -> bool {
        self.engine.graphics.backward_compatibility
    }

    /// How many contours the zone has that zp2 names.
    pub fn contours_of_zp2(&self) -> u64 {
        self.engine.graphics.zp2().contours.len() as u64
    }

    pub fn point(&self, zone: u32, index: u64) -> Result<Pair, Refused> {
        self.zone(zone).point(index as usize).map(pair)
    }

    pub fn original(&self, zone: u32, index: u64) -> Result<Pair, Refused> {
        self.zone(zone).original(index as usize).map(pair)
    }

    /// Puts an original that is there.
    pub fn set_original(&mut self, zone: u32, index: u64, place: Pair) {
        self.zone_mut(zone).original[index as usize] = scaled(place);
    }

    pub fn unscaled(&self, zone: u32, index: u64) -> Pair {
        let point = self.zone(zone).unscaled(index as usize);
        (point.x, point.y)
    }

    pub fn touch(&mut self, zone: u32, index: u64, axis: u32) -> Result<(), Refused> {
        self.zone_mut(zone).touch(index as usize, axis_of(axis))
    }

    pub fn is_touched(&self, zone: u32, index: u64, axis: u32) -> Result<bool, Refused> {
        self.zone(zone).is_touched(index as usize, axis_of(axis))
    }

    pub fn untouch(&mut self, zone: u32, index: u64, axis: u32) -> Result<(), Refused> {
        self.zone_mut(zone).untouch(index as usize, axis_of(axis))
    }

    pub fn flip_on_curve(&mut self, zone: u32, index: u64) -> Result<(), Refused> {
        self.zone_mut(zone).flip_on_curve(index as usize)
    }

    pub fn set_on_curve(
        &mut self,
        zone: u32,
        start: u64,
        end: u64,
        on: bool,
    ) -> Result<(), Refused> {
        self.zone_mut(zone)
            .set_on_curve(start as usize, end as usize, on)
    }

    pub fn iup(&mut self, axis: u32) -> Result<(), Refused> {
        self.zone_mut(1).iup(axis_of(axis))
    }

    pub fn move_original(&mut self, zone: u32, index: u64, distance: i32) -> Result<(), Refused> {
        let distance = F26Dot6::from_bits(distance);
        self.engine
            .graphics
            .move_original(pointer_of(zone), index as usize, distance)
    }

    pub fn move_point(&mut self, zone: u32, index: u64, distance: i32) -> Result<(), Refused> {
        let distance = F26Dot6::from_bits(distance);
        self.engine
            .graphics
            .move_point(pointer_of(zone), index as usize, distance)
    }

    pub fn move_zp2_point(&mut self, index: u64, by: Pair, do_touch: bool) -> Result<(), Refused> {
        let by = scaled(by);
        self.engine
            .graphics
            .move_zp2_point(index as usize, by.x, by.y, do_touch)
    }

    /// The displacement alone: its zone and index are the state's own.
    pub fn point_displacement(&mut self, opcode: u8) -> Result<Pair, Refused> {
        let graphics = &mut self.engine.graphics;
        let found = graphics.point_displacement(opcode)?;
        let reference = match opcode & 1 {
            1 => (graphics.zp0, graphics.rp1),
            _ => (graphics.zp1, graphics.rp2),
        };
        assert!(reference == (found.zone, found.point_ix));
        Ok((found.dx.to_bits(), found.dy.to_bits()))
    }

    fn zone(&self, zone: u32) -> &Zone<'a> {
        self.engine.graphics.zone(pointer_of(zone))
    }

    fn zone_mut(&mut self, zone: u32) -> &mut Zone<'a> {
        self.engine.graphics.zone_mut(pointer_of(zone))
    }
}

/// Rounds a distance by the Rust's RoundState.
pub fn round_distance(rounding: Rounding, distance: i32) -> i32 {
    round_state_of(rounding)
        .round(F26Dot6::from_bits(distance))
        .to_bits()
}

pub fn derived(vectors: [i32; 6]) -> Derived {
    let graphics = with_vectors(vectors);
    Derived {
        fdotp: graphics.fdotp,
        axes: [
            axis_number(graphics.proj_axis),
            axis_number(graphics.dual_proj_axis),
            axis_number(graphics.freedom_axis),
        ],
    }
}

pub fn project(vectors: [i32; 6], from: Pair, to: Pair) -> i32 {
    with_vectors(vectors)
        .project(scaled(from), scaled(to))
        .to_bits()
}

pub fn dual_project(vectors: [i32; 6], from: Pair, to: Pair) -> i32 {
    with_vectors(vectors)
        .dual_project(scaled(from), scaled(to))
        .to_bits()
}

pub fn dual_project_unscaled(vectors: [i32; 6], from: Pair, to: Pair) -> i32 {
    let [from, to] = [from, to].map(|(x, y)| Point::new(x, y));
    with_vectors(vectors).dual_project_unscaled(from, to)
}

fn with_vectors(vectors: [i32; 6]) -> GraphicsState<'static> {
    let mut graphics = GraphicsState::default();
    set_vectors(&mut graphics, vectors);
    graphics
}

fn set_vectors(graphics: &mut GraphicsState, [px, py, dx, dy, fx, fy]: [i32; 6]) {
    graphics.proj_vector = Point::new(px, py);
    graphics.dual_proj_vector = Point::new(dx, dy);
    graphics.freedom_vector = Point::new(fx, fy);
    graphics.update_projection_state();
}

fn load(graphics: &mut GraphicsState, state: &State) {
    set_vectors(graphics, state.vectors);
    graphics.round_state = round_state_of(state.rounding);
    let [rp0, rp1, rp2] = state.references.map(|reference| reference as usize);
    graphics.rp0 = rp0;
    graphics.rp1 = rp1;
    graphics.rp2 = rp2;
    graphics.loop_counter = state.loop_counter;
    let [zp0, zp1, zp2] = state.zones.map(pointer_of);
    graphics.zp0 = zp0;
    graphics.zp1 = zp1;
    graphics.zp2 = zp2;
    graphics.backward_compatibility = state.backward_compatibility;
    graphics.is_pedantic = state.pedantic;
    graphics.did_iup_x = state.x_interpolated;
    graphics.did_iup_y = state.y_interpolated;
    graphics.retained.control_value_cutin = F26Dot6::from_bits(state.cut_in);
    graphics.retained.min_distance = F26Dot6::from_bits(state.min_distance);
    graphics.retained.single_width = F26Dot6::from_bits(state.single_width);
    graphics.retained.single_width_cutin = F26Dot6::from_bits(state.single_width_cut_in);
    graphics.retained.auto_flip = state.auto_flip;
    // No glyph is a composite here, so that this is what unscaled points go by.
    graphics.retained.scale = state.scale;
}

fn store(graphics: &GraphicsState, state: &mut State) {
    let vectors = [
        graphics.proj_vector,
        graphics.dual_proj_vector,
        graphics.freedom_vector,
    ];
    for (kept, vector) in state.vectors.chunks_exact_mut(2).zip(vectors) {
        kept.copy_from_slice(&[vector.x, vector.y]);
    }
    state.rounding = rounding_of(graphics.round_state);
    state.references = [graphics.rp0, graphics.rp1, graphics.rp2].map(|reference| reference as u64);
    state.loop_counter = graphics.loop_counter;
    state.zones = [graphics.zp0, graphics.zp1, graphics.zp2].map(|pointer| pointer as u32);
    state.backward_compatibility = graphics.backward_compatibility;
    state.pedantic = graphics.is_pedantic;
    state.x_interpolated = graphics.did_iup_x;
    state.y_interpolated = graphics.did_iup_y;
    state.cut_in = graphics.retained.control_value_cutin.to_bits();
    state.min_distance = graphics.retained.min_distance.to_bits();
    state.single_width = graphics.retained.single_width.to_bits();
    state.single_width_cut_in = graphics.retained.single_width_cutin.to_bits();
    state.auto_flip = graphics.retained.auto_flip;
    state.scale = graphics.retained.scale;
}

const MODES: [RoundMode; 8] = [
    RoundMode::Grid,
    RoundMode::HalfGrid,
    RoundMode::DoubleGrid,
    RoundMode::DownToGrid,
    RoundMode::UpToGrid,
    RoundMode::Off,
    RoundMode::Super,
    RoundMode::Super45,
];

fn round_state_of(rounding: Rounding) -> RoundState {
    RoundState {
        mode: MODES[rounding.mode as usize],
        threshold: rounding.threshold,
        phase: rounding.phase,
        period: rounding.period,
    }
}

fn rounding_of(state: RoundState) -> Rounding {
    Rounding {
        mode: state.mode as u32,
        threshold: state.threshold,
        phase: state.phase,
        period: state.period,
    }
}

fn pointer_of(zone: u32) -> ZonePointer {
    match zone {
        0 => ZonePointer::Twilight,
        _ => ZonePointer::Glyph,
    }
}

fn axis_of(axis: u32) -> CoordAxis {
    match axis {
        1 => CoordAxis::X,
        2 => CoordAxis::Y,
        _ => CoordAxis::Both,
    }
}

fn axis_number(axis: CoordAxis) -> u32 {
    match axis {
        CoordAxis::Both => 0,
        CoordAxis::X => 1,
        CoordAxis::Y => 2,
    }
}

fn scaled((x, y): Pair) -> Point<F26Dot6> {
    Point::new(F26Dot6::from_bits(x), F26Dot6::from_bits(y))
}

fn pair(point: Point<F26Dot6>) -> Pair {
    (point.x.to_bits(), point.y.to_bits())
}

/// Document 01's bits 0 to 2 as the Rust's flags.
fn flags_of(byte: u8) -> PointFlags {
    let mut flags = PointFlags::off_curve_quad();
    if byte & 1 != 0 {
        flags.set_on_curve();
    }
    if byte & 2 != 0 {
        flags.set_marker(PointMarker::TOUCHED_X);
    }
    if byte & 4 != 0 {
        flags.set_marker(PointMarker::TOUCHED_Y);
    }
    flags
}

fn byte_of(flags: PointFlags) -> u8 {
    u8::from(flags.is_on_curve())
        | u8::from(flags.has_marker(PointMarker::TOUCHED_X)) << 1
        | u8::from(flags.has_marker(PointMarker::TOUCHED_Y)) << 2
}
