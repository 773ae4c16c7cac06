//! What document 01 says in numbers, and what was found beside it: each claim
//! with the smallest input known, run on the Rust.

mod distances;
mod ends;
mod rules;
mod selectors;
mod settings;
mod shifts;
mod singles;
mod wraps;

use crate::{
    case::Case,
    direct::Call,
    generate::{any_case, runs_of_01},
    math_rows::{self, MathRow},
    notable::{self, along, DIAGONAL, NOWHERE, X, Y},
    numbers::corners,
    projection_rows,
    random::Random,
    scene::Scene,
    world::fresh_state,
};
use reference::door::{self, Rounding};
use std::fmt::Debug;

const MIN: i32 = i32::MIN;

/// Prints each claim as it came out; true if all did as claimed.
pub fn check_all() -> bool {
    let mut claims = Claims::default();
    rows_of_01(&mut claims);
    runs(&mut claims);
    easy_to_get_wrong(&mut claims);
    orders(&mut claims);
    corners_of_math(&mut claims);
    vectors_and_axes(&mut claims);
    horizontal_exception(&mut claims);
    lines_at_the_ends(&mut claims);
    direct_calls(&mut claims);
    shifts::check(&mut claims);
    selectors::check(&mut claims);
    wraps::check(&mut claims);
    distances::check(&mut claims);
    ends::check(&mut claims);
    rules::check(&mut claims);
    singles::check(&mut claims);
    settings::check(&mut claims);
    budgets_add_up(&mut claims);
    println!("{} claims, {} fail", claims.count, claims.failed);
    claims.failed == 0
}

#[derive(Default)]
struct Claims {
    count: usize,
    failed: usize,
}

impl Claims {
    fn same<T: PartialEq + Debug>(&mut self, what: &str, got: T, wanted: T) {
        self.count += 1;
        if got == wanted {
            println!("   ok  {what}: {got:?}");
        } else {
            self.failed += 1;
            println!("FAILS  {what}: {got:?}, claimed {wanted:?}");
        }
    }
}

fn rows_of_01(claims: &mut Claims) {
    for (row, wanted) in math_rows::rows_of_01() {
        claims.same(&format!("01: {row}"), row.outcome().result, wanted);
    }
    for (row, wanted) in projection_rows::rows_of_01() {
        let fdotp = row.outcome().results[0];
        claims.same(&format!("01: fdotp, {row}"), fdotp, wanted);
    }
    let shift = Scene::new(&[(0, 0), (74, 74), (128, 128)])
        .original(&[(0, 0), (64, 64), (128, 128)])
        .flags(&[1, 7, 1])
        .contours(&[2]);
    claims.same(
        "01: IUP shift x",
        shift.call(Call::Iup { axis: 1 }).xs(),
        vec![10, 74, 138],
    );
    claims.same(
        "01: IUP shift y",
        shift.call(Call::Iup { axis: 2 }).ys(),
        vec![10, 74, 138],
    );
    let stretch = Scene::new(&[(0, 0), (320, 320), (704, 704)])
        .unscaled(&[(0, 0), (500, 500), (1000, 1000)])
        .original(&[(0, 0), (320, 320), (640, 640)])
        .flags(&[7, 1, 7])
        .contours(&[2]);
    claims.same(
        "01: IUP middle x",
        stretch.call(Call::Iup { axis: 1 }).xs()[1],
        352,
    );
    claims.same(
        "01: IUP middle y",
        stretch.call(Call::Iup { axis: 2 }).ys()[1],
        352,
    );
}

fn runs(claims: &mut Claims) {
    let [whole, short, pedantic, lenient] = runs_of_01().map(|case| {
        let mut world = case.world.clone();
        let answer = case.call.perform(&mut world).answer.to_string();
        (answer, world)
    });
    claims.same("01: whole run", whole.0, "0 7 3 0".into());
    let after = &whole.1;
    claims.same("01: whole run, y", &after.lists[5], &vec![64, 124, 154]);
    claims.same("01: whole run, flags", &after.lists[6], &vec![5, 1, 1]);
    let mut state = fresh_state();
    state.vectors = along(Y, Y, Y);
    claims.same("01: whole run, state", &after.state, &state);
    claims.same("01: budget 2", short.0, "1 5 2 0".into());
    claims.same("01: budget 2, y", &short.1.lists[5], &vec![64, 100, 130]);
    let refused = "7 0 0 18446744073709551615";
    claims.same("01: 47, 1, -1 pedantic", pedantic.0, refused.into());
    claims.same("01: 47, 1, -1 not pedantic", lenient.0, "0 3 1 0".into());
    claims.same(
        "01: rp0 holds that number",
        lenient.1.state.references[0],
        u64::MAX,
    );
}

fn easy_to_get_wrong(claims: &mut Claims) {
    let scene = Scene::new(&[(10, 10), (20, 20)]);
    let bad = |scene: &Scene, pedantic: bool, line: &[i32]| {
        let strict = scene.clone().state(|state| state.pedantic = pedantic);
        strict.sheet(line).play()
    };
    let wild_rp0 = scene.clone().state(|state| state.references[0] = 9);
    claims.same(
        "01: MSIRP reads its point first",
        bad(&wild_rp0, true, &[58, 2, 5, 7]).said(),
        (7, 7),
    );
    let into_twilight = wild_rp0
        .clone()
        .twilight(&[(0, 0)], &[(0, 0)])
        .state(|state| state.zones = [1, 0, 1]);
    claims.same(
        "01: MSIRP into twilight reads rp0 first",
        bad(&into_twilight, true, &[58, 2, 5, 7]).said(),
        (7, 9),
    );
    for (line, first, name) in [
        ([15, 5, 6, 7, 8, 9, 5], 9, "a0"),
        ([15, 5, 6, 7, 8, 1, 5], 8, "a1"),
        ([15, 5, 6, 7, 1, 1, 5], 7, "b0"),
        ([15, 5, 6, 1, 1, 1, 5], 6, "b1"),
        ([15, 5, 1, 1, 1, 1, 5], 5, "point"),
    ] {
        let what = format!("01: ISECT reads {name} before the rest");
        claims.same(&what, bad(&scene, false, &line).said(), (7, first));
    }
    claims.same(
        "01: MIAP reads the control value first",
        bad(&scene, false, &[62, 2, 3, 9]).said(),
        (8, 3),
    );
    claims.same(
        "01: MIAP has no leniency",
        bad(&scene.clone().control_values(&[5]), false, &[62, 2, 0, 9]).said(),
        (7, 9),
    );
    let lenient = bad(&scene, false, &[58, 2, 5, 7]);
    claims.same("01: lenient MSIRP goes on", lenient.said(), (0, 0));
    claims.same(
        "01: lenient MSIRP changes nothing",
        lenient.world.state,
        fresh_state(),
    );
    let still = scene
        .clone()
        .state(|state| state.vectors = along(X, X, NOWHERE));
    claims.same(
        "01: SHP with freedom (0, 0) takes a wild point",
        bad(&still, true, &[50, 1, -5]).said(),
        (0, 0),
    );
}

fn orders(claims: &mut Claims) {
    let two = Scene::new(&[(10, 10), (20, 20)]);
    let alignrp = two.clone().state(|state| state.references[0] = 9);
    claims.same(
        "ALIGNRP reads its point before rp0",
        alignrp.sheet(&[60, 1, 7]).play().said(),
        (7, 7),
    );
    claims.same(
        "MIAP with one operand is 6, the control value being bad",
        two.clone().sheet(&[62, 1, 99]).play().said(),
        (6, 0),
    );
    claims.same(
        "ISECT with four wild operands is 6",
        two.clone().sheet(&[15, 4, 9, 9, 9, 9]).play().said(),
        (6, 0),
    );
    claims.same(
        "MSIRP with one operand is 6, pedantic or not",
        two.clone().sheet(&[58, 1, 9]).play().said(),
        (6, 0),
    );
    let looped = |count: u32| two.clone().state(move |state| state.loop_counter = count);
    let early = looped(3).sheet(&[128, 2, 0, 9]).play();
    claims.same("FLIPPT: an early 7 beats a later 6", early.said(), (7, 9));
    claims.same(
        "FLIPPT: the earlier point stays flipped",
        early.flags(),
        &[0, 1],
    );
    claims.same("FLIPPT: the counter is 1", early.loop_counter(), 1);
    let short = looped(3).sheet(&[60, 2, 1, 1]).play();
    claims.same("ALIGNRP: 6 after two points", short.said(), (6, 0));
    claims.same("ALIGNRP: they stay moved", short.xs(), vec![10, 10]);
    let no_loop = looped(0).state(|state| state.references[2] = 5);
    let shp = no_loop.sheet(&[50, 0]).play();
    claims.same(
        "SHP reads its reference with loop counter 0",
        shp.said(),
        (7, 5),
    );
    claims.same("SHP: a 7 there keeps the counter", shp.loop_counter(), 0);
    claims.same(
        "SHP: counter 0 and a good reference ends at 1",
        looped(0).sheet(&[50, 0]).play().loop_counter(),
        1,
    );
    let flippt = two.clone().state(|state| state.zones = [0, 0, 0]);
    claims.same(
        "FLIPPT always uses the glyph zone",
        flippt.sheet(&[128, 1, 1]).play().flags(),
        &[1, 0],
    );
    let marked = two.clone().state(|state| {
        state.backward_compatibility = true;
        state.x_interpolated = true;
        state.y_interpolated = true;
    });
    claims.same(
        "FLIPPT takes wild points once both marks are set",
        marked.clone().sheet(&[128, 1, -7]).play().said(),
        (0, 0),
    );
    claims.same(
        "FLIPPT still gives 6 then",
        marked.sheet(&[128, 0]).play().said(),
        (6, 0),
    );
}

fn corners_of_math(claims: &mut Claims) {
    claims.same("mul_div(0, -5, 0)", door::mul_div(0, -5, 0), -2147483647);
    claims.same("div(0, 0)", door::div(0, 0), 2147483647);
    claims.same("div(0, -1)", door::div(0, -1), 0);
    claims.same("HalfGrid(-2^31)", rounded(1, MIN), 0);
    claims.same("round_pad(100, 48) is a mask", door::round_pad(100, 48), 80);
    claims.same("round_pad(5, -2^31)", door::round_pad(5, MIN), MIN);
    let by_minus_one = MathRow::new(23, [0, i32::MAX, -1, -1]);
    claims.same(
        "Super45: -2^31 by -1 wraps",
        by_minus_one.outcome().result,
        i32::MAX,
    );
    let redundant = corners()
        .iter()
        .filter(|divisor| **divisor != 0)
        .all(|divisor| {
            corners()
                .iter()
                .all(|by| door::mul(*by, door::div(0, *divisor)) == 0)
        });
    claims.same(
        "IUP: a scale of 0 moves nothing, so cur1 == cur2 needs no test",
        redundant,
        true,
    );
    claims.same(
        "Super45 with period 0 panics in this build",
        panics_by_period_0(),
        true,
    );
}

fn rounded(mode: u32, distance: i32) -> i32 {
    let rounding = Rounding {
        mode,
        threshold: 0,
        phase: 0,
        period: 64,
    };
    door::round_distance(rounding, distance)
}

fn panics_by_period_0() -> bool {
    let rounding = Rounding {
        mode: 7,
        threshold: 0,
        phase: 0,
        period: 0,
    };
    crate::panics::place_of(|| door::round_distance(rounding, 0)).is_some()
}

fn vectors_and_axes(claims: &mut Claims) {
    let axes = |projection: [i32; 2]| door::derived(along(projection, projection, X)).axes;
    claims.same("(16384, 16384) is the x axis", axes([0x4000, 0x4000])[0], 1);
    claims.same("(-16384, 0) is no axis", axes([-0x4000, 0])[0], 0);
    let floored = door::derived(along([-16383, 0], X, [16383, 0])).fdotp;
    claims.same(
        "fdotp is a floor: (-16383, 0) by (16383, 0)",
        floored,
        -16383,
    );
    let small = door::derived(along([0x3FF, 16352], X, X));
    claims.same(
        "a small fdotp leaves the freedom axis both",
        small.axes[2],
        0,
    );
    let scene = Scene::new(&[(10, 10)]).state(|state| state.vectors = along(X, X, NOWHERE));
    let mdap = scene
        .state(|state| state.references = [3, 4, 5])
        .sheet(&[47, 1, 0])
        .play();
    claims.same(
        "MDAP with freedom (0, 0) sets rp0 and rp1",
        mdap.world.state.references,
        [0, 0, 5],
    );
    claims.same(
        "MDAP with freedom (0, 0) touches nothing",
        mdap.flags(),
        &[1],
    );
    let sloop = Scene::new(&[]).sheet(&[23, 1, 65_536]).play();
    claims.same("SLOOP caps at 65,535", sloop.loop_counter(), 65_535);
    let many = Scene::new(&[(0, 0)])
        .state(|state| state.loop_counter = u32::MAX)
        .sheet(&[128, 1, 0])
        .play();
    claims.same(
        "a caller's loop counter may be 2^32 - 1",
        many.said(),
        (6, 0),
    );
}

fn horizontal_exception(claims: &mut Claims) {
    let moved = |projection: [i32; 2], freedom: [i32; 2], both_marks: bool| {
        let scene = Scene::new(&[(10, 10)]).state(|state| {
            state.vectors = along(projection, X, freedom);
            state.backward_compatibility = true;
            state.x_interpolated = both_marks;
            state.y_interpolated = both_marks;
        });
        let by = Call::MovePoint {
            zone: 1,
            index: 0,
            distance: 64,
        };
        scene.call(by).point(0)
    };
    let mdap = |both_marks| notable::mdap_horizontal(both_marks).play().point(0);
    claims.same(
        "MDAP[1] at 45 degrees, backward compatibility",
        mdap(false),
        (0, 0),
    );
    claims.same("MDAP[1] the same after both IUPs", mdap(true), (0, 0));
    claims.same(
        "no exception along the x axis",
        moved(X, X, false),
        (10, 10),
    );
    claims.same(
        "none where the projection rises: x stays",
        moved(DIAGONAL, DIAGONAL, false),
        (10, 55),
    );
    claims.same(
        "none where the projection rises, after both IUPs",
        moved(DIAGONAL, DIAGONAL, true),
        (10, 10),
    );
    claims.same(
        "projection (-16384, 0) is horizontal",
        moved([-0x4000, 0], DIAGONAL, true),
        (-54, -54),
    );
    claims.same(
        "projection (0, 0) is horizontal",
        moved(NOWHERE, DIAGONAL, true),
        (55, 55),
    );
    let shp = notable::shp_horizontal().play();
    claims.same("SHP has no exception: x stays", shp.point(0), (10, 74));
    let isect = notable::isect_locked().play();
    claims.same(
        "ISECT ignores backward compatibility",
        isect.point(4),
        (32, 32),
    );
}

fn lines_at_the_ends(claims: &mut Claims) {
    let miap = notable::miap_farthest().play();
    claims.same(
        "MIAP keeps the control value where the difference is 2^31",
        miap.point(0),
        (0, 0),
    );
    let alignrp = notable::alignrp_farthest().play();
    claims.same("ALIGNRP by -2^31 wraps", alignrp.point(1), (0, 575406080));
    let quarter = notable::isect_quarter().play();
    claims.same(
        "ISECT's quarter truncates: -7 / 4",
        quarter.point(4),
        (-1, -1),
    );
    let flat = notable::isect_flat().play();
    claims.same(
        "ISECT with discriminant 0, dot product -2^31",
        flat.point(4),
        (-2147483640, 2147483644),
    );
}

fn direct_calls(claims: &mut Claims) {
    let wild = |do_touch| Call::MoveZp2Point {
        index: 9,
        by: (1, 1),
        do_touch,
    };
    let locked = Scene::new(&[(0, 0)]).state(|state| state.backward_compatibility = true);
    claims.same(
        "move_zp2_point that is locked and doesn't touch takes a wild point",
        locked.call(wild(false)).said(),
        (0, 0),
    );
    claims.same(
        "move_zp2_point that is locked and touches looks",
        locked.call(wild(true)).said(),
        (7, 9),
    );
    let still = Scene::new(&[(0, 0)]).state(|state| state.vectors = along(X, X, NOWHERE));
    let by = |index| Call::MovePoint {
        zone: 1,
        index,
        distance: 64,
    };
    claims.same(
        "move_point with freedom (0, 0) looks",
        still.call(by(9)).said(),
        (7, 9),
    );
    claims.same(
        "move_point with freedom (0, 0) touches nothing",
        still.call(by(0)).flags(),
        &[1],
    );
    let isect = notable::isect_quarter()
        .state(|state| state.vectors = along(X, X, NOWHERE))
        .play();
    claims.same(
        "ISECT touches both axes, whatever the freedom vector",
        isect.flags()[4],
        7,
    );
    let empty = Scene::new(&[]);
    let along_x = Call::Iup { axis: 1 };
    claims.same(
        "iup on no points and no contour",
        empty.call(along_x).said(),
        (0, 0),
    );
    let unlike = Scene::new(&[(0, 0), (0, 0)]).original(&[(0, 0)]);
    for rp1 in [0, 1] {
        let scene = unlike.clone().state(|state| state.references[1] = rp1);
        claims.same(
            &format!("point_displacement of {rp1}, one original and two current points"),
            scene.call(Call::PointDisplacement { opcode: 0x33 }).said(),
            (2, 0),
        );
    }
    claims.same(
        "point of the same goes by the current points",
        unlike.call(Call::Point { zone: 1, index: 1 }).said(),
        (0, 0),
    );
}

/// Two runs, the second from where the first ended with 1, equal one.
fn budgets_add_up(claims: &mut Claims) {
    let mut random = Random::new(7);
    let mut split = 0;
    let mut agree = 0;
    while split < 10_000 {
        let case = any_case(&mut random);
        let Call::Run { start, rules, .. } = case.call else {
            continue;
        };
        let run = |start, budget| Call::Run {
            start,
            budget,
            rules,
        };
        let first = random.below(4) as u64;
        let second = random.below(4) as u64;
        if let Some(equal) = two_runs_equal_one(&case, run, [start, first, second]) {
            split += 1;
            agree += usize::from(equal);
        }
    }
    claims.same("01: 10,000 split budgets equal their sum", agree, split);
}

/// None where the first run didn't end with 1.
fn two_runs_equal_one(
    case: &Case,
    run: impl Fn(u64, u64) -> Call,
    [start, first, second]: [u64; 3],
) -> Option<bool> {
    let mut halves = case.world.clone();
    let half = run(start, first).perform(&mut halves).answer;
    if half.number != 1 {
        return None;
    }
    let mut rest = run(half.place, second).perform(&mut halves).answer;
    rest.lines += half.lines;
    let mut once = case.world.clone();
    let whole = run(start, first + second).perform(&mut once).answer;
    Some(rest == whole && halves == once)
}
