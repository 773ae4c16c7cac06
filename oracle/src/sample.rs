//! The committed sample: seventeen files, the same bytes every time.

use crate::{
    answer,
    case::Case,
    coverage,
    direct::Call,
    generate::{
        distance_case, distance_run_case, every_distance, every_end, every_length, every_limit,
        every_opcode, every_rule, every_selector, every_setter, every_setting, every_shift,
        every_single, every_wrap, far_calls, far_distances, far_references, iup_case,
        largest_faces, length_case, limit_cases, line_case, long_iup_case, long_iup_shift_case,
        mended, rounds_by_every_selector, rules_run_case, run_case, runs_of_01, selector_counts,
        selector_run_case, set_words, setting_case, setting_rows, setting_run_case, shift_case,
        shift_run_case, single_case, single_run_case, turns, under_both, wrap_case, zone_case,
    },
    math_rows, notable,
    opcodes::{rows_of, Family},
    projection_rows,
    random::Random,
    rules::ALL as ALL_RULES,
    words,
    world::MOST_POINTS,
    wraps,
};
use std::path::Path;

const ZONE_SEED: u64 = 0x7A6F_6E65;
const IUP_SEED: u64 = 0x0069_7570;
const OUTLINE_SEED: u64 = 0x6F75_746C;
const RUNS_SEED: u64 = 0x7275_6E73;
const SHIFTS_SEED: u64 = 0x7368_6966;
const SELECTORS_SEED: u64 = 0x7365_6C65;
const LENGTHS_SEED: u64 = 0x6C65_6E67;
const TURNS_SEED: u64 = 0x7475_726E;
const WRAPS_SEED: u64 = 0x7772_6170;
const DISTANCES_SEED: u64 = 0x6469_7374;
const RULES_SEED: u64 = 0x7275_6C65;
const SINGLES_SEED: u64 = 0x7369_6E67;
const SETTINGS_SEED: u64 = 0x7365_7474;
const ZONE_CASES: usize = 5_000;
const IUP_CASES: usize = 3_400;
const LINES_EACH: usize = 480;
const RUN_CASES: usize = 2_800;
const SHIFTS_EACH: usize = 400;
const SHIFT_RUN_CASES: usize = 240;
const SELECTORS_EACH: usize = 100;
const SELECTOR_RUN_CASES: usize = 240;
const LENGTH_CASES: usize = 400;
const WRAP_CASES: usize = 600;
const COUNTED_CALLS: usize = 60;
/// Random lines of GC, MD, MDRP and MIRP.
const DISTANCES_EACH: [usize; 4] = [320, 220, 260, 260];
const DISTANCE_RUN_CASES: usize = 300;
const DISTANCE_CALLS: usize = 60;
const RULES_RUN_CASES: usize = 320;
/// Random lines of IP, ALIGNPTS and UTP.
const SINGLES_EACH: [usize; 3] = [280, 120, 80];
const SINGLE_RUN_CASES: usize = 160;
/// Random lines of each that sets a vector or a size.
const SETTINGS_EACH: usize = 60;
const SETTING_RUN_CASES: usize = 200;

const NAMES: [&str; 17] = [
    "math",
    "projection",
    "zone",
    "iup",
    "outline",
    "runs",
    "shifts",
    "selectors",
    "lengths",
    "turns",
    "wraps",
    "largest",
    "distances",
    "ends",
    "rules",
    "singles",
    "settings",
];

/// Those that hold no cases, and those from `ends` on.
const UNLIKE_BEFORE: [&str; 6] = ["math", "projection", "ends", "rules", "singles", "settings"];

/// Writes the seventeen files into a folder and says how large each is.
pub fn write(folder: &Path) -> Result<(), String> {
    std::fs::create_dir_all(folder).map_err(|error| error.to_string())?;
    for name in NAMES {
        let (count, words) = make(name);
        let path = folder.join(name);
        let bytes = words::to_bytes(&words);
        std::fs::write(&path, &bytes).map_err(|error| format!("{}: {error}", path.display()))?;
        println!("{name}: {count} cases, {} bytes", bytes.len());
    }
    Ok(())
}

/// True if the folder's files are what would be written today.
pub fn check(folder: &Path) -> Result<bool, String> {
    let mut all_alike = true;
    for name in NAMES {
        let path = folder.join(name);
        let kept = std::fs::read(&path).map_err(|error| format!("{}: {error}", path.display()))?;
        let alike = kept == words::to_bytes(&make(name).1);
        println!("{name}: {}", if alike { "the same" } else { "DIFFERENT" });
        all_alike &= alike;
    }
    Ok(all_alike)
}

/// Counts what the folder's files hold; true if nothing is missing.
pub fn coverage(folder: &Path) -> Result<bool, String> {
    let mut files = Vec::new();
    for name in NAMES {
        let path = folder.join(name);
        let bytes = std::fs::read(&path).map_err(|error| format!("{}: {error}", path.display()))?;
        files.push((name.to_string(), words::from_bytes(&bytes)?));
    }
    coverage::of_sample(&files)
}

/// How many cases a file has, and its words.
fn make(name: &str) -> (usize, Vec<u32>) {
    match name {
        "math" => {
            let rows = math_rows::sample();
            (
                rows.len(),
                rows.iter().flat_map(|row| row.words()).collect(),
            )
        }
        "projection" => {
            let rows = projection_rows::sample();
            (
                rows.len(),
                rows.iter().flat_map(|row| row.words()).collect(),
            )
        }
        _ => {
            let cases = cases_of(name);
            let words = cases.iter().flat_map(|case| case.words(&case.outcome()));
            (cases.len(), words.collect())
        }
    }
}

/// The cases of one of the fifteen files that hold cases.
fn cases_of(name: &str) -> Vec<Case> {
    match name {
        "zone" => zone_cases(),
        "iup" => iup_cases(),
        "outline" => outline_cases(),
        "runs" => runs(),
        "shifts" => shifts(),
        "selectors" => selectors(),
        "lengths" => lengths(),
        "wraps" => wraps(),
        "largest" => largest_faces(),
        "distances" => distances(),
        "ends" => ends(),
        "rules" => rules(),
        "singles" => singles(),
        "settings" => settings(),
        _ => turns_and_far_indices(),
    }
}

fn zone_cases() -> Vec<Case> {
    let mut random = Random::new(ZONE_SEED);
    let at_limits = limit_cases(&mut random).into_iter().filter(is_zone_call);
    let mut cases: Vec<Case> = at_limits.collect();
    cases.extend((0..ZONE_CASES).map(|_| zone_case(&mut random)));
    cases
}

fn iup_cases() -> Vec<Case> {
    let mut random = Random::new(IUP_SEED);
    let at_limits = limit_cases(&mut random).into_iter().filter(is_iup);
    let mut cases = notable::iups();
    cases.extend(at_limits);
    for points in [2, 3, 40, 300] {
        cases.push(long_iup_case(&mut random, points));
        cases.push(long_iup_shift_case(&mut random, points));
    }
    cases.push(long_iup_shift_case(&mut random, MOST_POINTS));
    cases.extend((0..IUP_CASES).map(|_| iup_case(&mut random)));
    cases
}

fn outline_cases() -> Vec<Case> {
    let mut random = Random::new(OUTLINE_SEED);
    let mut cases = notable::lines();
    for row in rows_of(Family::Outline) {
        cases.extend((0..LINES_EACH).map(|_| line_case(&mut random, row)));
    }
    cases
}

/// 01's runs first, then each opcode and setter, the limits, and random ones.
fn runs() -> Vec<Case> {
    let mut random = Random::new(RUNS_SEED);
    let mut cases = runs_of_01().to_vec();
    cases.extend(every_opcode());
    cases.extend(every_setter());
    cases.extend(limit_cases(&mut random).into_iter().filter(is_run));
    cases.extend((0..RUN_CASES).map(|_| run_case(&mut random)));
    cases
}

/// Each shift at the operands where it turns, then random ones alone, then
/// random ones among other lines.
fn shifts() -> Vec<Case> {
    let mut random = Random::new(SHIFTS_SEED);
    let mut cases = every_shift();
    for row in rows_of(Family::Shift) {
        cases.extend((0..SHIFTS_EACH).map(|_| shift_case(&mut random, row)));
    }
    cases.extend((0..SHIFT_RUN_CASES).map(|_| shift_run_case(&mut random)));
    cases
}

/// Each selector of both kinds alone, then with lines that round by it, then
/// each count of operands, then random ones alone and among other lines.
fn selectors() -> Vec<Case> {
    let mut random = Random::new(SELECTORS_SEED);
    let mut cases = every_selector();
    cases.extend(rounds_by_every_selector());
    cases.extend(selector_counts());
    for row in rows_of(Family::Selector) {
        cases.extend((0..SELECTORS_EACH).map(|_| line_case(&mut random, row)));
    }
    cases.extend((0..SELECTOR_RUN_CASES).map(|_| selector_run_case(&mut random)));
    cases
}

/// Direct calls whose lists don't fit, each list and pair in turn, then sizes
/// above the limit, then random ones.
fn lengths() -> Vec<Case> {
    let mut random = Random::new(LENGTHS_SEED);
    let mut cases = every_length(&mut random);
    cases.extend(every_limit(&mut random));
    cases.extend((0..LENGTH_CASES).map(|_| length_case(&mut random)));
    cases
}

/// What one rule alone decides, and indices whose low 32 bits are a point.
fn turns_and_far_indices() -> Vec<Case> {
    let mut random = Random::new(TURNS_SEED);
    let mut cases = turns();
    cases.extend(far_calls(&mut random));
    cases.extend(far_references());
    cases
}

/// Each kind of wrapped rounding, then random runs that round wild numbers, then
/// direct calls, which keep whatever count they are given.
fn wraps() -> Vec<Case> {
    let mut random = Random::new(WRAPS_SEED);
    let mut cases = every_wrap();
    let mut counted = |case: fn(&mut Random) -> Case| {
        let mut case = case(&mut random);
        case.world.state.wrapped_roundings = wraps::count(&mut random);
        case
    };
    cases.extend((0..WRAP_CASES).map(|_| counted(wrap_case)));
    cases.extend((0..COUNTED_CALLS).map(|_| counted(zone_case)));
    cases
}

/// Each of the distances where it turns, their far references, then random ones
/// alone and among other lines, then direct calls, which keep all that they need.
fn distances() -> Vec<Case> {
    let mut random = Random::new(DISTANCES_SEED);
    let mut cases = every_distance();
    cases.extend(far_distances());
    for (row, count) in rows_of(Family::Distances).into_iter().zip(DISTANCES_EACH) {
        cases.extend((0..count).map(|_| distance_case(&mut random, row)));
    }
    cases.extend((0..DISTANCE_RUN_CASES).map(|_| distance_run_case(&mut random)));
    cases.extend((0..DISTANCE_CALLS).map(|_| {
        let mut case = zone_case(&mut random);
        set_words(&mut random, &mut case.world.state);
        case
    }));
    cases
}

/// Every way that ends are sloppy or right; then each case of the files before
/// whose ends are why it is refused, with its ends mended.
fn ends() -> Vec<Case> {
    let before = NAMES.iter().filter(|name| !UNLIKE_BEFORE.contains(name));
    let refused = before
        .flat_map(|name| cases_of(name))
        .filter(is_refused_for_its_ends);
    let mut cases = every_end();
    cases.extend(refused.map(mended));
    cases
}

/// What tells the rules apart, then random sheets rich in it; each case by both
/// rules, one right after the other.
fn rules() -> Vec<Case> {
    let mut random = Random::new(RULES_SEED);
    let mut cases = every_rule();
    for _ in 0..RULES_RUN_CASES {
        cases.extend(under_both(mended(rules_run_case(&mut random))));
    }
    cases
}

/// IP, ALIGNPTS and UTP where they turn, then random ones alone, by either of the
/// rules, then among other lines, by both.
fn singles() -> Vec<Case> {
    let mut random = Random::new(SINGLES_SEED);
    let mut cases = every_single();
    for (row, count) in rows_of(Family::Single).into_iter().zip(SINGLES_EACH) {
        cases.extend((0..count).map(|_| {
            let case = single_case(&mut random, row);
            case.under(random.pick(&ALL_RULES))
        }));
    }
    for _ in 0..SINGLE_RUN_CASES {
        cases.extend(under_both(single_run_case(&mut random)));
    }
    cases
}

/// The lines that set vectors and sizes where they turn, then random ones alone, by
/// either of the rules, then among other lines, by both.
fn settings() -> Vec<Case> {
    let mut random = Random::new(SETTINGS_SEED);
    let mut cases = every_setting();
    for row in setting_rows() {
        cases.extend((0..SETTINGS_EACH).map(|_| {
            let case = setting_case(&mut random, row);
            case.under(random.pick(&ALL_RULES))
        }));
    }
    for _ in 0..SETTING_RUN_CASES {
        cases.extend(under_both(setting_run_case(&mut random)));
    }
    cases
}

fn is_refused_for_its_ends(case: &Case) -> bool {
    case.outcome().returned.answer.number == answer::ENDS
}

fn is_run(case: &Case) -> bool {
    matches!(case.call, Call::Run { .. })
}

fn is_iup(case: &Case) -> bool {
    matches!(case.call, Call::Iup { .. })
}

fn is_zone_call(case: &Case) -> bool {
    !is_run(case) && !is_iup(case)
}
