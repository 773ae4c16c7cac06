//! Lays out the Rust's module tree in OUT_DIR: the files of docs/src as they
//! are, the missing ones from shims/, and the two patches: one in engine/mod.rs,
//! and a line in round.rs that reports each rounding and changes nothing.

use std::{
    env, fs,
    path::{Path, PathBuf},
};

const RUST_VARIABLE: &str = "TALEVIQA_RUST";
const RUST_DEFAULT: &str = "../../shared/docs/src";
const HINT: &str = "src/outline/glyf/hint";

/// Files that hint/mod.rs names and the Rust folder lacks, and our door.
const SHIMS: [&str; 5] = [
    "cleartype.rs",
    "dropout.rs",
    "instance.rs",
    "storage.rs",
    "engine/door.rs",
];

/// What the Rust's own rule for native ClearType along x looks like.
const OWN_RULE: &str = "        self.cleartype.is_native_enhanced()
            && self.program.initial == Program::Glyph
            && self.graphics.target.is_smooth()
            && !self.graphics.backward_compatibility
            && self.graphics.proj_vector.y == 0
            && self.graphics.freedom_vector.y == 0
";

/// The host's value decides alone.
const HOST_RULE: &str = "        self.cleartype.is_native_enhanced()\n";

/// How the Rust's rounding ends.
const ROUNDED: &str = "            Off => distance,
        };
        F26Dot6::from_bits(result)
";

/// The same, with the call and its number told to the door.
const ROUNDED_AND_TOLD: &str = "            Off => distance,
        };
        super::engine::door::tell(self, distance, result);
        F26Dot6::from_bits(result)
";

/// Lets the driver reach the engine's private fields; nothing above it changes.
const DOOR: &str = "\npub mod door;\n";

fn main() {
    let hint = rust_folder().join(HINT);
    let out = PathBuf::from(env::var("OUT_DIR").unwrap()).join("hint");
    copy_rust_files(&hint, &out);
    copy_rust_files(&hint.join("engine"), &out.join("engine"));
    patch(
        &out.join("engine/mod.rs"),
        "the rule for native ClearType x",
        [OWN_RULE, HOST_RULE],
    );
    append(&out.join("engine/mod.rs"), DOOR);
    if env::var_os("CARGO_FEATURE_UNTOLD").is_none() {
        patch(
            &out.join("round.rs"),
            "the end of the rounding",
            [ROUNDED, ROUNDED_AND_TOLD],
        );
    }
    refuse_known_shims(&hint);
    for name in SHIMS {
        add_shim(name, &out.join(name));
    }
    declare_tree(&out);
    println!("cargo:rerun-if-env-changed={RUST_VARIABLE}");
    println!("cargo:rerun-if-changed=build.rs");
}

fn rust_folder() -> PathBuf {
    let package = PathBuf::from(env::var("CARGO_MANIFEST_DIR").unwrap());
    let named = env::var(RUST_VARIABLE).unwrap_or_else(|_| RUST_DEFAULT.into());
    let folder = package.join(named);
    if !folder.join(HINT).is_dir() {
        panic!(
            "no Rust at {}: set {RUST_VARIABLE} to the folder that holds {HINT}",
            folder.display()
        );
    }
    folder
}

fn copy_rust_files(from: &Path, to: &Path) {
    fs::create_dir_all(to).unwrap();
    for entry in fs::read_dir(from).unwrap() {
        let path = entry.unwrap().path();
        if path.extension().is_some_and(|extension| extension == "rs") {
            let text = fs::read_to_string(&path).unwrap();
            fs::write(to.join(path.file_name().unwrap()), text).unwrap();
            println!("cargo:rerun-if-changed={}", path.display());
        }
    }
}

fn patch(path: &Path, what: &str, [old, new]: [&str; 2]) {
    let text = fs::read_to_string(path).unwrap();
    if text.matches(old).count() != 1 {
        panic!("{} no longer has {what} that is patched", path.display());
    }
    fs::write(path, text.replace(old, new)).unwrap();
}

fn append(path: &Path, more: &str) {
    let text = fs::read_to_string(path).unwrap();
    fs::write(path, text + more).unwrap();
}

fn add_shim(name: &str, to: &Path) {
    let shim = Path::new("shims").join(name);
    let text = fs::read_to_string(&shim).unwrap();
    fs::write(to, text).unwrap();
    println!("cargo:rerun-if-changed={}", shim.display());
}

/// A shim must never stand in for a file that the Rust has.
fn refuse_known_shims(hint: &Path) {
    for name in SHIMS {
        if hint.join(name).exists() {
            panic!("the Rust has {name} itself: its shim has to go");
        }
    }
}

/// The path is known only here, and `#[path]` takes nothing but a literal.
fn declare_tree(out: &Path) {
    let rust = out.join("mod.rs");
    // The Rust has more than the oracle calls.
    let declared =
        format!("#[allow(dead_code, unused_imports)]\n#[path = {rust:?}]\npub mod hint;\n");
    fs::write(out.with_file_name("tree.rs"), declared).unwrap();
}
