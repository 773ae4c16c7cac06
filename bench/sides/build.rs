//! Links the proved library: that of release/, or what the folder that TALEVIQA_LIBRARY names has, libtaleviqa.so before libtaleviqa.a. A shared one
//! can be exchanged without building anew.

use std::{env, path::Path};

fn main() {
    let here = env::var("CARGO_MANIFEST_DIR").unwrap();
    let own = Path::new(&here).join("../../release/lib");
    let folder = env::var("TALEVIQA_LIBRARY").map_or(own, Into::into);
    let shared = folder.join("libtaleviqa.so").exists();
    let (kind, file) = if shared {
        ("dylib", "libtaleviqa.so")
    } else {
        ("static", "libtaleviqa.a")
    };
    println!("cargo:rustc-link-search=native={}", folder.display());
    println!("cargo:rustc-link-lib={kind}=taleviqa");
    println!("cargo:rerun-if-env-changed=TALEVIQA_LIBRARY");
    println!("cargo:rerun-if-changed={}", folder.join(file).display());
}
