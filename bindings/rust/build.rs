//! Links the static library that `scripts/bindings.sh` makes: `libgixp.a` in `GIXP_LIB`, or where the script puts it.
use std::{env, path::PathBuf};

fn main() {
    let beside = PathBuf::from(env::var_os("CARGO_MANIFEST_DIR").unwrap()).join("../build");
    let folder = env::var_os("GIXP_LIB").map_or(beside, PathBuf::from);
    println!("cargo:rerun-if-env-changed=GIXP_LIB");
    println!("cargo:rerun-if-changed={}", folder.join("libgixp.a").display());
    println!("cargo:rustc-link-search=native={}", folder.display());
    println!("cargo:rustc-link-lib=static=gixp");
}
