//! Links our static libraries, OURS_LIBRARIES in OURS_DIRECTORY, as `tools/build` wrote them. OURS_LIMIT is set where they are those of a copy
//! whose limit was raised: `raised`.

use std::env::var;

fn main() {
    println!("cargo:rerun-if-env-changed=OURS_DIRECTORY");
    println!("cargo:rerun-if-env-changed=OURS_LIBRARIES");
    println!("cargo:rerun-if-env-changed=OURS_LIMIT");
    println!("cargo::rustc-check-cfg=cfg(raised)");
    if var("OURS_LIMIT").is_ok() {
        println!("cargo:rustc-cfg=raised");
    }
    let directory = var("OURS_DIRECTORY").expect("the directory of the static libraries");
    println!("cargo:rustc-link-search=native={directory}");
    for library in var("OURS_LIBRARIES")
        .expect("their names")
        .split_whitespace()
    {
        println!("cargo:rerun-if-changed={directory}/lib{library}.a");
        println!("cargo:rustc-link-lib=static={library}");
    }
}
