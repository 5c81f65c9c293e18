//! Links libwatchtree.a: from the folder that WATCHTREE_OUT names, from out/ at the top of the repository, or from lib/
//! of the prefix that this crate was installed to.
use std::env;
use std::path::PathBuf;

fn main() {
    let here = PathBuf::from(env::var("CARGO_MANIFEST_DIR").expect("cargo sets it"));
    let places = match env::var_os("WATCHTREE_OUT") {
        Some(out) => vec![PathBuf::from(out)],
        None => vec![here.join("../../out"), here.join("../../../lib")],
    };
    let found = places.iter().find(|it| it.join("libwatchtree.a").exists());
    let out =
        found.unwrap_or_else(|| panic!("no libwatchtree.a in {places:?}: run ./watchtree lib, or set WATCHTREE_OUT"));
    println!("cargo:rerun-if-env-changed=WATCHTREE_OUT");
    println!("cargo:rerun-if-changed={}", out.join("libwatchtree.a").display());
    println!("cargo:rustc-link-search=native={}", out.display());
    println!("cargo:rustc-link-lib=static=watchtree");
}
