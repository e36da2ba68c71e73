//! Names the library. The variable HYSSOP is the folder with `libhyssop.a`, which `tools/c.sh` writes.
use std::path::Path;

fn main() {
    println!("cargo:rerun-if-env-changed=HYSSOP");
    let Some(folder) = std::env::var_os("HYSSOP") else {
        panic!("set HYSSOP to the folder with libhyssop.a");
    };
    let folder = Path::new(&folder);
    println!("cargo:rerun-if-changed={}", folder.join("libhyssop.a").display());
    println!("cargo:rustc-link-search=native={}", folder.display());
    println!("cargo:rustc-link-lib=static=hyssop");
}
