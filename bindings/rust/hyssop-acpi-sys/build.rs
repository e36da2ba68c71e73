//! Names the library. The variable HYSSOP is the folder with `libhyssop.a`: `crates/acpi_c/out/c` after `tools/c.sh`, or
//! `PREFIX/lib` after `tools/install PREFIX`.
use std::path::Path;

fn main() {
    println!("cargo:rerun-if-env-changed=HYSSOP");
    let Some(folder) = std::env::var_os("HYSSOP") else {
        panic!(
            "set HYSSOP to the folder with libhyssop.a, which `sh tools/c.sh` writes to crates/acpi_c/out/c"
        );
    };
    let library = Path::new(&folder).join("libhyssop.a");
    if !library.exists() {
        panic!(
            "{} isn't there: HYSSOP has to be the folder with libhyssop.a",
            library.display()
        );
    }
    println!("cargo:rerun-if-changed={}", library.display());
    println!(
        "cargo:rustc-link-search=native={}",
        Path::new(&folder).display()
    );
    println!("cargo:rustc-link-lib=static=hyssop");
}
