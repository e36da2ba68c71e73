//! Declarations of `libhyssop.a`, as they are. `hyssop-acpi` has safe functions.

#[path = "../../../../crates/acpi_c/hyssop.rs"]
mod hyssop;

pub use hyssop::*;
