//! The library of crates/nanobot_c and crates/machine_c as plain Rust. Nothing of it is proved.
#![allow(warnings)]
include!("crates.rs");
