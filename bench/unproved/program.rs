//! The program nanobot as plain Rust: crates/nanobot over what replaces the kit's modules. Nothing of it is proved.
#![allow(warnings)]
include!("crates.rs");

use counter_permit::CounterPermit;
use nanobot_app::{Status, drive};
use shim::{Blank, Brand, Global, String};
use vox_depot::{HostDepot, HostSink};
use vox_geom::Steps;
use std::process::ExitCode;

fn main() -> ExitCode {
    let words: Vec<String> = std::env::args_os().skip(1).map(|word| String(word.to_string_lossy().into_owned())).collect();
    let mut steps = Steps::<Brand>::new(Blank::new(1), CounterPermit);
    let status = drive(Global, &words, &mut HostDepot::default(), &mut HostSink, &mut steps);
    match status {
        Status::Depot => eprintln!("nanobot: a file could not be read or written"),
        Status::Sink => eprintln!("nanobot: the output could not be written"),
        Status::Memory => eprintln!("nanobot: out of memory"),
        _ => {}
    }
    ExitCode::from(status.code())
}
