//! nanobot from Rust, each call of the library once: `linked run S T B`, `linked run light S T B` and `linked check M` print
//! what the program prints, `linked cost S T B` the line of an accepted run from its numbers, and `linked plan KIND S T B`
//! stores what the program stores and prints its line without the number of commands. Each ends with the program's status.

mod nanobot;

use nanobot::Planner;
use std::io::Write;
use std::process::ExitCode;

/// The bytes of a file, or none for `-`.
fn bytes_of(name: &str) -> std::io::Result<Vec<u8>> {
    if name == "-" {
        return Ok(Vec::new());
    }
    std::fs::read(name)
}

/// The status and the line of a run of these files.
fn judge(source: &str, target: &str, trace: &str, light: bool) -> std::io::Result<nanobot::Told> {
    Ok(nanobot::judge(&bytes_of(source)?, &bytes_of(target)?, &bytes_of(trace)?, light))
}

/// The line of an accepted run, from its numbers.
fn cost(source: &str, target: &str, trace: &str, light: bool) -> std::io::Result<nanobot::Told> {
    let (status, energy, steps) = nanobot::cost(&bytes_of(source)?, &bytes_of(target)?, &bytes_of(trace)?, light);
    let line = if status == nanobot::DONE { format!("ok energy {energy} steps {steps}\n") } else { String::new() };
    Ok((status, line.into_bytes()))
}

/// Stores a plan, and returns what it costs.
fn plan(planner: Planner, source: &str, target: &str, trace: &str) -> std::io::Result<nanobot::Told> {
    let (source, target) = (bytes_of(source)?, bytes_of(target)?);
    let (status, made) = nanobot::plan(planner, &source, &target);
    if status != nanobot::DONE {
        return Ok((status, made));
    }
    std::fs::write(trace, &made)?;
    let (_, energy, steps) = nanobot::cost(&source, &target, &made, false);
    Ok((status, format!("plan energy {energy} steps {steps} bytes {}\n", made.len()).into_bytes()))
}

fn main() -> std::io::Result<ExitCode> {
    let words: Vec<String> = std::env::args().skip(1).collect();
    let words: Vec<&str> = words.iter().map(String::as_str).collect();
    let (status, line) = match words[..] {
        ["run", "light", source, target, trace] => judge(source, target, trace, true)?,
        ["run", source, target, trace] => judge(source, target, trace, false)?,
        ["cost", "light", source, target, trace] => cost(source, target, trace, true)?,
        ["cost", source, target, trace] => cost(source, target, trace, false)?,
        ["check", model] => nanobot::check(&bytes_of(model)?),
        ["plan", "layer", source, target, trace] => plan(Planner::Layer, source, target, trace)?,
        ["plan", "group", source, target, trace] => plan(Planner::Group, source, target, trace)?,
        ["plan", "crew", source, target, trace] => plan(Planner::Crew, source, target, trace)?,
        ["plan", "void", source, target, trace] => plan(Planner::Void, source, target, trace)?,
        ["plan", "low", source, target, trace] => plan(Planner::Low, source, target, trace)?,
        ["plan", "swarm", source, target, trace] => plan(Planner::Swarm, source, target, trace)?,
        _ => {
            eprintln!("linked run [light] S T B, linked cost [light] S T B, linked check M or linked plan KIND S T B");
            return Ok(ExitCode::from(2));
        }
    };
    std::io::stdout().write_all(&line)?;
    Ok(ExitCode::from(status as u8))
}
