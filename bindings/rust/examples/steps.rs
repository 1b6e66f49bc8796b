//! A machine that persists between steps: `steps run [light] S T B` prints the line of `nanobot run` for a run that is accepted or breaks a
//! rule. Each step is made, undone, and made again, and half way the machine continues as a copy; another machine plays the trace by one
//! call.

use nanobot::{Broken, Coord, Machine, Profile, Rule, StepError};
use std::error::Error;
use std::fs;
use std::process::ExitCode;

type Told<T> = Result<T, Box<dyn Error>>;

/// Returns the size in bytes of a command with this first byte.
fn length_of(head: u8) -> usize {
    if head >= 0xfd {
        return 1;
    }
    [4, 4, 1, 1, 2, 2, 1, 1][usize::from(head & 7)]
}

/// Returns the bytes of a file, or none for `-`.
fn bytes_of(name: &str) -> Told<Option<Vec<u8>>> {
    Ok(if name == "-" { None } else { Some(fs::read(name)?) })
}

fn resolution_of(model: &[u8]) -> u32 {
    match model {
        [0xff, high, low, ..] => u32::from(*high) * 256 + u32::from(*low),
        _ => u32::from(model[0]),
    }
}

/// Makes a step, undoes it, and makes it again.
fn step_twice(machine: &mut Machine, commands: &[u8]) -> Result<(), StepError> {
    let before = (machine.state(), machine.bots(), machine.count());
    machine.step(commands)?;
    machine.undo().expect("a step was noted");
    let after = (machine.state(), machine.bots(), machine.count());
    assert_eq!((before.0.energy, before.0.steps, before.1, before.2), (after.0.energy, after.0.steps, after.1, after.2));
    machine.step(commands).map(|_| ())
}

/// Returns the rule that is broken at the end, with `left` bytes of commands left, if one is.
fn finish(machine: &mut Machine, target: Option<&[u8]>, left: usize) -> Told<Option<Broken>> {
    let state = machine.state();
    let broken = |rule, at| Some(Broken { rule, step: state.steps, bid: 0, at });
    if left > 0 {
        return Ok(broken(Rule::AfterHalt, Coord { x: 0, y: 0, z: 0 }));
    }
    let empty = Machine::empty(state.resolution, Profile::Full, 0)?.model()?;
    Ok(machine.difference(target.unwrap_or(&empty))?.and_then(|at| broken(Rule::WrongResult, at)))
}

/// Makes all steps of the trace: the machine at their end, and the rule that is broken, if one is.
fn run(mut machine: Machine, target: Option<&[u8]>, trace: &[u8]) -> Told<(Machine, Option<Broken>)> {
    let mut at = 0;
    loop {
        let bots = machine.bots();
        if bots.is_empty() {
            let broken = finish(&mut machine, target, trace.len() - at)?;
            return Ok((machine, broken));
        }
        let mut end = at;
        for bot in &bots {
            if end >= trace.len() {
                let step = machine.state().steps + 1;
                let broken = Broken { rule: Rule::TraceEnds, step, bid: bot.bid, at: bot.at };
                return Ok((machine, Some(broken)));
            }
            end += length_of(trace[end]);
        }
        match step_twice(&mut machine, &trace[at..end.min(trace.len())]) {
            Ok(()) => {}
            Err(StepError::Broken(broken)) => return Ok((machine, Some(broken))),
            Err(fault) => return Err(fault.into()),
        }
        if at < trace.len() / 2 && end >= trace.len() / 2 {
            machine = machine.try_clone()?;
        }
        at = end;
    }
}

fn main() -> Told<ExitCode> {
    let words: Vec<String> = std::env::args().skip(2).collect();
    let (profile, rest) = match words.as_slice() {
        [light, rest @ ..] if light == "light" && rest.len() == 3 => (Profile::Light, rest),
        rest => (Profile::Full, rest),
    };
    let (source, target, trace) = (bytes_of(&rest[0])?, bytes_of(&rest[1])?, fs::read(&rest[2])?);
    let mut machine = match (&source, &target) {
        (Some(source), _) => Machine::start(source, profile, 4)?,
        (None, Some(target)) => Machine::empty(resolution_of(target), profile, 4)?,
        (None, None) => return Ok(ExitCode::from(2)),
    };
    let played = machine.try_clone()?.play(&trace, u32::MAX);
    let (mut machine, broken) = run(machine, target.as_deref(), &trace)?;
    assert_eq!((played.energy, played.steps), (machine.state().energy, machine.state().steps));
    if let Some(broken) = broken {
        println!("{broken}");
        return Ok(ExitCode::from(1));
    }
    let state = machine.state();
    println!("ok energy {} steps {}", state.energy, state.steps);
    Ok(ExitCode::SUCCESS)
}
