//! The errors of calls. After an error the machine is unchanged.

use crate::{sys, Broken, Coord, Rule};
use std::error::Error;
use std::fmt;

/// The names of the refusals of a model, by their numbers.
const REFUSALS: [&str; 13] =
    ["", "NoByte", "Resolution", "Short", "Long", "", "Border", "Floating", "WideHead", "WideResolution", "WideRun", "WideShort", "WideLong"];

/// Returns the name of the refusal of a model (docs/FORMATS.md, "Refusals"), or "" for any other number.
pub fn refusal_name(number: u32) -> &'static str {
    REFUSALS.get(number as usize).copied().unwrap_or("")
}

/// Out of memory.
#[derive(Clone, Copy, PartialEq, Eq, Debug)]
pub struct OutOfMemory;

/// The reason for not keeping a trace.
#[derive(Clone, Copy, PartialEq, Eq, Debug)]
pub enum KeepError {
    /// The machine has made steps, so its trace cannot begin here.
    Begun,
}

/// The reason for not starting a machine.
#[derive(Clone, Copy, PartialEq, Eq, Debug)]
pub enum StartError {
    /// The model is refused, by the number of the refusal, with its numbers: the required number of bytes, the actual
    /// resolution, number of bytes or voxels, or index of a run, and the voxel.
    Model { number: u32, want: u32, have: u32, at: Coord },
    /// More than 4,096 notes were requested, or a resolution that is not 1 to 400.
    Argument,
    Memory,
}

/// The reason for refusing a step.
#[derive(Clone, Copy, PartialEq, Eq, Debug)]
pub enum StepError {
    /// The commands break a rule.
    Broken(Broken),
    /// The command that begins at this byte is bad or cut.
    BadCommands { offset: u64 },
    /// There are more or fewer commands than active bots.
    WrongCount { active: u32 },
    /// No bot is active.
    Ended,
    /// The machine has made its maximum number of steps.
    TooManySteps,
    Memory,
}

/// The reason for not undoing a step.
#[derive(Clone, Copy, PartialEq, Eq, Debug)]
pub enum UndoError {
    /// No earlier step is noted.
    NothingNoted,
}

/// The reason for not counting the commands of a trace.
#[derive(Clone, Copy, PartialEq, Eq, Debug)]
pub enum CommandsError {
    /// The command that begins at this byte is bad or cut.
    BadCommands { offset: u64 },
    Memory,
}

/// The reason for returning no trace.
#[derive(Clone, Copy, PartialEq, Eq, Debug)]
pub enum TraceError {
    /// None is kept.
    NotKept,
    Memory,
}

/// The reason for returning no level.
#[derive(Clone, Copy, PartialEq, Eq, Debug)]
pub enum LevelError {
    OutOfSpace,
    Memory,
}

/// The reason for not comparing a target.
#[derive(Clone, Copy, PartialEq, Eq, Debug)]
pub enum TargetError {
    /// The bytes are no model, by the number of the refusal.
    Model { number: u32 },
    /// The target is of another resolution.
    Resolution,
    Memory,
}

pub(crate) fn differs(status: u32, told: &sys::Refusal) -> Result<bool, TargetError> {
    match status {
        sys::DONE => Ok(false),
        sys::DIFFERS => Ok(true),
        sys::MODEL => Err(TargetError::Model { number: told.number }),
        sys::RESOLUTION => Err(TargetError::Resolution),
        _ => Err(TargetError::Memory),
    }
}

pub(crate) fn started(status: u32, told: &sys::Refusal) -> Result<(), StartError> {
    match status {
        sys::DONE => Ok(()),
        sys::MODEL => Err(StartError::Model {
            number: told.number,
            want: told.want,
            have: told.have,
            at: Coord {
                x: told.x,
                y: told.y,
                z: told.z,
            },
        }),
        sys::WORDS => Err(StartError::Argument),
        _ => Err(StartError::Memory),
    }
}

fn broken_of(told: &sys::Broken) -> Broken {
    let (x, y, z) = (told.x, told.y, told.z);
    Broken {
        rule: Rule::from_number(told.rule).expect("the library tells a rule from 1 to 15"),
        step: told.step,
        bid: told.bid,
        at: Coord { x, y, z },
    }
}

pub(crate) fn stepped(status: u32, told: &sys::Step) -> Result<(), StepError> {
    match status {
        sys::DONE => Ok(()),
        sys::BROKEN => Err(StepError::Broken(broken_of(&told.broken))),
        sys::TRACE => Err(StepError::BadCommands { offset: told.offset }),
        sys::COUNT => Err(StepError::WrongCount { active: told.active }),
        sys::ENDED => Err(StepError::Ended),
        sys::LONG => Err(StepError::TooManySteps),
        _ => Err(StepError::Memory),
    }
}

pub(crate) fn undone(status: u32) -> Result<(), UndoError> {
    match status {
        sys::DONE => Ok(()),
        _ => Err(UndoError::NothingNoted),
    }
}

pub(crate) fn has_level(status: u32) -> Result<bool, LevelError> {
    match status {
        sys::DONE => Ok(true),
        sys::NO_LEVEL => Ok(false),
        sys::OUTSIDE => Err(LevelError::OutOfSpace),
        _ => Err(LevelError::Memory),
    }
}

impl fmt::Display for StartError {
    fn fmt(&self, f: &mut fmt::Formatter<'_>) -> fmt::Result {
        match self {
            StartError::Model { number, .. } => write!(f, "the model is refused: {number} {}", refusal_name(*number)),
            StartError::Argument => write!(f, "notes are at most 4096, and resolutions 1 to 400"),
            StartError::Memory => write!(f, "out of memory"),
        }
    }
}

impl fmt::Display for StepError {
    fn fmt(&self, f: &mut fmt::Formatter<'_>) -> fmt::Result {
        match self {
            StepError::Broken(broken) => broken.fmt(f),
            StepError::BadCommands { offset } => write!(f, "no command at byte {offset}"),
            StepError::WrongCount { active } => write!(f, "not one command for each of {active} bots"),
            StepError::Ended => write!(f, "no bot is active"),
            StepError::TooManySteps => write!(f, "the machine makes no more steps"),
            StepError::Memory => write!(f, "out of memory"),
        }
    }
}

impl fmt::Display for UndoError {
    fn fmt(&self, f: &mut fmt::Formatter<'_>) -> fmt::Result {
        match self {
            UndoError::NothingNoted => f.write_str("no step can be taken back"),
        }
    }
}

impl fmt::Display for CommandsError {
    fn fmt(&self, f: &mut fmt::Formatter<'_>) -> fmt::Result {
        match self {
            CommandsError::BadCommands { offset } => write!(f, "no command at byte {offset}"),
            CommandsError::Memory => f.write_str("out of memory"),
        }
    }
}

impl fmt::Display for TraceError {
    fn fmt(&self, f: &mut fmt::Formatter<'_>) -> fmt::Result {
        f.write_str(match self {
            TraceError::NotKept => "no trace is kept",
            TraceError::Memory => "out of memory",
        })
    }
}

impl fmt::Display for LevelError {
    fn fmt(&self, f: &mut fmt::Formatter<'_>) -> fmt::Result {
        f.write_str(match self {
            LevelError::OutOfSpace => "the coordinate is out of space",
            LevelError::Memory => "out of memory",
        })
    }
}

impl fmt::Display for TargetError {
    fn fmt(&self, f: &mut fmt::Formatter<'_>) -> fmt::Result {
        match self {
            TargetError::Model { number } => write!(f, "the target is no model: {number} {}", refusal_name(*number)),
            TargetError::Resolution => write!(f, "the target is of another resolution"),
            TargetError::Memory => write!(f, "out of memory"),
        }
    }
}

impl fmt::Display for OutOfMemory {
    fn fmt(&self, f: &mut fmt::Formatter<'_>) -> fmt::Result {
        f.write_str("out of memory")
    }
}

impl fmt::Display for KeepError {
    fn fmt(&self, f: &mut fmt::Formatter<'_>) -> fmt::Result {
        f.write_str("steps were made before, so the trace cannot begin here")
    }
}

impl Error for OutOfMemory {}
impl Error for KeepError {}
impl Error for StartError {}
impl Error for StepError {}
impl Error for UndoError {}
impl Error for TraceError {}
impl Error for CommandsError {}
impl Error for LevelError {}
impl Error for TargetError {}
