//! nanobot's machine, judge and planners from Rust: each step is proved to follow the rules of the ICFP Programming Contest 2018.
//!
//! A [`Machine`] persists between steps. The commands of a step are the bytes of a trace, the last steps can be undone, and a refused
//! call leaves the machine unchanged.
//!
//! ```
//! use nanobot::{Machine, Profile};
//!
//! let mut machine = Machine::empty(20, Profile::Full, 100)?;
//! let step = machine.step(&[0xfe])?; // the only bot waits
//! assert_eq!(step.energy, 3 * 20 * 20 * 20 + 20);
//! machine.undo()?;
//! assert_eq!(machine.state().energy, 0);
//! # Ok::<(), Box<dyn std::error::Error>>(())
//! ```

mod buffer;
mod errors;
mod rows;
mod rule;
mod sys;

pub use errors::{
    refusal_name, CommandsError, KeepError, LevelError, OutOfMemory, StartError, StepError, TargetError, TraceError, UndoError,
};
pub use rows::{asm, check, dis, judge, plan, Cost, Planner, Refused};
pub use rule::{Broken, Rule};

use buffer::given;
use std::ptr::null_mut;

/// The most active bots.
pub const MOST_BOTS: usize = 40;

/// A coordinate of a matrix. The axis y points up.
#[derive(Clone, Copy, PartialEq, Eq, PartialOrd, Ord, Hash, Debug)]
pub struct Coord {
    pub x: u32,
    pub y: u32,
    pub z: u32,
}

/// The profile of a run: the contest's has 39 seeds and all commands, the light one 19 seeds and no Void, GFill and GVoid.
#[derive(Clone, Copy, PartialEq, Eq, Debug)]
pub enum Profile {
    Full,
    Light,
}

/// The state after a step: the energy so far, the steps made, the active bots, whether harmonics are high, and the number of voxels that
/// the step changed.
#[derive(Clone, Copy, PartialEq, Eq, Debug)]
pub struct Step {
    pub energy: i64,
    pub steps: u32,
    pub active: u32,
    pub high: bool,
    pub changed: u32,
}

/// The progress of a played trace: the steps made, of the first `used` bytes, and the machine's state after them. `refused` is the error of
/// the next step, which begins at byte `used`, or None if the requested number was made or the bytes ended.
#[derive(Clone, Copy, PartialEq, Eq, Debug)]
pub struct Played {
    pub made: u32,
    pub used: u64,
    pub energy: i64,
    pub steps: u32,
    pub active: u32,
    pub high: bool,
    pub refused: Option<StepError>,
}

/// The outcome of a judged step: the energy after it, whether no bot would be left, the active bots, whether harmonics would be high, and
/// the number of voxels that would change.
#[derive(Clone, Copy, PartialEq, Eq, Debug)]
pub struct Judged {
    pub energy: i64,
    pub halts: bool,
    pub active: u32,
    pub high: bool,
    pub changed: u32,
}

/// The state of a machine. `noted` of its last steps can be undone.
#[derive(Clone, Copy, PartialEq, Eq, Debug)]
pub struct State {
    pub energy: i64,
    pub steps: u32,
    pub active: u32,
    pub resolution: u32,
    pub high: bool,
    pub noted: u64,
}

/// An active bot. Bit k of `seeds` is 1 if it can make the bot k.
#[derive(Clone, Copy, PartialEq, Eq, Debug)]
pub struct Bot {
    pub bid: u32,
    pub at: Coord,
    pub seeds: u64,
}

/// A machine. One thread at a time may use it; it may be moved to another.
///
/// Calls that only read take `&mut self` too: the library takes the machine out of its handle for a call and puts it back.
pub struct Machine {
    handle: sys::Handle,
}

// SAFETY: the library keeps nothing between calls but what the handle points to, on the heap of the program.
unsafe impl Send for Machine {}

impl Machine {
    /// Starts a machine over the legal model of these bytes. The last `notes` steps can be undone, at most 4,096; a noted step keeps 6 bytes
    /// for each voxel that it changed, 3.7 GB in the worst measured case.
    pub fn start(model: &[u8], profile: Profile, notes: u32) -> Result<Machine, StartError> {
        let mut made = Machine::none();
        let mut refusal = sys::Refusal::default();
        let light = profile == Profile::Light;
        // SAFETY: each pointer is that of a slice or a reference.
        let status = unsafe { sys::nanobot_machine_start(model.as_ptr(), model.len(), light, notes, &mut made.handle, &mut refusal) };
        errors::started(status, &refusal)?;
        Ok(made)
    }

    /// Starts a machine over the empty model of a resolution from 1 to 400.
    pub fn empty(resolution: u32, profile: Profile, notes: u32) -> Result<Machine, StartError> {
        let mut made = Machine::none();
        let light = profile == Profile::Light;
        // SAFETY: the pointer is that of a reference.
        let status = unsafe { sys::nanobot_machine_start_empty(resolution, light, notes, &mut made.handle) };
        errors::started(status, &sys::Refusal::default())?;
        Ok(made)
    }

    fn none() -> Machine {
        Machine {
            handle: sys::Handle { at: null_mut() },
        }
    }

    /// Returns another machine in the same state, with a trace of its own if one is kept. It cannot undo earlier steps. It takes as long as a
    /// start over such a model.
    pub fn try_clone(&mut self) -> Result<Machine, OutOfMemory> {
        let mut made = Machine::none();
        // SAFETY: the pointers are those of two references.
        let status = unsafe { sys::nanobot_machine_copy(&mut self.handle, &mut made.handle) };
        if status == sys::DONE {
            Ok(made)
        } else {
            Err(OutOfMemory)
        }
    }

    /// Makes one step: the bytes spell one command for each active bot, in ascending order of their bids.
    pub fn step(&mut self, commands: &[u8]) -> Result<Step, StepError> {
        let mut told = sys::Step::default();
        // SAFETY: each pointer is that of a slice or a reference.
        let status = unsafe { sys::nanobot_machine_step(&mut self.handle, commands.as_ptr(), commands.len(), &mut told) };
        errors::stepped(status, &told)?;
        Ok(Step {
            energy: told.energy,
            steps: told.steps,
            active: told.active,
            high: told.high == 1,
            changed: told.changed,
        })
    }

    /// Makes the steps of a trace one after another, at most `most`, until one is refused or the bytes end. The machine is then in the state
    /// after the last step made.
    pub fn play(&mut self, trace: &[u8], most: u32) -> Played {
        let mut told = sys::Played::default();
        // SAFETY: each pointer is that of a slice or a reference.
        let status = unsafe { sys::nanobot_machine_play(&mut self.handle, trace.as_ptr(), trace.len(), most, &mut told) };
        let refused = sys::Step {
            offset: told.offset,
            active: told.active,
            broken: told.broken,
            ..sys::Step::default()
        };
        Played {
            made: told.made,
            used: told.used,
            energy: told.energy,
            steps: told.steps,
            active: told.active,
            high: told.high == 1,
            refused: errors::stepped(status, &refused).err(),
        }
    }

    /// Returns the outcome of a step without making it. The machine is unchanged.
    pub fn judge(&mut self, commands: &[u8]) -> Result<Judged, StepError> {
        let mut told = sys::Judged::default();
        // SAFETY: each pointer is that of a slice or a reference.
        let status = unsafe { sys::nanobot_machine_judge(&mut self.handle, commands.as_ptr(), commands.len(), &mut told) };
        let refused = sys::Step {
            offset: told.offset,
            broken: told.broken,
            active: told.active,
            ..sys::Step::default()
        };
        errors::stepped(status, &refused)?;
        Ok(Judged {
            energy: told.energy,
            halts: told.halts == 1,
            active: told.active,
            high: told.high == 1,
            changed: told.changed,
        })
    }

    /// Undoes the last step. Never runs out of memory.
    pub fn undo(&mut self) -> Result<(), UndoError> {
        // SAFETY: the pointer is that of a reference.
        errors::undone(unsafe { sys::nanobot_machine_undo(&mut self.handle) })
    }

    /// Returns the state of the machine.
    pub fn state(&mut self) -> State {
        let mut told = sys::State::default();
        // SAFETY: the pointers are those of two references.
        unsafe { sys::nanobot_machine_tell(&mut self.handle, &mut told) };
        State {
            energy: told.energy,
            steps: told.steps,
            active: told.active,
            resolution: told.resolution,
            high: told.high == 1,
            noted: told.noted,
        }
    }

    /// Returns the active bots, in ascending order of their bids.
    pub fn bots(&mut self) -> Vec<Bot> {
        let mut told = [sys::Bot::default(); MOST_BOTS];
        let mut count = 0;
        // SAFETY: the pointers are those of an array of `told.len()` bots and of two references.
        unsafe { sys::nanobot_machine_bots(&mut self.handle, told.as_mut_ptr(), told.len(), &mut count) };
        told[..count].iter().map(bot_of).collect()
    }

    /// Returns whether the voxel at a coordinate is full, or None out of space.
    pub fn full(&mut self, c: Coord) -> Option<bool> {
        let mut full = 0;
        // SAFETY: the pointers are those of two references.
        let status = unsafe { sys::nanobot_machine_full(&mut self.handle, c.x, c.y, c.z, &mut full) };
        (status == sys::DONE).then_some(full == 1)
    }

    /// Returns the distance of the voxel at a coordinate from the floor along full voxels, or None if it is void or not grounded.
    pub fn level(&mut self, c: Coord) -> Result<Option<u32>, LevelError> {
        let mut level = 0;
        // SAFETY: the pointers are those of two references.
        let status = unsafe { sys::nanobot_machine_level(&mut self.handle, c.x, c.y, c.z, &mut level) };
        Ok(errors::has_level(status)?.then_some(level))
    }

    /// Returns the number of full voxels.
    pub fn count(&mut self) -> u32 {
        let mut count = 0;
        // SAFETY: the pointers are those of two references.
        unsafe { sys::nanobot_machine_count(&mut self.handle, &mut count) };
        count
    }

    /// Returns the least coordinate at which the matrix and the model of these bytes differ, or None if they are the same.
    pub fn difference(&mut self, target: &[u8]) -> Result<Option<Coord>, TargetError> {
        let (mut place, mut refusal) = (sys::Place::default(), sys::Refusal::default());
        // SAFETY: each pointer is that of a slice or a reference.
        let status = unsafe { sys::nanobot_machine_compare(&mut self.handle, target.as_ptr(), target.len(), &mut place, &mut refusal) };
        let at = Coord {
            x: place.x,
            y: place.y,
            z: place.z,
        };
        Ok(errors::differs(status, &refusal)?.then_some(at))
    }

    /// Returns the number of coordinates at which the matrix and the model of these bytes differ.
    pub fn differences(&mut self, target: &[u8]) -> Result<u32, TargetError> {
        let (mut count, mut refusal) = (0, sys::Refusal::default());
        // SAFETY: each pointer is that of a slice or a reference.
        let status = unsafe { sys::nanobot_machine_differences(&mut self.handle, target.as_ptr(), target.len(), &mut count, &mut refusal) };
        errors::differs(status, &refusal)?;
        Ok(count)
    }

    /// Makes the model of these bytes the target, and returns the number of coordinates at which the matrix differs from it. Each step and
    /// each undo updates that number, which `remaining` returns.
    pub fn aim(&mut self, target: &[u8]) -> Result<u32, TargetError> {
        let (mut count, mut refusal) = (0, sys::Refusal::default());
        // SAFETY: each pointer is that of a slice or a reference.
        let status = unsafe { sys::nanobot_machine_aim(&mut self.handle, target.as_ptr(), target.len(), &mut count, &mut refusal) };
        errors::differs(status, &refusal)?;
        Ok(count)
    }

    /// Returns the number of coordinates at which the matrix differs from the target, without counting again, or None without a target.
    pub fn remaining(&mut self) -> Option<u32> {
        let mut count = 0;
        // SAFETY: the pointers are those of two references.
        let status = unsafe { sys::nanobot_machine_remaining(&mut self.handle, &mut count) };
        (status == sys::DONE).then_some(count)
    }

    /// Keeps the trace from now on, unless steps were made before.
    pub fn keep_trace(&mut self) -> Result<(), KeepError> {
        // SAFETY: the pointer is that of a reference.
        match unsafe { sys::nanobot_machine_keep(&mut self.handle) } {
            sys::DONE => Ok(()),
            _ => Err(KeepError::Begun),
        }
    }

    /// Returns the commands of the steps made and not undone, as the bytes of a trace.
    pub fn trace(&mut self) -> Result<Vec<u8>, TraceError> {
        // SAFETY: the pointers are those of a slice and of two references.
        let call = |bytes: &mut [u8], size: &mut usize| unsafe {
            sys::nanobot_machine_trace(&mut self.handle, bytes.as_mut_ptr(), bytes.len(), size)
        };
        match given(1 << 12, call) {
            (sys::DONE, bytes) => Ok(bytes),
            (sys::NO_TRACE, _) => Err(TraceError::NotKept),
            _ => Err(TraceError::Memory),
        }
    }

    /// Returns the matrix as the bytes of a model.
    pub fn model(&mut self) -> Result<Vec<u8>, OutOfMemory> {
        let r = self.state().resolution as usize;
        // SAFETY: the pointers are those of a slice and of two references.
        let call = |bytes: &mut [u8], size: &mut usize| unsafe {
            sys::nanobot_machine_model(&mut self.handle, bytes.as_mut_ptr(), bytes.len(), size)
        };
        match given(1 + (r * r * r).div_ceil(8), call) {
            (sys::DONE, bytes) => Ok(bytes),
            _ => Err(OutOfMemory),
        }
    }
}

/// Returns the number of commands of a trace.
pub fn count_commands(trace: &[u8]) -> Result<u64, CommandsError> {
    let (mut count, mut offset) = (0, 0);
    // SAFETY: each pointer is that of a slice or a reference.
    match unsafe { sys::nanobot_commands(trace.as_ptr(), trace.len(), &mut count, &mut offset) } {
        sys::DONE => Ok(count),
        sys::TRACE => Err(CommandsError::BadCommands { offset }),
        _ => Err(CommandsError::Memory),
    }
}

/// Returns the version of the library: ten thousand for each first number of it, a hundred for each second, one for each third.
pub fn version() -> u32 {
    // SAFETY: the call takes nothing.
    unsafe { sys::nanobot_version() }
}

/// Converts a bot of the library.
fn bot_of(told: &sys::Bot) -> Bot {
    Bot {
        bid: told.bid,
        at: Coord {
            x: told.x,
            y: told.y,
            z: told.z,
        },
        seeds: told.seeds,
    }
}

impl Drop for Machine {
    fn drop(&mut self) {
        // SAFETY: the handle is as the last call left it, and no other has its machine.
        unsafe { sys::nanobot_machine_end(&mut self.handle) }
    }
}
