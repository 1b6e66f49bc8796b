//! The judge, checks of models, and plans.

use crate::buffer::{self, MOST_TRACE};
use crate::{sys, Broken, Profile};
use std::error::Error;
use std::fmt;

/// No line of the program is longer.
const LINE: usize = 256;

/// The cost of an accepted run.
#[derive(Clone, Copy, PartialEq, Eq, Debug)]
pub struct Cost {
    pub energy: i64,
    pub steps: u32,
}

/// The status and the printed line of the program; the line is empty if memory ran out (7).
#[derive(Clone, PartialEq, Eq, Debug)]
pub struct Refused {
    pub status: u32,
    pub line: String,
}

impl Refused {
    /// The broken rule, if there is one (status 1).
    pub fn broken(&self) -> Option<Broken> {
        Broken::of_line(&self.line)
    }
}

impl fmt::Display for Refused {
    fn fmt(&self, f: &mut fmt::Formatter<'_>) -> fmt::Result {
        write!(f, "status {}: {}", self.status, self.line)
    }
}

impl Error for Refused {}

/// A planner. Void takes only the source, Low and Swarm only the target.
#[derive(Clone, Copy, PartialEq, Eq, Debug)]
pub enum Planner {
    Layer,
    Group,
    Crew,
    Void,
    Low,
    Swarm,
}

/// Returns the output of a call, or its refusal.
fn given(room: usize, call: impl FnMut(&mut [u8], &mut usize) -> u32) -> Result<Vec<u8>, Refused> {
    match buffer::given(room, call) {
        (sys::DONE, bytes) => Ok(bytes),
        (status, bytes) => {
            let line = String::from_utf8_lossy(&bytes).trim_end().to_owned();
            Err(Refused { status, line })
        }
    }
}

fn of_one(call: sys::OfOne, model: &[u8], room: usize) -> Result<Vec<u8>, Refused> {
    // SAFETY: each pointer and length is of one slice, and the buffer and the size are borrowed for the call alone.
    given(room, |buffer, size| unsafe { call(model.as_ptr(), model.len(), buffer.as_mut_ptr(), buffer.len(), size) })
}

/// Returns the trace that a text spells.
pub fn asm(text: &str) -> Result<Vec<u8>, Refused> {
    of_one(sys::nanobot_asm, text.as_bytes(), text.len() + LINE)
}

/// Returns the text of a trace: a line for each command.
pub fn dis(trace: &[u8]) -> Result<String, Refused> {
    Ok(String::from_utf8_lossy(&of_one(sys::nanobot_dis, trace, 18 * trace.len() + LINE)?).into_owned())
}

fn of_two(call: sys::OfTwo, source: &[u8], target: &[u8]) -> Result<Vec<u8>, Refused> {
    // SAFETY: as above.
    given(MOST_TRACE, |buffer, size| unsafe {
        call(source.as_ptr(), source.len(), target.as_ptr(), target.len(), buffer.as_mut_ptr(), buffer.len(), size)
    })
}

fn line_of(source: &[u8], target: &[u8], trace: &[u8], light: bool) -> Result<Vec<u8>, Refused> {
    // SAFETY: as above.
    given(LINE, |buffer, size| unsafe {
        sys::nanobot_judge(
            source.as_ptr(),
            source.len(),
            target.as_ptr(),
            target.len(),
            trace.as_ptr(),
            trace.len(),
            light,
            buffer.as_mut_ptr(),
            buffer.len(),
            size,
        )
    })
}

/// Returns the cost of the trace from the source to the target, if it is accepted. None is the empty model of the other's resolution.
pub fn judge(source: Option<&[u8]>, target: Option<&[u8]>, trace: &[u8], profile: Profile) -> Result<Cost, Refused> {
    let (source, target, light) = (source.unwrap_or(&[]), target.unwrap_or(&[]), profile == Profile::Light);
    let mut cost = Cost { energy: 0, steps: 0 };
    // SAFETY: as above, and both numbers are borrowed for the call alone.
    let status = unsafe {
        sys::nanobot_cost(
            source.as_ptr(),
            source.len(),
            target.as_ptr(),
            target.len(),
            trace.as_ptr(),
            trace.len(),
            light,
            &mut cost.energy,
            &mut cost.steps,
        )
    };
    if status == sys::DONE {
        return Ok(cost);
    }
    line_of(source, target, trace, light).map(|_| cost)
}

/// Returns the program's line for a legal model: `legal resolution R full N`.
pub fn check(model: &[u8]) -> Result<String, Refused> {
    let line = of_one(sys::nanobot_check, model, LINE)?;
    Ok(String::from_utf8_lossy(&line).trim_end().to_owned())
}

/// Returns a trace from the source to the target. None is the empty model of the other's resolution. The plan is made once: its buffer has
/// room for every plan, and occupies memory only as far as it is written.
pub fn plan(planner: Planner, source: Option<&[u8]>, target: Option<&[u8]>) -> Result<Vec<u8>, Refused> {
    let (source, target) = (source.unwrap_or(&[]), target.unwrap_or(&[]));
    match planner {
        Planner::Layer => of_two(sys::nanobot_plan_layer, source, target),
        Planner::Group => of_two(sys::nanobot_plan_group, source, target),
        Planner::Crew => of_two(sys::nanobot_plan_crew, source, target),
        Planner::Void => of_one(sys::nanobot_plan_void, source, MOST_TRACE),
        Planner::Low => of_one(sys::nanobot_plan_low, target, MOST_TRACE),
        Planner::Swarm => of_one(sys::nanobot_plan_swarm, target, MOST_TRACE),
    }
}
