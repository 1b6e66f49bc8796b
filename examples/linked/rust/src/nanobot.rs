//! Safe functions over the exports of the static library. The declarations are those of `include/nanobot.h`; slices and
//! references of Rust follow its rules for pointers and lengths.

mod sys {
    extern "C" {
        pub fn nanobot_judge(
            source: *const u8,
            source_size: usize,
            target: *const u8,
            target_size: usize,
            trace: *const u8,
            trace_size: usize,
            light: bool,
            line: *mut u8,
            room: usize,
            size: *mut usize,
        ) -> u32;

        pub fn nanobot_cost(
            source: *const u8,
            source_size: usize,
            target: *const u8,
            target_size: usize,
            trace: *const u8,
            trace_size: usize,
            light: bool,
            energy: *mut i64,
            steps: *mut u32,
        ) -> u32;
    }

    /// `nanobot_check`, and the planners that take one model.
    pub type OfOne = unsafe extern "C" fn(*const u8, usize, *mut u8, usize, *mut usize) -> u32;

    /// The planners that take a source and a target.
    pub type OfTwo = unsafe extern "C" fn(*const u8, usize, *const u8, usize, *mut u8, usize, *mut usize) -> u32;

    extern "C" {
        pub fn nanobot_check(model: *const u8, model_size: usize, line: *mut u8, room: usize, size: *mut usize) -> u32;
        pub fn nanobot_plan_void(source: *const u8, source_size: usize, plan: *mut u8, room: usize, size: *mut usize) -> u32;
        pub fn nanobot_plan_low(target: *const u8, target_size: usize, plan: *mut u8, room: usize, size: *mut usize) -> u32;
        pub fn nanobot_plan_swarm(target: *const u8, target_size: usize, plan: *mut u8, room: usize, size: *mut usize) -> u32;

        pub fn nanobot_plan_layer(
            source: *const u8,
            source_size: usize,
            target: *const u8,
            target_size: usize,
            plan: *mut u8,
            room: usize,
            size: *mut usize,
        ) -> u32;

        pub fn nanobot_plan_crew(
            source: *const u8,
            source_size: usize,
            target: *const u8,
            target_size: usize,
            plan: *mut u8,
            room: usize,
            size: *mut usize,
        ) -> u32;

        pub fn nanobot_plan_group(
            source: *const u8,
            source_size: usize,
            target: *const u8,
            target_size: usize,
            plan: *mut u8,
            room: usize,
            size: *mut usize,
        ) -> u32;
    }
}

/// The status if all is well.
pub const DONE: u32 = 0;

/// The status of a buffer that is too small.
const TOO_SMALL: u32 = 10;

/// A status, and the printed line or the bytes of a plan.
pub type Told = (u32, Vec<u8>);

/// A planner.
#[derive(Clone, Copy)]
pub enum Planner {
    Layer,
    Group,
    Crew,
    Void,
    Low,
    Swarm,
}

/// Returns the output of a call, whose buffer is made larger if it is too small.
fn given(call: impl Fn(&mut [u8], &mut usize) -> u32) -> Told {
    let mut buffer = vec![0; 200];
    loop {
        let mut size = 0;
        let status = call(&mut buffer, &mut size);
        buffer.resize(size, 0);
        if status != TOO_SMALL {
            return (status, buffer);
        }
    }
}

fn of_one(call: sys::OfOne, model: &[u8]) -> Told {
    // SAFETY: each pointer and length is of one slice, the buffer and the size are borrowed for the call alone.
    given(|buffer, size| unsafe { call(model.as_ptr(), model.len(), buffer.as_mut_ptr(), buffer.len(), size) })
}

fn of_two(call: sys::OfTwo, source: &[u8], target: &[u8]) -> Told {
    // SAFETY: as above.
    given(|buffer, size| unsafe {
        call(source.as_ptr(), source.len(), target.as_ptr(), target.len(), buffer.as_mut_ptr(), buffer.len(), size)
    })
}

/// Judges the trace from the source to the target; a model of no bytes is the empty one of the other's resolution.
pub fn judge(source: &[u8], target: &[u8], trace: &[u8], light: bool) -> Told {
    // SAFETY: as above.
    given(|buffer, size| unsafe {
        sys::nanobot_judge(
            source.as_ptr(),
            source.len(),
            target.as_ptr(),
            target.len(),
            trace.as_ptr(),
            trace.len(),
            light,
            buffer.as_mut_ptr(),
            buffer.len(),
            size,
        )
    })
}

/// Judges as `judge` does, and returns the status, the energy and the steps, both 0 if the run is not accepted.
pub fn cost(source: &[u8], target: &[u8], trace: &[u8], light: bool) -> (u32, i64, u32) {
    let (mut energy, mut steps) = (0, 0);
    // SAFETY: as above, and both numbers are borrowed for the call alone.
    let status = unsafe {
        sys::nanobot_cost(
            source.as_ptr(),
            source.len(),
            target.as_ptr(),
            target.len(),
            trace.as_ptr(),
            trace.len(),
            light,
            &mut energy,
            &mut steps,
        )
    };
    (status, energy, steps)
}

/// Judges the model.
pub fn check(model: &[u8]) -> Told {
    of_one(sys::nanobot_check, model)
}

/// Plans from the source to the target; a planner that takes one model does not look at the other.
pub fn plan(planner: Planner, source: &[u8], target: &[u8]) -> Told {
    match planner {
        Planner::Layer => of_two(sys::nanobot_plan_layer, source, target),
        Planner::Group => of_two(sys::nanobot_plan_group, source, target),
        Planner::Crew => of_two(sys::nanobot_plan_crew, source, target),
        Planner::Void => of_one(sys::nanobot_plan_void, source),
        Planner::Low => of_one(sys::nanobot_plan_low, target),
        Planner::Swarm => of_one(sys::nanobot_plan_swarm, target),
    }
}
