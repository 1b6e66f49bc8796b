//! The calls of `include/nanobot.h` and `include/nanobot_machine.h`.

use std::ffi::c_void;

pub const DONE: u32 = 0;
pub const BROKEN: u32 = 1;
pub const WORDS: u32 = 2;
pub const MODEL: u32 = 3;
pub const TRACE: u32 = 4;
pub const MEMORY: u32 = 7;
pub const TOO_SMALL: u32 = 10;
pub const ENDED: u32 = 12;
pub const COUNT: u32 = 13;
pub const LONG: u32 = 14;
pub const OUTSIDE: u32 = 16;
pub const NO_LEVEL: u32 = 17;
pub const DIFFERS: u32 = 18;
pub const RESOLUTION: u32 = 19;
pub const NO_TRACE: u32 = 21;

#[repr(C)]
pub struct Handle {
    pub at: *mut c_void,
}

#[repr(C)]
#[derive(Clone, Copy, Default)]
pub struct Refusal {
    pub number: u32,
    pub want: u32,
    pub have: u32,
    pub x: u32,
    pub y: u32,
    pub z: u32,
}

#[repr(C)]
#[derive(Clone, Copy, Default)]
pub struct Place {
    pub x: u32,
    pub y: u32,
    pub z: u32,
}

#[repr(C)]
#[derive(Clone, Copy, Default)]
pub struct Broken {
    pub rule: u32,
    pub step: u32,
    pub bid: u32,
    pub x: u32,
    pub y: u32,
    pub z: u32,
}

#[repr(C)]
#[derive(Clone, Copy, Default)]
pub struct Step {
    pub energy: i64,
    pub offset: u64,
    pub steps: u32,
    pub active: u32,
    pub broken: Broken,
    pub high: u32,
    pub changed: u32,
}

#[repr(C)]
#[derive(Clone, Copy, Default)]
pub struct Played {
    pub energy: i64,
    pub used: u64,
    pub offset: u64,
    pub made: u32,
    pub steps: u32,
    pub active: u32,
    pub high: u32,
    pub broken: Broken,
}

#[repr(C)]
#[derive(Clone, Copy, Default)]
pub struct Judged {
    pub energy: i64,
    pub offset: u64,
    pub halts: u32,
    pub broken: Broken,
    pub active: u32,
    pub high: u32,
    pub changed: u32,
}

#[repr(C)]
#[derive(Clone, Copy, Default)]
pub struct State {
    pub energy: i64,
    pub steps: u32,
    pub active: u32,
    pub resolution: u32,
    pub high: u32,
    pub noted: u64,
}

#[repr(C)]
#[derive(Clone, Copy, Default)]
pub struct Bot {
    pub seeds: u64,
    pub bid: u32,
    pub x: u32,
    pub y: u32,
    pub z: u32,
}

extern "C" {
    pub fn nanobot_machine_start(
        model: *const u8,
        model_size: usize,
        light: bool,
        notes: u32,
        machine: *mut Handle,
        refusal: *mut Refusal,
    ) -> u32;
    pub fn nanobot_machine_start_empty(resolution: u32, light: bool, notes: u32, machine: *mut Handle) -> u32;
    pub fn nanobot_machine_step(machine: *mut Handle, commands: *const u8, commands_size: usize, step: *mut Step) -> u32;
    pub fn nanobot_machine_play(machine: *mut Handle, trace: *const u8, trace_size: usize, most: u32, played: *mut Played) -> u32;
    pub fn nanobot_machine_judge(machine: *mut Handle, commands: *const u8, commands_size: usize, judged: *mut Judged) -> u32;
    pub fn nanobot_machine_undo(machine: *mut Handle) -> u32;
    pub fn nanobot_machine_copy(machine: *mut Handle, copy: *mut Handle) -> u32;
    pub fn nanobot_machine_tell(machine: *mut Handle, state: *mut State) -> u32;
    pub fn nanobot_machine_bots(machine: *mut Handle, bots: *mut Bot, room: usize, count: *mut usize) -> u32;
    pub fn nanobot_machine_full(machine: *mut Handle, x: u32, y: u32, z: u32, full: *mut u32) -> u32;
    pub fn nanobot_machine_level(machine: *mut Handle, x: u32, y: u32, z: u32, level: *mut u32) -> u32;
    pub fn nanobot_machine_count(machine: *mut Handle, count: *mut u32) -> u32;
    pub fn nanobot_machine_model(machine: *mut Handle, model: *mut u8, room: usize, size: *mut usize) -> u32;
    pub fn nanobot_machine_compare(
        machine: *mut Handle,
        target: *const u8,
        target_size: usize,
        place: *mut Place,
        refusal: *mut Refusal,
    ) -> u32;
    pub fn nanobot_machine_aim(
        machine: *mut Handle,
        target: *const u8,
        target_size: usize,
        count: *mut u32,
        refusal: *mut Refusal,
    ) -> u32;
    pub fn nanobot_machine_remaining(machine: *mut Handle, count: *mut u32) -> u32;
    pub fn nanobot_machine_differences(
        machine: *mut Handle,
        target: *const u8,
        target_size: usize,
        count: *mut u32,
        refusal: *mut Refusal,
    ) -> u32;
    pub fn nanobot_machine_keep(machine: *mut Handle) -> u32;
    pub fn nanobot_machine_trace(machine: *mut Handle, trace: *mut u8, room: usize, size: *mut usize) -> u32;
    pub fn nanobot_commands(trace: *const u8, trace_size: usize, count: *mut u64, offset: *mut u64) -> u32;
    pub fn nanobot_version() -> u32;
    pub fn nanobot_machine_end(machine: *mut Handle);
}

/// `nanobot_check`, `nanobot_asm` and `nanobot_dis`, and the planners that take one model.
pub type OfOne = unsafe extern "C" fn(*const u8, usize, *mut u8, usize, *mut usize) -> u32;

/// The planners that take a source and a target.
pub type OfTwo = unsafe extern "C" fn(*const u8, usize, *const u8, usize, *mut u8, usize, *mut usize) -> u32;

extern "C" {
    pub fn nanobot_judge(
        source: *const u8,
        source_size: usize,
        target: *const u8,
        target_size: usize,
        trace: *const u8,
        trace_size: usize,
        light: bool,
        line: *mut u8,
        room: usize,
        size: *mut usize,
    ) -> u32;
    pub fn nanobot_cost(
        source: *const u8,
        source_size: usize,
        target: *const u8,
        target_size: usize,
        trace: *const u8,
        trace_size: usize,
        light: bool,
        energy: *mut i64,
        steps: *mut u32,
    ) -> u32;
    pub fn nanobot_check(model: *const u8, model_size: usize, line: *mut u8, room: usize, size: *mut usize) -> u32;
    pub fn nanobot_asm(text: *const u8, text_size: usize, trace: *mut u8, room: usize, size: *mut usize) -> u32;
    pub fn nanobot_dis(trace: *const u8, trace_size: usize, text: *mut u8, room: usize, size: *mut usize) -> u32;
    pub fn nanobot_plan_void(source: *const u8, source_size: usize, plan: *mut u8, room: usize, size: *mut usize) -> u32;
    pub fn nanobot_plan_low(target: *const u8, target_size: usize, plan: *mut u8, room: usize, size: *mut usize) -> u32;
    pub fn nanobot_plan_swarm(target: *const u8, target_size: usize, plan: *mut u8, room: usize, size: *mut usize) -> u32;
    pub fn nanobot_plan_layer(
        source: *const u8,
        source_size: usize,
        target: *const u8,
        target_size: usize,
        plan: *mut u8,
        room: usize,
        size: *mut usize,
    ) -> u32;
    pub fn nanobot_plan_crew(
        source: *const u8,
        source_size: usize,
        target: *const u8,
        target_size: usize,
        plan: *mut u8,
        room: usize,
        size: *mut usize,
    ) -> u32;
    pub fn nanobot_plan_group(
        source: *const u8,
        source_size: usize,
        target: *const u8,
        target_size: usize,
        plan: *mut u8,
        room: usize,
        size: *mut usize,
    ) -> u32;
}
