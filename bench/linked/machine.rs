//! What calls of a kept machine take through the Rust crate, at the resolution that is given: a move, a Fill and a Void by turns, judgements,
//! and forty bots that wait, a million of each; a copy and a count of what differs, of a machine whose lower half is full.

use nanobot::{Machine, Profile};
use std::time::Instant;

const TIMES: u32 = 1_000_000;
const BOTS: usize = 40;
const WAITS: [u8; BOTS] = [0xfe; BOTS];

/// Nanoseconds a step of these commands, by turns.
fn nanoseconds(machine: &mut Machine, even: &[u8], odd: &[u8]) -> f64 {
    let began = Instant::now();
    for _ in 0..TIMES / 2 {
        machine.step(even).unwrap();
        machine.step(odd).unwrap();
    }
    1e9 * began.elapsed().as_secs_f64() / f64::from(TIMES)
}

/// Nanoseconds a judgement of these commands.
fn judgement(machine: &mut Machine, commands: &[u8]) -> f64 {
    let began = Instant::now();
    for _ in 0..TIMES {
        machine.judge(commands).unwrap();
    }
    1e9 * began.elapsed().as_secs_f64() / f64::from(TIMES)
}

/// The milliseconds of a call, the least of five.
fn milliseconds(mut call: impl FnMut()) -> f64 {
    let times = (0..5).map(|_| {
        let began = Instant::now();
        call();
        1e3 * began.elapsed().as_secs_f64()
    });
    times.fold(f64::MAX, f64::min)
}

/// The bytes of a model whose lower half is full but for its border, at a resolution of at most 250.
fn half(r: usize) -> Vec<u8> {
    let mut model = vec![0; 1 + (r * r * r).div_ceil(8)];
    model[0] = r as u8;
    for (x, y, z) in (1..r - 1).flat_map(|x| (0..r / 2).flat_map(move |y| (1..r - 1).map(move |z| (x, y, z)))) {
        let place = (x * r + y) * r + z;
        model[1 + place / 8] |= 1 << (place % 8);
    }
    model
}

/// Forty bots in a row: the last one splits, and the others wait.
fn split(machine: &mut Machine) {
    for bots in 1..BOTS {
        let mut commands = WAITS[..bots - 1].to_vec();
        commands.extend([0xb5, (BOTS - 1 - bots) as u8]);
        machine.step(&commands).unwrap();
    }
}

fn main() {
    let resolution: u32 = std::env::args().nth(1).and_then(|word| word.parse().ok()).unwrap_or(20);
    let mut machine = Machine::empty(resolution, Profile::Full, 0).unwrap();
    let there = nanoseconds(&mut machine, &[0x34, 0x10], &[0x34, 0x0e]);
    let fill = nanoseconds(&mut machine, &[0x73], &[0x72]);
    print!("Rust: resolution {resolution}: move {there:.0} ns, fill and void {fill:.0} ns");
    print!(", judge a move {:.0} ns", judgement(&mut machine, &[0x34, 0x10]));
    print!(", a fill {:.0} ns", judgement(&mut machine, &[0x73]));
    if resolution as usize >= BOTS {
        split(&mut machine);
        print!(", forty that wait {:.0} ns", nanoseconds(&mut machine, &WAITS, &WAITS));
    }
    println!();
    let model = half(resolution as usize);
    let mut machine = Machine::start(&model, Profile::Full, 0).unwrap();
    print!("Rust: resolution {resolution}, half full: copy {:.2} ms", milliseconds(|| drop(machine.try_clone().unwrap())));
    println!(", count differences {:.3} ms", milliseconds(|| drop(machine.differences(&model).unwrap())));
}
