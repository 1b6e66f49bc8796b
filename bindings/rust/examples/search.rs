//! A search over two machines: `search T B` builds towards the model T with one bot, by steps that look best two moves deep, stores the
//! trace that it made as B, and prints what `nanobot run - T B` prints of it.

use nanobot::{asm, count_commands, dis, version, Broken, Coord, Machine, Profile, Rule};
use std::error::Error;
use std::fs;
use std::process::ExitCode;

const STEPS: usize = 12;

const HALT: &[u8] = &[0xff];

type Told<T> = Result<T, Box<dyn Error>>;

/// How good a state is: first how many voxels are wrong, then the energy.
type Score = (u32, i64);

/// The fills of all near coordinates, and the moves by one.
fn moves() -> Vec<Vec<u8>> {
    let near = |code: &u8| {
        let length: i32 = [code / 9, code / 3 % 3, code % 3].iter().map(|n| (i32::from(*n) - 1).abs()).sum();
        length == 1 || length == 2
    };
    let fills = (0..27).filter(near).map(|code| vec![code << 3 | 3]);
    let straight = (1..=3).flat_map(|axis| [14, 16].map(|way| vec![axis << 4 | 4, way]));
    fills.chain(straight).collect()
}

fn score(machine: &mut Machine) -> Score {
    (machine.remaining().unwrap_or(0), machine.state().energy)
}

/// Returns the best score of `depth` moves, and the index of the first one.
fn search(machine: &mut Machine, moves: &[Vec<u8>], depth: usize) -> Told<(Score, usize)> {
    if depth == 0 {
        return Ok((score(machine), 0));
    }
    let mut best = ((u32::MAX, 0), 0);
    for (number, commands) in moves.iter().enumerate() {
        let Ok(judged) = machine.judge(commands) else { continue };
        assert_eq!(machine.step(commands)?.energy, judged.energy);
        let (found, _) = search(machine, moves, depth - 1)?;
        machine.undo()?;
        if found < best.0 {
            best = (found, number);
        }
    }
    Ok(best)
}

/// Checks that both machines have the same state, and that the trace is that of its own text.
fn check(made: &mut Machine, scout: &mut Machine, trace: &[u8]) -> Told<()> {
    let (a, b) = (made.state(), scout.state());
    assert_eq!((a.energy, a.steps, made.count()), (b.energy, b.steps, scout.count()));
    for x in 0..a.resolution {
        let at = Coord { x, y: 0, z: 1 };
        assert_eq!(made.full(at), Some(made.level(at)?.is_some()));
    }
    assert_eq!(asm(&dis(trace)?)?, trace);
    assert_eq!(count_commands(trace)?, u64::from(a.steps));
    assert!(version() >= 900);
    Ok(())
}

fn main() -> Told<ExitCode> {
    let words: Vec<String> = std::env::args().skip(1).collect();
    let target = fs::read(&words[0])?;
    let resolution = match target[..] {
        [0xff, high, low, ..] => u32::from(high) * 256 + u32::from(low),
        _ => u32::from(target[0]),
    };
    let moves = moves();
    let mut made = Machine::empty(resolution, Profile::Full, 2)?;
    made.keep_trace()?;
    made.aim(&target)?;
    let mut scout = made.try_clone()?;
    for _ in 0..STEPS {
        if made.remaining() == Some(0) {
            break;
        }
        let (_, first) = search(&mut scout, &moves, 2)?;
        made.step(&moves[first])?;
        scout.step(&moves[first])?;
    }
    if made.remaining() == Some(0) && made.judge(HALT).is_ok() {
        made.step(HALT)?;
        scout.step(HALT)?;
    }
    let trace = made.trace()?;
    check(&mut made, &mut scout, &trace)?;
    fs::write(&words[1], &trace)?;
    let state = made.state();
    let Some(bot) = made.bots().first().copied() else {
        println!("ok energy {} steps {}", state.energy, state.steps);
        return Ok(ExitCode::SUCCESS);
    };
    println!("{}", Broken { rule: Rule::TraceEnds, step: state.steps + 1, bid: bot.bid, at: bot.at });
    Ok(ExitCode::from(1))
}
