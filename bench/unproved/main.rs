//! `run S T B` over files, or `PLANNER S T B`, by the code without its clauses: the verdict, or the plan's size, and how long each
//! part took; `make N R M` stores a forged model.
#![allow(dead_code, unused_variables, unused_imports, unused_mut)]
mod brick_arena;
mod bot_crew;
mod counter_permit;
mod energy_sum;
mod group_planner;
mod layer_planner;
mod low_planner;
mod model_file;
mod model_forge;
mod nano_spec;
mod plan_choice;
mod plan_tape;
mod voxel_reads;
mod run_progress;
mod shim;
mod squad_plans;
mod box_plans;
mod step_groups;
mod step_machine;
mod step_order;
mod support_forest;
mod swarm_planner;
mod system_state;
mod trace_codec;
mod trace_judge;
mod void_planner;
mod vox_geom;
mod vox_planes;

use counter_permit::CounterPermit;
use group_planner::{plan_groups, rows, runs};
use layer_planner::plan_layers;
use plan_choice::{choose_crew_plan, choose_group_plan, choose_layer_plan, choose_low_plan, choose_swarm_plan, choose_void_plan};
use low_planner::plan_low;
use model_file::{legal, read_model, write_model};
use model_forge::forge;
use nano_spec::Profile;
use shim::{Blank, Brand, Global};
use std::time::Instant;
use swarm_planner::plan_swarm;
use trace_codec::{Decoder, Fed, One, encode_all};
use trace_judge::Runner;
use void_planner::plan_void;
use vox_geom::Steps;
use vox_planes::Planes;

/// How many bytes of a trace are decoded at a time.
const PIECE: usize = 65_536;

/// The model of a file, `None` for `-`.
fn load(name: &str) -> Option<Planes> {
    if name == "-" {
        return None;
    }
    let bytes = std::fs::read(name).expect("a file");
    let planes = read_model(Global, &bytes).ok().expect("a model");
    legal(Global, &planes).ok().expect("a legal model");
    Some(planes)
}

/// How many bytes the run of an only bot took, and whether the bot is still alone.
#[derive(Clone, Copy)]
struct Went {
    used: u8,
    alone: bool,
}

const DECLINED: Went = Went { used: 0, alone: false };

/// The run of `nanobot_rows`, whose crate is not built here.
struct TraceRun {
    decoder: Decoder,
    runner: Runner,
}

impl TraceRun {
    fn feed(&mut self, piece: &[u8], steps: &mut Steps<Brand>) {
        let mut at = 0;
        while at < piece.len() {
            at += self.advance(&piece[at..], steps);
        }
    }

    #[inline(always)]
    fn advance(&mut self, piece: &[u8], steps: &mut Steps<Brand>) -> usize {
        let used = self.run_where_alone(piece, steps);
        if used > 0 {
            return used;
        }
        self.next(piece, steps)
    }

    #[inline(always)]
    fn run_where_alone(&mut self, piece: &[u8], steps: &mut Steps<Brand>) -> usize {
        if !self.runner.is_alone() || !self.decoder.is_between() {
            return 0;
        }
        self.run_alone(piece, steps)
    }

    #[inline(never)]
    fn run_alone(&mut self, piece: &[u8], steps: &mut Steps<Brand>) -> usize {
        let mut at = 0;
        while at < piece.len() {
            let went = self.next_alone(&piece[at..], steps);
            at += usize::from(went.used);
            if !went.alone {
                return at;
            }
        }
        at
    }

    #[inline(always)]
    fn next_alone(&mut self, piece: &[u8], steps: &mut Steps<Brand>) -> Went {
        let head = piece[0];
        match head {
            0b0001_0100 => self.step_by(0b0001_0100, piece, steps),
            0b0010_0100 => self.step_by(0b0010_0100, piece, steps),
            0b0011_0100 => self.step_by(0b0011_0100, piece, steps),
            _ => match head % 8 {
                0b011 => self.step_by(head / 8 * 8 + 0b011, piece, steps),
                0b010 => self.step_by(head / 8 * 8 + 0b010, piece, steps),
                _ => DECLINED,
            },
        }
    }

    #[inline(always)]
    fn step_by(&mut self, head: u8, piece: &[u8], steps: &mut Steps<Brand>) -> Went {
        match self.decoder.take_front(head, piece) {
            One::Got { command, len } => {
                let alone = self.runner.push_alone(command, steps).ok().expect("memory");
                Went { used: len, alone }
            }
            One::More | One::Bad => DECLINED,
        }
    }

    #[inline(always)]
    fn next(&mut self, piece: &[u8], steps: &mut Steps<Brand>) -> usize {
        if !self.decoder.is_between() {
            return self.next_of(piece, steps);
        }
        match piece {
            [0b0001_0100, ..] => self.next_from(0b0001_0100, piece, steps),
            [0b0010_0100, ..] => self.next_from(0b0010_0100, piece, steps),
            [0b0011_0100, ..] => self.next_from(0b0011_0100, piece, steps),
            [head, ..] if head % 8 == 0b011 => self.next_from(head / 8 * 8 + 0b011, piece, steps),
            [head, ..] if head % 8 == 0b010 => self.next_from(head / 8 * 8 + 0b010, piece, steps),
            _ => self.next_of(piece, steps),
        }
    }

    #[inline(always)]
    fn next_from(&mut self, head: u8, piece: &[u8], steps: &mut Steps<Brand>) -> usize {
        let fed = self.decoder.feed_from(head, piece);
        take(&mut self.runner, fed, piece.len(), steps)
    }

    #[inline(never)]
    fn next_of(&mut self, piece: &[u8], steps: &mut Steps<Brand>) -> usize {
        let fed = self.decoder.feed(piece);
        take(&mut self.runner, fed, piece.len(), steps)
    }
}

/// The runner gets the command, if one came. How many bytes of the piece are taken.
#[inline(always)]
fn take(runner: &mut Runner, fed: Fed, count: usize, steps: &mut Steps<Brand>) -> usize {
    match fed {
        Fed::Got { command, used } => {
            runner.push(command, steps).ok().expect("memory");
            used
        }
        Fed::All | Fed::Bad { .. } => count,
    }
}

/// The two models; `-` is the empty one.
fn load_both(words: &[String]) -> (Planes, Planes) {
    let (source, target) = (load(&words[1]), load(&words[2]));
    let r = source.as_ref().or(target.as_ref()).expect("a model").resolution();
    let empty = || Planes::empty(Global, r).ok().expect("memory");
    (source.unwrap_or_else(empty), target.unwrap_or_else(empty))
}

/// `run S T B`.
fn run(words: &[String]) {
    let begun = Instant::now();
    let (source, target) = load_both(words);
    let trace = std::fs::read(&words[3]).expect("a file");
    let loaded = begun.elapsed();
    let mut steps: Steps<Brand> = Steps::new(Blank::new(1), CounterPermit);
    let runner = Runner::start(Global, source, Profile::full(), &mut steps).ok().expect("memory");
    let started = begun.elapsed();
    let mut run = TraceRun { decoder: Decoder::new(), runner };
    for piece in trace.chunks(PIECE) {
        run.feed(piece, &mut steps);
    }
    let ran = begun.elapsed();
    println!("{:?}", run.runner.finish(&target, &mut steps));
    println!("loaded in {loaded:?}, forest in {:?}, run in {:?}", started - loaded, ran - started);
}

/// `PLANNER S T B`: `group` or `layer`; `void` for the source alone; `low` or `swarm` for the target alone.
fn plan(words: &[String]) {
    let begun = Instant::now();
    let (source, target) = load_both(words);
    let loaded = begun.elapsed();
    let size = (rows(&source) + rows(&target), runs(&source) + runs(&target));
    let counted = begun.elapsed();
    let made = match words[0].as_str() {
        "group" => plan_groups(Global, &source, &target).ok(),
        "layer" => plan_layers(Global, &source, &target).ok(),
        "void" => plan_void(Global, &source).ok(),
        "low" => plan_low(Global, &target).ok(),
        "crew" => choose_crew_plan(Global, &source, &target).ok(),
        "group-low" => choose_group_plan(Global, &source, &target).ok(),
        "layer-low" => choose_layer_plan(Global, &source, &target).ok(),
        "low-low" => choose_low_plan(Global, &target).ok(),
        "void-low" => choose_void_plan(Global, &source).ok(),
        "swarm-low" => choose_swarm_plan(Global, &target).ok(),
        _ => plan_swarm(Global, &target).ok(),
    };
    let plan = made.expect("a plan");
    let planned = begun.elapsed();
    let bytes = encode_all(Global, plan.commands.as_slice()).ok().expect("memory");
    let encoded = begun.elapsed();
    std::fs::write(&words[3], bytes.as_slice()).expect("a file");
    println!("rows and runs {size:?}, energy {}, steps {}, bytes {}", plan.energy, plan.steps, bytes.len());
    println!(
        "loaded in {loaded:?}, counted in {:?}, planned in {:?}, encoded in {:?}, all in {:?}",
        counted - loaded,
        planned - counted,
        encoded - planned,
        begun.elapsed()
    );
}

/// `make N R M`.
fn make(words: &[String]) {
    let (number, r) = (words[1].parse().expect("a number"), words[2].parse().expect("a resolution"));
    let planes = forge(Global, number, r).ok().expect("memory");
    let bytes = write_model(Global, &planes).ok().expect("memory");
    std::fs::write(&words[3], bytes.as_slice()).expect("a file");
}

fn main() {
    let words: Vec<String> = std::env::args().skip(1).collect();
    match words[0].as_str() {
        "run" => run(&words),
        "make" => make(&words),
        _ => plan(&words),
    }
}
