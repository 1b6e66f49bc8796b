//! The binding, call by call. Expected numbers are those of the rules.

use nanobot::{
    asm, check, count_commands, dis, judge, plan, refusal_name, Broken, CommandsError, Coord, Cost, Judged, KeepError, LevelError, Machine, Planner,
    Profile, Refused, Rule, StartError, StepError, TargetError, TraceError, UndoError,
};

const HALT: &[u8] = &[0xff];
const WAIT: &[u8] = &[0xfe];
/// `Fill <0,0,1>`, `Fill <0,1,0>`, `Void <0,0,1>` and `Fission <0,0,1> 5`.
const FILL_BESIDE: &[u8] = &[0x73];
const FILL_ABOVE: &[u8] = &[0x83];
const VOID_BESIDE: &[u8] = &[0x72];
const SPLIT: &[u8] = &[0x75, 5];

fn at(x: u32, y: u32, z: u32) -> Coord {
    Coord { x, y, z }
}

#[test]
fn a_step_costs_its_upkeep() {
    let mut machine = Machine::empty(20, Profile::Full, 0).unwrap();
    let step = machine.step(WAIT).unwrap();
    assert_eq!((step.energy, step.steps, step.active), (3 * 8000 + 20, 1, 1));
    assert_eq!(machine.undo(), Err(UndoError::NothingNoted));
}

#[test]
fn a_trace_is_played_until_a_step_is_refused() {
    let mut machine = Machine::empty(3, Profile::Full, 9).unwrap();
    let trace = [0x75, 5, 0xfe, 0xfe, 0xfe, 0x14, 0x10, 0xfe, 0xff];
    let played = machine.play(&trace, 2);
    assert_eq!((played.made, played.used, played.active, played.refused), (2, 4, 2, None));
    let played = machine.play(&trace[4..], u32::MAX);
    let broken = Broken { rule: Rule::HaltAlone, step: 4, bid: 2, at: at(1, 0, 1) };
    assert_eq!((played.made, played.used, played.steps, played.refused), (1, 3, 3, Some(StepError::Broken(broken))));
    assert_eq!(machine.play(&[], 1).refused, None);
    assert_eq!(machine.play(WAIT, 1).refused, Some(StepError::WrongCount { active: 2 }));
    assert_eq!(machine.play(&[0xfe, 0xfe, 0xfe, 0x14], 2).refused, Some(StepError::BadCommands { offset: 3 }));
    assert_eq!(machine.state().noted, 4);
}

#[test]
fn a_fission_makes_two_bots() {
    let mut machine = Machine::empty(3, Profile::Full, 0).unwrap();
    assert_eq!(machine.step(SPLIT).unwrap().active, 2);
    let bots = machine.bots();
    assert_eq!((bots[1].bid, bots[1].at, bots[1].seeds), (2, at(0, 0, 1), 0b1111_1000));
    assert_eq!(machine.step(WAIT), Err(StepError::WrongCount { active: 2 }));
}

#[test]
fn a_voxel_that_floats_leaves_the_machine_as_it_was() {
    let mut machine = Machine::empty(4, Profile::Full, 1).unwrap();
    machine.step(WAIT).unwrap();
    let before = machine.state();
    let broken = Broken { rule: Rule::Ungrounded, step: 2, bid: 0, at: at(0, 1, 0) };
    assert_eq!(machine.step(FILL_ABOVE), Err(StepError::Broken(broken)));
    assert_eq!(machine.state(), before);
    assert_eq!((machine.full(at(0, 1, 0)), machine.level(at(0, 1, 0))), (Some(false), Ok(None)));
    machine.undo().unwrap();
    assert_eq!(machine.step(FILL_BESIDE).unwrap().energy, 3 * 64 + 20 + 12);
    assert_eq!((machine.level(at(0, 0, 1)), machine.count()), (Ok(Some(0)), 1));
}

#[test]
fn a_copy_goes_its_own_way() {
    let mut machine = Machine::empty(3, Profile::Full, 5).unwrap();
    machine.step(WAIT).unwrap();
    let mut other = machine.try_clone().unwrap();
    other.step(FILL_BESIDE).unwrap();
    assert_eq!((machine.count(), other.count()), (0, 1));
    assert_eq!((machine.state().steps, other.state().steps, other.state().noted), (1, 2, 1));
}

#[test]
fn a_machine_moves_to_another_thread() {
    let mut machine = Machine::empty(3, Profile::Full, 1).unwrap();
    machine.step(WAIT).unwrap();
    let mut moved = std::thread::spawn(move || {
        machine.step(WAIT).unwrap();
        machine
    })
    .join()
    .unwrap();
    moved.undo().unwrap();
    assert_eq!(moved.state().steps, 1);
}

#[test]
fn a_step_that_is_judged_is_not_made() {
    let mut machine = Machine::empty(4, Profile::Full, 1).unwrap();
    let judged = |energy, active, changed| Ok(Judged { energy, halts: active == 0, active, high: false, changed });
    assert_eq!(machine.judge(FILL_BESIDE), judged(3 * 64 + 20 + 12, 1, 1));
    assert_eq!(machine.judge(HALT), judged(3 * 64 + 20, 0, 0));
    assert!(matches!(machine.judge(FILL_ABOVE), Err(StepError::Broken(Broken { rule: Rule::Ungrounded, .. }))));
    assert_eq!(machine.judge(&[]), Err(StepError::WrongCount { active: 1 }));
    assert_eq!(machine.judge(&[4]), Err(StepError::BadCommands { offset: 0 }));
    assert_eq!((machine.state().steps, machine.state().noted, machine.count()), (0, 0, 0));
    machine.step(FILL_BESIDE).unwrap();
    assert_eq!(machine.judge(WAIT), judged(2 * (3 * 64 + 20) + 12, 1, 0));
}

#[test]
fn a_step_tells_harmonics_and_how_many_voxels_changed() {
    for notes in [0, 5] {
        let mut machine = Machine::empty(4, Profile::Full, notes).unwrap();
        let mut told = |commands: &[u8]| machine.step(commands).map(|it| (it.high, it.changed)).unwrap();
        assert_eq!(told(FILL_BESIDE), (false, 1));
        assert_eq!(told(FILL_BESIDE), (false, 0));
        assert_eq!(told(&[0xfd]), (true, 0));
        assert_eq!(told(VOID_BESIDE), (true, 1));
    }
}

#[test]
fn a_trace_is_kept() {
    let mut machine = Machine::empty(3, Profile::Full, 2).unwrap();
    assert_eq!(machine.trace(), Err(TraceError::NotKept));
    machine.keep_trace().unwrap();
    machine.step(SPLIT).unwrap();
    machine.step(&[0xfe, 0xfe]).unwrap();
    let mut other = machine.try_clone().unwrap();
    machine.undo().unwrap();
    assert_eq!((machine.trace(), other.trace()), (Ok(SPLIT.to_vec()), Ok(vec![0x75, 5, 0xfe, 0xfe])));
    assert_eq!(other.keep_trace(), Err(KeepError::Begun));
}

#[test]
fn a_text_is_read_and_spelled() {
    assert_eq!(asm("Wait\nHalt # done\n"), Ok(vec![0xfe, 0xff]));
    assert_eq!(dis(&[0xfe, 0xff]), Ok("Wait\nHalt\n".to_owned()));
    assert_eq!((count_commands(&[0x75, 5, 0xfe]), count_commands(&[])), (Ok(2), Ok(0)));
    assert_eq!(count_commands(&[0xfe, 4]), Err(CommandsError::BadCommands { offset: 1 }));
    assert_eq!(asm("Stop\n").unwrap_err().line, "text 2 UnknownWord line 1");
    assert_eq!(dis(&[4]).unwrap_err().status, 4);
}

#[test]
fn what_is_refused() {
    let mut machine = Machine::empty(2, Profile::Light, 0).unwrap();
    assert_eq!(machine.step(&[0xfe, 0]), Err(StepError::BadCommands { offset: 1 }));
    assert!(matches!(machine.step(VOID_BESIDE), Err(StepError::Broken(Broken { rule: Rule::Forbidden, .. }))));
    assert_eq!((machine.full(at(2, 0, 0)), machine.level(at(0, 70_000, 0))), (None, Err(LevelError::OutOfSpace)));
    machine.step(HALT).unwrap();
    assert_eq!(machine.step(WAIT), Err(StepError::Ended));
    assert!(machine.bots().is_empty());
    assert!(matches!(Machine::empty(401, Profile::Full, 0), Err(StartError::Argument)));
    assert!(matches!(Machine::empty(2, Profile::Full, 4097), Err(StartError::Argument)));
    let border = [3, 1, 0, 0, 0];
    assert!(matches!(Machine::start(&border, Profile::Full, 0), Err(StartError::Model { number: 6, .. })));
}

#[test]
fn a_model_is_given_back() {
    // (1,0,1) is full at resolution 3: place 10, bit 2 of the second byte of voxels
    let model = [3, 0, 4, 0, 0];
    let mut machine = Machine::start(&model, Profile::Full, 0).unwrap();
    assert_eq!(machine.model().unwrap(), model);
    assert_eq!(machine.full(at(1, 0, 1)), Some(true));
    assert_eq!(machine.difference(&model), Ok(None));
    assert_eq!(Machine::empty(3, Profile::Full, 0).unwrap().difference(&model), Ok(Some(at(1, 0, 1))));
    assert_eq!((machine.differences(&model), Machine::empty(3, Profile::Full, 0).unwrap().differences(&model)), (Ok(0), Ok(1)));
    assert_eq!(machine.differences(&[1, 0]), Err(TargetError::Resolution));
    assert_eq!(machine.difference(&[1, 0]), Err(TargetError::Resolution));
    assert_eq!(machine.difference(&[]), Err(TargetError::Model { number: 1 }));
}

#[test]
fn what_remains_of_a_target_is_kept() {
    let mut machine = Machine::empty(3, Profile::Full, 1).unwrap();
    assert_eq!(machine.remaining(), None);
    assert_eq!(machine.aim(&[1, 0]), Err(TargetError::Resolution));
    assert_eq!((machine.aim(&[3, 0, 4, 0, 0]), machine.remaining()), (Ok(1), Some(1)));
    machine.step(&[0x73]).unwrap();
    let mut other = machine.try_clone().unwrap();
    machine.undo().unwrap();
    assert_eq!((machine.remaining(), other.remaining()), (Some(1), Some(2)));
}

#[test]
fn the_library_is_that_of_the_crate() {
    assert_eq!((nanobot::version(), env!("CARGO_PKG_VERSION")), (900, "0.9.0"));
}

#[test]
fn a_trace_is_judged_as_its_steps_cost() {
    let post: &[u8] = &[0x14, 0x10, 0x73, 0x14, 0x0e, 0xff];
    let target: &[u8] = &[3, 0, 4, 0, 0];
    let cost = Cost { energy: 420, steps: 4 };
    assert_eq!(judge(None, Some(target), post, Profile::Full), Ok(cost));
    let mut machine = Machine::empty(3, Profile::Full, 0).unwrap();
    for commands in [&post[..2], &post[2..3], &post[3..5], &post[5..]] {
        machine.step(commands).unwrap();
    }
    let state = machine.state();
    assert_eq!((state.energy, state.steps, machine.difference(target)), (420, 4, Ok(None)));
    let line = "broken 14 WrongResult step 1 bid 0 at 1 0 1".to_owned();
    assert_eq!(judge(None, Some(target), HALT, Profile::Full), Err(Refused { status: 1, line }));
}

#[test]
fn rules_and_refusals_have_names() {
    let numbers: Vec<_> = (0..17).filter_map(Rule::from_number).map(Rule::number).collect();
    assert_eq!(numbers, (1..=15).collect::<Vec<u32>>());
    assert_eq!((Rule::Ungrounded.to_string(), format!("{:>6}", Rule::Seeds)), ("Ungrounded".to_owned(), " Seeds".to_owned()));
    assert_eq!((refusal_name(7), refusal_name(5), refusal_name(99)), ("Floating", "", ""));
    let refused = judge(None, Some(&[3, 0, 4, 0, 0]), HALT, Profile::Full).unwrap_err();
    let broken = Broken { rule: Rule::WrongResult, step: 1, bid: 0, at: at(1, 0, 1) };
    assert_eq!((refused.broken(), broken.to_string()), (Some(broken), refused.line));
    assert_eq!(dis(&[4]).unwrap_err().broken(), None);
    let mut machine = Machine::empty(4, Profile::Full, 0).unwrap();
    let said = machine.step(FILL_ABOVE).unwrap_err().to_string();
    assert_eq!(said, "broken 12 Ungrounded step 1 bid 0 at 0 1 0");
    let said = Machine::start(&[3, 1, 0, 0, 0], Profile::Full, 0).err().map(|it| it.to_string());
    assert_eq!(said.as_deref(), Some("the model is refused: 6 Border"));
}

#[test]
fn each_plan_is_accepted() {
    let model: &[u8] = &[3, 0, 4, 0, 0];
    assert_eq!(check(model), Ok("legal resolution 3 full 1".to_owned()));
    for planner in [Planner::Layer, Planner::Group, Planner::Crew, Planner::Low, Planner::Swarm] {
        let trace = plan(planner, None, Some(model)).unwrap();
        assert!(judge(None, Some(model), &trace, Profile::Full).is_ok());
    }
    let trace = plan(Planner::Void, Some(model), None).unwrap();
    assert!(judge(Some(model), None, &trace, Profile::Full).is_ok());
    assert_eq!(plan(Planner::Low, None, Some(&[])).unwrap_err().status, 3);
}
