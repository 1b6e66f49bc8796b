//! The rules that a step or a run can break.

use crate::Coord;
use std::error::Error;
use std::fmt;

/// A rule of the contest, or of this project (docs/FORMATS.md, "Rules"). `as u32` is its number, and it prints its name.
#[derive(Clone, Copy, PartialEq, Eq, PartialOrd, Ord, Hash, Debug)]
#[non_exhaustive]
pub enum Rule {
    TraceEnds = 1,
    HaltAlone = 2,
    HaltOrigin = 3,
    HaltLow = 4,
    OutOfSpace = 5,
    Blocked = 6,
    Seeds = 7,
    InRegion = 8,
    Partner = 9,
    GroupShape = 10,
    Interference = 11,
    Ungrounded = 12,
    AfterHalt = 13,
    WrongResult = 14,
    Forbidden = 15,
}

const RULES: [Rule; 15] = [
    Rule::TraceEnds,
    Rule::HaltAlone,
    Rule::HaltOrigin,
    Rule::HaltLow,
    Rule::OutOfSpace,
    Rule::Blocked,
    Rule::Seeds,
    Rule::InRegion,
    Rule::Partner,
    Rule::GroupShape,
    Rule::Interference,
    Rule::Ungrounded,
    Rule::AfterHalt,
    Rule::WrongResult,
    Rule::Forbidden,
];

impl Rule {
    /// Returns the number of the rule.
    pub fn number(self) -> u32 {
        self as u32
    }

    /// Returns the rule of a number from 1 to 15.
    pub fn from_number(number: u32) -> Option<Rule> {
        RULES.get((number as usize).wrapping_sub(1)).copied()
    }
}

impl fmt::Display for Rule {
    fn fmt(&self, f: &mut fmt::Formatter<'_>) -> fmt::Result {
        f.pad(&format!("{self:?}"))
    }
}

/// The broken rule, with its step, its bot (0 for the rules of no bot), and its coordinate.
///
/// It prints the line of the program: `broken 12 Ungrounded step 7 bid 0 at 0 1 0`.
#[derive(Clone, Copy, PartialEq, Eq, Debug)]
pub struct Broken {
    pub rule: Rule,
    pub step: u32,
    pub bid: u32,
    pub at: Coord,
}

impl Broken {
    /// Returns the broken rule of a line of the program, or None for any other line.
    pub(crate) fn of_line(line: &str) -> Option<Broken> {
        let mut words = line.split(' ');
        let mut number = |before: &str| (words.next()? == before).then(|| words.next()?.parse().ok())?;
        let rule = Rule::from_number(number("broken")?)?;
        words.next().filter(|name| *name == rule.to_string())?;
        let mut number = |before: &str| (words.next()? == before).then(|| words.next()?.parse().ok())?;
        let (step, bid, x) = (number("step")?, number("bid")?, number("at")?);
        let (y, z) = (words.next()?.parse().ok()?, words.next()?.parse().ok()?);
        let at = Coord { x, y, z };
        words.next().is_none().then_some(Broken { rule, step, bid, at })
    }
}

impl fmt::Display for Broken {
    fn fmt(&self, f: &mut fmt::Formatter<'_>) -> fmt::Result {
        let Coord { x, y, z } = self.at;
        write!(f, "broken {} {} step {} bid {} at {x} {y} {z}", self.rule.number(), self.rule, self.step, self.bid)
    }
}

impl Error for Broken {}
