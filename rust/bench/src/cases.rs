//! What is measured: our calls, the same pictures drawn by others, and the calls of an earlier library.

use crate::others::Library;
use crate::pixels::Arithmetic;

#[derive(Clone, Copy, PartialEq, Debug)]
pub enum Size {
    /// The full size: 64 × 64.
    Full,
    /// The full size and its six halvings.
    All,
}

/// What an earlier library is asked for too. It draws all levels by a call for each.
#[derive(Clone, Copy, PartialEq, Debug)]
pub enum Step {
    Build,
    Draw(Size),
    BuildAndDrawAll,
}

pub const STEPS: [Step; 4] = [Step::Build, Step::Draw(Full), Step::Draw(All), Step::BuildAndDrawAll];

#[derive(Clone, Copy, PartialEq, Debug)]
pub enum Case {
    Build,
    /// The same outline, by a quarter turn: as many edges in as many cells, so that what it takes longer is the placement's.
    BuildPlaced,
    /// A speck taken out of the built table, and put back: two calls. It need not have been in, and the table is then what it was.
    Correct,
    /// A call for each level.
    Draw(Size),
    /// All levels, by one call.
    Pyramid,
    /// All levels, if they are wanted, by one call.
    BuildAndDraw(Size),
    /// The full size, without a table.
    Pixels(Arithmetic),
    Other(Library, Size),
    Before(Step),
}

use Case::{Before, Build, BuildAndDraw, BuildPlaced, Correct, Draw, Other, Pixels, Pyramid};
use Size::{All, Full};

/// In the order of the page, those that draw the same under one another, and an earlier library's after its own: what is compared is run soon after
/// one another.
pub const CASES: [Case; 18] = [
    Build,
    Before(Step::Build),
    BuildPlaced,
    Correct,
    Draw(Full),
    Before(Step::Draw(Full)),
    Draw(All),
    Before(Step::Draw(All)),
    Pyramid,
    BuildAndDraw(Full),
    Pixels(Arithmetic::Floats),
    Pixels(Arithmetic::WholeNumbers),
    Other(Library::FreeType, Full),
    Other(Library::Agg, Full),
    BuildAndDraw(All),
    Before(Step::BuildAndDrawAll),
    Other(Library::FreeType, All),
    Other(Library::Agg, All),
];

impl Case {
    /// Those that can be run in this build, with an earlier library or without.
    pub fn all(before: bool) -> Vec<Case> {
        CASES.into_iter().filter(|case| case.is_there(before)).collect()
    }

    fn is_there(self, before: bool) -> bool {
        match self {
            Other(library, _) => library.is_there(),
            Before(_) => before,
            _ => true,
        }
    }

    /// What a case of another is compared with: the same pictures from the same points; and an earlier library's with what it is now.
    pub fn ours(self) -> Option<Case> {
        match self {
            Pixels(_) => Some(BuildAndDraw(Full)),
            Other(_, size) => Some(BuildAndDraw(size)),
            Before(step) => Some(step.now()),
            _ => None,
        }
    }

    pub fn title(self) -> String {
        match self {
            Build => "building the table".into(),
            BuildPlaced => "building it with a placement, a turn".into(),
            Correct => "a speck of 8 edges taken out, and put back".into(),
            Draw(Full) => "level 6 from the table".into(),
            Draw(All) => "all seven levels from the table, seven calls".into(),
            Pyramid => "all seven levels from the table, one call".into(),
            BuildAndDraw(Full) => "**building, and level 6**".into(),
            BuildAndDraw(All) => "**building, and all seven levels, one call**".into(),
            Pixels(Arithmetic::Floats) => "pixel by pixel in floats, 64 × 64".into(),
            Pixels(Arithmetic::WholeNumbers) => "pixel by pixel, exact, 64 × 64".into(),
            Other(library, Full) => format!("{}, 64 × 64", library.name()),
            Other(library, All) => format!("{}, all seven sizes", library.name()),
            Before(step) => format!("{}, before", step.title()),
        }
    }
}

impl Step {
    pub fn now(self) -> Case {
        match self {
            Step::Build => Build,
            Step::Draw(size) => Draw(size),
            Step::BuildAndDrawAll => BuildAndDraw(All),
        }
    }

    pub fn title(self) -> &'static str {
        match self {
            Step::Build => "building the table",
            Step::Draw(Full) => "level 6 from the table",
            Step::Draw(All) => "all seven levels from the table, seven calls",
            Step::BuildAndDrawAll => "building, and all seven levels: one call now, seven before",
        }
    }
}

#[cfg(test)]
mod tests {
    use super::*;

    #[test]
    fn cases_are_listed_once_each_and_compared_with_one_that_is_listed() {
        for (place, case) in CASES.into_iter().enumerate() {
            assert!(!CASES[..place].contains(&case), "{case:?}");
            assert!(case.ours().is_none_or(|ours| CASES.contains(&ours)), "{case:?}");
        }
        assert_eq!(Case::all(true).len(), Case::all(false).len() + STEPS.len());
    }
}
