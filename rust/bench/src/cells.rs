//! One cell, a thousand times, from one table: what the search behind question 9 takes, now and in a library that was made before.

use crate::inputs::{Input, Shape, DEPTH, SIDE};
use crate::library::{Opened, ARCHIVE};
use std::hint::black_box;
use std::path::Path;

/// "The reading room draws one cell a thousand times".
pub const CALLS: usize = 1000;

/// The cell: one of the deepest level, with ink in it.
const COLUMN: u32 = SIDE / 2;
const ROW: u32 = 12;

/// Where a table has an entry out of range.
#[derive(Clone, Copy, PartialEq, Debug)]
pub enum Damage {
    None,
    Front,
    End,
}

pub const DAMAGES: [Damage; 3] = [Damage::None, Damage::Front, Damage::End];

impl Damage {
    pub fn title(self) -> &'static str {
        match self {
            Damage::None => "every entry in range",
            Damage::Front => "the first entry out of range",
            Damage::End => "the last entry out of range",
        }
    }

    /// Damages a table.
    fn spoil(self, table: &mut [i64]) {
        /// One more than question 9 lets pass.
        const TOO_MUCH: i64 = (1 << 40) + 1;
        let entry = match self {
            Damage::None => None,
            Damage::Front => table.first_mut(),
            Damage::End => table.last_mut(),
        };
        if let Some(entry) = entry {
            *entry = TOO_MUCH;
        }
    }

    /// What a call is to answer.
    pub fn number(self) -> u32 {
        match self {
            Damage::None => 0,
            Damage::Front | Damage::End => 9,
        }
    }
}

#[derive(Clone, Copy, PartialEq, Debug)]
pub enum Version {
    Now,
    Before,
}

/// A thousand calls of one of the libraries.
#[derive(Clone, Copy, PartialEq, Debug)]
pub struct Calls {
    pub version: Version,
    pub damage: Damage,
}

/// A letter's tables, whole and damaged, and the libraries.
pub struct Cells {
    tables: [Vec<i64>; DAMAGES.len()],
    now: Opened,
    before: Option<Opened>,
}

impl Cells {
    pub fn new(before: Option<&Path>) -> Result<Cells, String> {
        let outline = Input::full(Shape::Letter).outlines(1).remove(0);
        let mut whole = vec![0; (SIDE * SIDE) as usize];
        mattuliyan::build(SIDE, &outline.points, &outline.counts, &mut whole)
            .map_err(|refusal| format!("building: {refusal}"))?;
        let table = |damage: Damage| {
            let mut table = whole.clone();
            damage.spoil(&mut table);
            table
        };
        let now = Opened::open(Path::new(ARCHIVE))?;
        let before = before.map(Opened::open).transpose()?;
        Ok(Cells { tables: DAMAGES.map(table), now, before })
    }

    /// Those that can be run, the two versions of each under one another.
    pub fn all(&self) -> Vec<Calls> {
        let versions = if self.before.is_some() { &[Version::Now, Version::Before][..] } else { &[Version::Now] };
        DAMAGES.into_iter().flat_map(|damage| versions.iter().map(move |&version| Calls { version, damage })).collect()
    }

    pub fn table(&self, damage: Damage) -> &[i64] {
        &self.tables[damage as usize]
    }

    pub fn run(&self, calls: Calls) -> Result<(), String> {
        let library = match calls.version {
            Version::Now => &self.now,
            Version::Before => self.before.as_ref().ok_or("there is no library from before")?,
        };
        let library = black_box(library);
        let table = self.table(calls.damage);
        (0..CALLS).try_for_each(|_| call(library, table, calls.damage))
    }

    /// One call of the library as it is now, from a copy of the table.
    pub fn call(&self, damage: Damage, copy: &[i64]) -> Result<(), String> {
        call(&self.now, copy, damage)
    }
}

/// Every call's answer is looked at.
fn call(library: &Opened, table: &[i64], damage: Damage) -> Result<(), String> {
    let (number, figure) = library.cell(SIDE, DEPTH, COLUMN, ROW, black_box(table));
    black_box(figure);
    if number == damage.number() {
        Ok(())
    } else {
        Err(format!("one cell, {}: answered {number}", damage.title()))
    }
}

#[cfg(test)]
mod tests {
    use super::*;
    use crate::library::{with_another, ANOTHER};

    #[test]
    fn a_thousand_calls_are_answered_as_the_damage_says() {
        let cells = Cells::new(None).unwrap();
        let bad = |damage| cells.table(damage).iter().position(|entry| entry.abs() > 1 << 40);
        assert_eq!(DAMAGES.map(bad), [None, Some(0), Some((SIDE * SIDE) as usize - 1)]);
        assert_eq!(cells.all().len(), DAMAGES.len());
        for calls in cells.all() {
            assert_eq!(cells.run(calls), Ok(()));
        }
        assert!(cells.run(Calls { version: Version::Before, damage: Damage::None }).is_err());
    }

    #[test]
    fn an_answer_that_is_not_expected_is_an_error() {
        let mut cells = Cells::new(None).unwrap();
        cells.tables[Damage::None as usize][7] = i64::MIN;
        assert!(cells.run(Calls { version: Version::Now, damage: Damage::None }).is_err());
    }

    #[test]
    fn an_earlier_library_is_called_too() {
        let cells = with_another(|object| Cells::new(Some(object))).unwrap();
        assert_eq!(cells.all().len(), 2 * DAMAGES.len());
        for calls in cells.all() {
            match cells.run(calls) {
                Ok(()) => assert_eq!(calls.version, Version::Now),
                Err(message) => assert!(calls.version == Version::Before && message.contains(&ANOTHER.to_string())),
            }
        }
    }
}
