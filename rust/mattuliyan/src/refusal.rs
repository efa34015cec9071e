//! The questions that calls ask, and the refusal where one is answered no.
use std::error::Error;
use std::fmt::{Display, Formatter};

/// The list is written once, below: the numbers that a refusal can have, its words, and the table in its documentation are made from it.
macro_rules! questions {
    ($($number:literal $question:literal)*) => {
        const QUESTIONS: &[(u8, &str)] = &[$(($number, $question)),*];

        /// A call that is refused: the first of its questions that is answered no. Then no slice and no record has changed.
        ///
        /// | | |
        /// |---|---|
        $(#[doc = concat!("| ", $number, " | ", $question, " |")])*
        ///
        /// [`build`](crate::build) asks 1, 2, 4, 5, 3, 6; [`build_placed`](crate::build_placed) 1, 2, 4, 5, 3, 12, 6;
        /// [`put`](crate::put) 1, 2, 4, 5, 3, 12, 6, 9; [`take`](crate::take) 1, 2, 4, 5, 3, 12, 6, 13, 9;
        /// [`figures`](crate::figures) and [`greys`](crate::greys) 1, 2, 7, 8, 9; [`cell`](crate::cell) 1, 2, 7, 10, 9;
        /// [`pyramid`](crate::pyramid) 1, 2, 8, 9.
        /// On a sheet, 14 and 15 come in the place of 1: [`build_on_sheet`](crate::build_on_sheet) asks 14, 15, 2, 4, 5, 3, 12, 6;
        /// [`put_on_sheet`](crate::put_on_sheet) 14, 15, 2, 4, 5, 3, 12, 6, 9; [`take_on_sheet`](crate::take_on_sheet) 14, 15, 2, 4, 5, 3,
        /// 12, 6, 13, 9. There the side is the tile's in question 2, and the sheet's in question 6.
        /// Of curves, 16 comes after 4, and 5, which counts chords, after 6: [`build_curves`](crate::build_curves) asks 1, 2, 4, 16, 3, 12, 6,
        /// 5; [`put_curves`](crate::put_curves) 1, 2, 4, 16, 3, 12, 6, 5, 9; [`take_curves`](crate::take_curves) 1, 2, 4, 16, 3, 12, 6, 5,
        /// 13, 9; and on a sheet 14 and 15 come in the place of 1. There question 3 wants two numbers for a straight edge and four for a curved
        /// one, 6 asks about control points too, and 13 about chords.
        #[derive(Clone, Copy, Debug, PartialEq, Eq)]
        pub struct Refusal {
            number: u8,
            question: &'static str,
        }
    };
}

questions! {
    1 "Is the side 1, 2, 4, 8, 16, 32 or 64?"
    2 "Has the table exactly side × side entries?"
    3 "Are the points exactly twice as many numbers as the counts' sum (with marks, two for a straight edge and four for a curved one)?"
    4 "Is every count from 3 to 1,024?"
    5 "Is the counts' sum (with marks, the number of chords; for putting in, with the record's count) at most 1,024?"
    6 "Is every coordinate, as placed, from 0 to 256 × side (on a sheet, the sheet's)?"
    7 "Is the level at most the depth, the number of halvings from the side to 1?"
    8 "Has the picture exactly 4^level places (of all levels, are there exactly 1 + 4 + .. + 4^depth)?"
    9 "Is every entry of the table (for putting in and taking out, also of the table that would be left) from −2^40 to 2^40?"
    10 "Are both cell numbers below 2^level?"
    12 "Is every number of the placement a multiple of 1/65,536 in its range (factors from −2 to 2, offsets from −16,384 to \
        16,384), and every coordinate that is moved from −32,768 to 32,767?"
    13 "Does the record count at least as many edges as are taken out?"
    14 "Is the sheet's side 1, 2, 4, 8, 16, 32, 64 or 128, and the tile's 1, 2, 4, 8, 16 or 32 and not larger than the sheet's?"
    15 "Is the tile's place on the sheet, column and row being below the sheet's side / the tile's?"
    16 "Is every mark 0 or 1, and are there exactly as many marks as the counts' sum?"
}

impl Refusal {
    /// The refusal of this number, if a question has it. There is no other way to make one.
    pub(crate) fn of(number: u32) -> Option<Refusal> {
        let found = QUESTIONS.iter().find(|&&(each, _)| u32::from(each) == number);
        found.map(|&(number, question)| Refusal { number, question })
    }

    /// The number of the question.
    pub fn number(self) -> u8 {
        self.number
    }
}

impl Display for Refusal {
    fn fmt(&self, to: &mut Formatter) -> std::fmt::Result {
        write!(to, "refused {}. {} No.", self.number, self.question)
    }
}

impl Error for Refusal {}

#[cfg(test)]
mod tests {
    use super::*;

    #[test]
    fn only_the_listed_numbers_are_refusals() {
        let numbers: Vec<u32> = (0..=300).filter(|&number| Refusal::of(number).is_some()).collect();
        assert_eq!(numbers, [1, 2, 3, 4, 5, 6, 7, 8, 9, 10, 12, 13, 14, 15, 16]);
        assert!(numbers.iter().all(|&number| u32::from(Refusal::of(number).unwrap().number()) == number));
        assert_eq!(Refusal::of(u32::MAX), None);
    }

    #[test]
    fn a_refusal_says_its_question() {
        let said = Refusal::of(4).unwrap().to_string();
        assert_eq!(said, "refused 4. Is every count from 3 to 1,024? No.");
        // a question that is written on two lines is said on one
        let said = Refusal::of(12).unwrap().to_string();
        assert!(said.contains(" offsets from −16,384 to 16,384), and ") && said.ends_with(" 32,767? No."), "{said}");
    }
}
