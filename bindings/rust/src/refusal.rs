//! Why a call has no answer.

use std::fmt;

/// Why a call has no answer.
#[derive(Clone, Copy, Debug, PartialEq, Eq, Hash)]
#[non_exhaustive]
pub enum Refusal {
    /// The price book, or one of the two text books, is not laid out as such a book.
    BrokenBook,
    /// A question or its property list is not laid out as such, its day is not in the calendar, a basket has too many questions, or
    /// one grants names beside a relation.
    BrokenQuestion,
    /// The book does not have the article.
    NoArticle,
    /// The article has no base price on that day, in that quantity.
    NoBaseLine,
    /// A fixed amount is in another currency than the first base line.
    MixedCurrencies,
    /// Adding up the lines, the total went beyond a thousand million cents, up or down.
    TotalOutOfRange,
    /// The lent output is shorter than what is to be written.
    ShortOutput,
    /// The book has no packaging data for the plain article.
    NoPackaging,
    /// The period's end is before its start, or over 1096 days are asked for.
    BadPeriod,
    /// Unused: no call gives it, and no other refusal will have its number.
    ManyStretches,
    /// Packaging data are in different units, or sum up to less than zero.
    UnfitPackaging,
    /// Neither text book has the number.
    NoText,
    /// A line of a price file makes no price record, or a price record of a book makes no line.
    BadRow,
    /// A relation has something that none has at that place, or it ends too early.
    BadRelation,
    /// A condition of a relation has parentheses that are over sixteen deep.
    DeepRelation,
    /// A relation derives a name that no question can grant, or over 32 names.
    UnfitName,
    /// A number that this version of the crate has no word for, from a later library.
    Other(u8),
}

use Refusal::*;

/// Number 1 and on, as the library gives them.
const NUMBERED: [Refusal; 16] = [
    BrokenBook,
    BrokenQuestion,
    NoArticle,
    NoBaseLine,
    MixedCurrencies,
    TotalOutOfRange,
    ShortOutput,
    NoPackaging,
    BadPeriod,
    ManyStretches,
    UnfitPackaging,
    NoText,
    BadRow,
    BadRelation,
    DeepRelation,
    UnfitName,
];

impl Refusal {
    /// The refusal of a number that the library gives; 0 is none, since it says that the call was done.
    pub fn of(number: u8) -> Option<Refusal> {
        let place = number.checked_sub(1)?;
        Some(NUMBERED.get(usize::from(place)).copied().unwrap_or(Other(number)))
    }

    /// Its number.
    pub fn number(self) -> u8 {
        match self {
            Other(number) => number,
            known => NUMBERED.iter().zip(1..).find(|(one, _)| **one == known).map_or(0, |(_, number)| number),
        }
    }
}

/// `Ok` for 0.
pub(crate) fn accepted(number: u8) -> Result<(), Refusal> {
    Refusal::of(number).map_or(Ok(()), Err)
}

impl fmt::Display for Refusal {
    fn fmt(&self, to: &mut fmt::Formatter<'_>) -> fmt::Result {
        to.write_str(match self {
            BrokenBook => "the price book, or one of the text books, is not laid out as such a book",
            BrokenQuestion => {
                "a question or its property list is not laid out as such, its day is not in the calendar, there are too many \
                 questions, or it grants names beside a relation"
            }
            NoArticle => "the book does not have the article",
            NoBaseLine => "the article has no base price on that day, in that quantity",
            MixedCurrencies => "a fixed amount is in another currency than the first base line",
            TotalOutOfRange => "the total went beyond a thousand million cents",
            ShortOutput => "the lent output is too short",
            NoPackaging => "the book has no packaging data for the plain article",
            BadPeriod => "the period's end is no day, or before its start, or too late",
            ManyStretches => "no call gives this number, which is kept unused",
            UnfitPackaging => "packaging data are in different units, or sum up to less than zero",
            NoText => "neither text book has the number",
            BadRow => "a line of the price file makes no price record, or a price record of the book makes no line",
            BadRelation => "the relation has something that no relation has at that place, or it ends too early",
            DeepRelation => "a condition of the relation has parentheses that are over sixteen deep",
            UnfitName => "the relation derives a name that no question can grant, or over 32 names",
            Other(number) => {
                return write!(to, "the library gives refusal {number}, for which this version of the crate has no word")
            }
        })
    }
}

impl std::error::Error for Refusal {}

#[cfg(test)]
mod tests {
    use super::*;

    #[test]
    fn each_number_has_its_refusal() {
        assert_eq!(Refusal::of(0), None);
        for number in 1..=u8::MAX {
            assert_eq!(Refusal::of(number).map(Refusal::number), Some(number));
        }
    }

    #[test]
    fn a_number_of_a_later_library_is_told() {
        assert_eq!(accepted(0), Ok(()));
        assert_eq!(accepted(16), Err(UnfitName));
        assert_eq!(accepted(200), Err(Other(200)));
        assert_eq!(Other(200).to_string(), "the library gives refusal 200, for which this version of the crate has no word");
    }
}
