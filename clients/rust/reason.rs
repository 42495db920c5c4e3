//! Why a command is refused because of its records.

/// Why a command is refused because of its records.
#[derive(Clone, Copy, Debug, PartialEq, Eq)]
pub struct Reason {
    /// The number of the refusal, as docs/SCRIPT.md lists them.
    pub refusal: u64,
    /// The item at fault, counted from 1: a line of a batch, a record of a load after its header, 1 for the key of a get or the lower bound of a range, and 2
    /// for the upper one. 0 for the header of a load.
    pub item: u64,
    /// The field of the item, counted from 1, if it is a single one.
    pub field: Option<u64>,
    pub problem: Problem,
}

/// What is wrong with a field, or with a record as a whole. include/betable.h describes each.
#[derive(Clone, Copy, Debug, PartialEq, Eq)]
#[non_exhaustive]
pub enum Problem {
    FieldCount,
    NoInt,
    IntRange,
    TooLong,
    NoText,
    NoFlag,
    NoHex,
    OddDigits,
    NoOperation,
    NoColumn,
    KeyColumn,
    NoIntColumn,
    ManyMessages,
    SecondMark,
    NoHeader,
    OtherName,
    /// A problem that this crate does not know, by its number: the library or the engine is of a later version.
    Unknown(u64),
}

impl Reason {
    /// The reason of the numbers of the refusal, the item, the field and the problem.
    pub(crate) fn of([refusal, item, field, problem]: [u64; 4]) -> Reason {
        let field = if field == 0 { None } else { Some(field) };
        Reason { refusal, item, field, problem: Problem::of(problem) }
    }
}

impl Problem {
    fn of(number: u64) -> Problem {
        use Problem::*;
        const PROBLEMS: [Problem; 16] = [
            FieldCount, NoInt, IntRange, TooLong, NoText, NoFlag, NoHex, OddDigits, NoOperation, NoColumn, KeyColumn, NoIntColumn, ManyMessages, SecondMark,
            NoHeader, OtherName,
        ];
        let place = usize::try_from(number).unwrap_or(0).wrapping_sub(1);
        PROBLEMS.get(place).copied().unwrap_or(Unknown(number))
    }
}
