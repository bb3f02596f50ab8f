use std::error::Error;
use std::fmt;

/// Why a call was refused. The numbers are those of the library's table of refusals, and each is returned only for its cause.
///
/// This crate's calls return those whose number is 1 to 5 and 7 to 9; the others belong to calls that are lent lists, labels, groupings or texts.
#[derive(Clone, Copy, Debug, PartialEq, Eq, Hash)]
pub enum Refusal {
    /// 1: no repeats.
    InvalidRepeat,
    /// 2: not square, or under two rows.
    InvalidCorrelationMatrix,
    /// 3: no candidate has a t-stat above -infinity. Never returned: every round has a candidate.
    ClusteringFailed,
    /// 4: over 256 rows, over 64 repeats, or an average of over 65,536 values.
    TooLarge,
    /// 5: the cells are not rows times rows.
    CellCount,
    /// 6: a list of wrong length was lent.
    ListLength,
    /// 7: fewer draws of the caller's own remain than a round needs. Not by a seed.
    TooFewDraws {
        /// The draws read so far.
        read: usize,
    },
    /// 8: a draw of the caller's own is out of range. Not by a seed.
    DrawOutOfRange {
        /// Its place in the list of draws, from 0.
        place: usize,
    },
    /// 9: a 33rd round would start.
    TooManyRounds,
    /// 10: a label, centre or row number is out of range.
    OutOfRange {
        /// The first such place, from 0.
        place: usize,
    },
    /// 11: a text is not in the layout.
    Layout,
    /// 29: a group count is outside 2 to the number of items.
    GroupCount,
    /// 30: a grouping has a name missing or twice, or sizes that leave a gap or do not total the names.
    InvalidGrouping,
}

impl Refusal {
    /// The refusal of this number, with its place where it has one; none where the table has no such number.
    pub fn from_number(number: usize, place: usize) -> Option<Refusal> {
        Some(match number {
            1 => Refusal::InvalidRepeat,
            2 => Refusal::InvalidCorrelationMatrix,
            3 => Refusal::ClusteringFailed,
            4 => Refusal::TooLarge,
            5 => Refusal::CellCount,
            6 => Refusal::ListLength,
            7 => Refusal::TooFewDraws { read: place },
            8 => Refusal::DrawOutOfRange { place },
            9 => Refusal::TooManyRounds,
            10 => Refusal::OutOfRange { place },
            11 => Refusal::Layout,
            29 => Refusal::GroupCount,
            30 => Refusal::InvalidGrouping,
            _ => return None,
        })
    }

    /// The table's number.
    pub fn number(&self) -> usize {
        match self {
            Refusal::InvalidRepeat => 1,
            Refusal::InvalidCorrelationMatrix => 2,
            Refusal::ClusteringFailed => 3,
            Refusal::TooLarge => 4,
            Refusal::CellCount => 5,
            Refusal::ListLength => 6,
            Refusal::TooFewDraws { .. } => 7,
            Refusal::DrawOutOfRange { .. } => 8,
            Refusal::TooManyRounds => 9,
            Refusal::OutOfRange { .. } => 10,
            Refusal::Layout => 11,
            Refusal::GroupCount => 29,
            Refusal::InvalidGrouping => 30,
        }
    }

    /// The table's place, where it names one: the draws read for 7, the place in a list for 8 and 10.
    pub fn place(&self) -> Option<usize> {
        match *self {
            Refusal::TooFewDraws { read } => Some(read),
            Refusal::DrawOutOfRange { place } | Refusal::OutOfRange { place } => Some(place),
            _ => None,
        }
    }
}

impl fmt::Display for Refusal {
    fn fmt(&self, f: &mut fmt::Formatter<'_>) -> fmt::Result {
        write!(f, "refused {}: ", self.number())?;
        match self {
            Refusal::InvalidRepeat => write!(f, "no repeats"),
            Refusal::InvalidCorrelationMatrix => write!(f, "the matrix is not square or has under two rows"),
            Refusal::ClusteringFailed => write!(f, "no candidate has a t-stat above -infinity"),
            Refusal::TooLarge => write!(f, "over 256 rows, over 64 repeats, or an average of over 65,536 values"),
            Refusal::CellCount => write!(f, "the cells are not rows times rows"),
            Refusal::ListLength => write!(f, "a list has the wrong length"),
            Refusal::TooFewDraws { read } => write!(f, "too few draws, after {read} were read"),
            Refusal::DrawOutOfRange { place } => write!(f, "the draw at {place} is out of range"),
            Refusal::TooManyRounds => write!(f, "a 33rd round would start"),
            Refusal::OutOfRange { place } => write!(f, "the label, centre or row number at {place} is out of range"),
            Refusal::Layout => write!(f, "the text is not in the layout"),
            Refusal::GroupCount => write!(f, "the group count is outside 2 to the number of items"),
            Refusal::InvalidGrouping => write!(f, "the grouping has a name missing or twice, or sizes that do not fit"),
        }
    }
}

impl Error for Refusal {}

/// What a call answered, by its number: nothing for 0, else the refusal.
///
/// Each call's contract says by which numbers of the table it refuses, so another number shows that another library was linked: it panics then.
pub(crate) fn answered(number: usize, place: usize) -> Result<(), Refusal> {
    match number {
        0 => Ok(()),
        _ => match Refusal::from_number(number, place) {
            Some(refusal) => Err(refusal),
            None => panic!("the linked library answered {number}, which is no number of the table"),
        },
    }
}
