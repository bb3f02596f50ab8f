use crate::raw;
use crate::refusal::{answered, Refusal};
use std::error::Error;
use std::fmt;

/// Why a book in whole millionths is not proper. A fault of a cell is that of the first cell row by row.
#[derive(Clone, Copy, Debug, PartialEq, Eq, Hash)]
pub enum Improper {
    /// 2, 4 or 5: the shape is refused.
    Refused(Refusal),
    /// 21: the cell is outside -1,000,000 to 1,000,000.
    Range {
        /// The cell's row.
        row: usize,
        /// The cell's column.
        col: usize,
    },
    /// 22: the cell is on the diagonal and not 1,000,000.
    Diagonal {
        /// The cell's row.
        row: usize,
        /// The cell's column, which is its row.
        col: usize,
    },
    /// 23: the cell is unlike its mirror.
    Mirror {
        /// The cell's row.
        row: usize,
        /// The cell's column.
        col: usize,
    },
}

impl Improper {
    /// The table's number.
    pub fn number(&self) -> usize {
        match self {
            Improper::Refused(refusal) => refusal.number(),
            Improper::Range { .. } => 21,
            Improper::Diagonal { .. } => 22,
            Improper::Mirror { .. } => 23,
        }
    }

    /// Row and column of the cell, where a cell is the cause.
    pub fn cell(&self) -> Option<(usize, usize)> {
        match *self {
            Improper::Refused(_) => None,
            Improper::Range { row, col } | Improper::Diagonal { row, col } | Improper::Mirror { row, col } => Some((row, col)),
        }
    }
}

impl fmt::Display for Improper {
    fn fmt(&self, f: &mut fmt::Formatter<'_>) -> fmt::Result {
        match self {
            Improper::Refused(refusal) => refusal.fmt(f),
            Improper::Range { row, col } => write!(f, "refused 21: the cell in row {row}, column {col} is outside -1,000,000 to 1,000,000"),
            Improper::Diagonal { row, col } => write!(f, "refused 22: the cell in row {row}, column {col} is on the diagonal and not 1,000,000"),
            Improper::Mirror { row, col } => write!(f, "refused 23: the cell in row {row}, column {col} is unlike its mirror"),
        }
    }
}

impl Error for Improper {
    fn source(&self) -> Option<&(dyn Error + 'static)> {
        match self {
            Improper::Refused(refusal) => Some(refusal),
            _ => None,
        }
    }
}

impl From<Refusal> for Improper {
    fn from(refusal: Refusal) -> Improper {
        Improper::Refused(refusal)
    }
}

/// Whether a book in whole millionths is proper: 2 to 256 names, every cell within -1,000,000 to 1,000,000, the diagonal 1,000,000, each cell equal to
/// its mirror.
///
/// ```
/// assert_eq!(onc::check_book(&[1_000_000, 250_000, 250_000, 1_000_000], 2, 2), Ok(()));
/// assert_eq!(onc::check_book(&[1_000_000, 0, 1, 1_000_000], 2, 2), Err(onc::Improper::Mirror { row: 0, col: 1 }));
/// ```
pub fn check_book(cells: &[i64], rows: usize, cols: usize) -> Result<(), Improper> {
    let mut answer = [0; 2];
    let number = raw::check_book(cells, rows, cols, &mut answer);
    // A place is named for a book of its shape alone, so cols is not 0 where it divides.
    let place = answer[1];
    let (row, col) = (place.checked_div(cols).unwrap_or(0), place.checked_rem(cols).unwrap_or(0));
    match number {
        21 => Err(Improper::Range { row, col }),
        22 => Err(Improper::Diagonal { row, col }),
        23 => Err(Improper::Mirror { row, col }),
        _ => Ok(answered(number, place)?),
    }
}
