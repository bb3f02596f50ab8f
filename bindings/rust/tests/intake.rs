//! Books in whole millionths: proper ones, each fault of a cell, and each refusal of a shape.
use onc::{check_book, Improper, Refusal};

const ONE: i64 = 1_000_000;

#[test]
fn proper_books() {
    assert_eq!(check_book(&[ONE, -ONE, -ONE, ONE], 2, 2), Ok(()));
    let most: Vec<i64> = (0..256 * 256).map(|c| if c / 256 == c % 256 { ONE } else { 0 }).collect();
    assert_eq!(check_book(&most, 256, 256), Ok(()));
}

#[test]
fn faults_of_cells() {
    let proper = [ONE, 1, 2, 1, ONE, 3, 2, 3, ONE];
    let with = |place: usize, cell: i64| {
        let mut cells = proper;
        cells[place] = cell;
        check_book(&cells, 3, 3).unwrap_err()
    };
    assert_eq!(check_book(&proper, 3, 3), Ok(()));
    assert_eq!(with(2, ONE + 1), Improper::Range { row: 0, col: 2 });
    assert_eq!(with(1, i64::MIN), Improper::Range { row: 0, col: 1 });
    assert_eq!(with(0, -ONE - 1), Improper::Range { row: 0, col: 0 });
    assert_eq!(with(4, ONE - 1), Improper::Diagonal { row: 1, col: 1 });
    assert_eq!(with(5, 4), Improper::Mirror { row: 1, col: 2 });
    assert_eq!(with(7, 4), Improper::Mirror { row: 1, col: 2 });
    assert_eq!(with(6, i64::MAX), Improper::Mirror { row: 0, col: 2 });
    let fault = with(5, 4);
    assert_eq!((fault.number(), fault.cell()), (23, Some((1, 2))));
    assert_eq!(fault.to_string(), "refused 23: the cell in row 1, column 2 is unlike its mirror");
    assert_eq!([with(2, ONE + 1).number(), with(4, 0).number()], [21, 22]);
}

#[test]
fn refusals_of_shapes() {
    let refused = |cells: &[i64], rows, cols| check_book(cells, rows, cols).unwrap_err();
    assert_eq!(refused(&[], 0, 0), Improper::Refused(Refusal::InvalidCorrelationMatrix));
    assert_eq!(refused(&[ONE], 1, 1), Improper::Refused(Refusal::InvalidCorrelationMatrix));
    assert_eq!(refused(&[ONE; 4], 4, 1), Improper::Refused(Refusal::InvalidCorrelationMatrix));
    assert_eq!(refused(&[ONE; 4], 4, 0), Improper::Refused(Refusal::InvalidCorrelationMatrix));
    assert_eq!(refused(&[ONE; 4], 257, 257), Improper::Refused(Refusal::TooLarge));
    assert_eq!(refused(&[], usize::MAX, usize::MAX), Improper::Refused(Refusal::TooLarge));
    assert_eq!(refused(&[ONE; 5], 2, 2), Improper::Refused(Refusal::CellCount));
    let shape = refused(&[ONE; 3], 2, 2);
    assert_eq!((shape.number(), shape.cell()), (5, None));
    assert_eq!(shape.to_string(), Refusal::CellCount.to_string());
}
