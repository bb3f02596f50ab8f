use crate::raw;
use crate::refusal::{answered, Refusal};

/// What a call of an average answered: how many averages there are, and the one.
fn average(call: impl FnOnce(&mut [f64], &mut [usize]) -> usize) -> Result<Option<f64>, Refusal> {
    let mut average = [0.0];
    let mut answer = [0; 2];
    answered(call(&mut average, &mut answer), 0)?;
    Ok(if answer[1] == 1 { Some(average[0]) } else { None })
}

/// The mean of up to 65,536 values: exact where all are finite with equal bits, else the sum from the left over the count. None of no values.
///
/// ```
/// assert_eq!(onc::mean(&[1.0, 2.0, 6.0]), Ok(Some(3.0)));
/// assert_eq!(onc::mean(&[]), Ok(None));
/// ```
pub fn mean(values: &[f64]) -> Result<Option<f64>, Refusal> {
    average(|out, answer| raw::mean(values, out, answer))
}

/// The variance of up to 65,536 values: the squared differences from the mean, summed from the left, over the count less `ddof`. None where the count
/// is 0 or at most `ddof`.
///
/// ```
/// assert_eq!(onc::variance(&[2.0, 4.0, 4.0, 4.0, 5.0, 5.0, 7.0, 9.0], 0), Ok(Some(4.0)));
/// assert_eq!(onc::variance(&[3.0], 1), Ok(None));
/// ```
pub fn variance(values: &[f64], ddof: usize) -> Result<Option<f64>, Refusal> {
    average(|out, answer| raw::variance(values, ddof, out, answer))
}

/// The standard deviation: the root of the variance, none where there is no variance.
///
/// ```
/// assert_eq!(onc::std_dev(&[2.0, 4.0, 4.0, 4.0, 5.0, 5.0, 7.0, 9.0], 0), Ok(Some(2.0)));
/// ```
pub fn std_dev(values: &[f64], ddof: usize) -> Result<Option<f64>, Refusal> {
    average(|out, answer| raw::std_dev(values, ddof, out, answer))
}
