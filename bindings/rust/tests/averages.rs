//! Averages: worked examples, the edges, and refusal 4.
use onc::{mean, std_dev, variance, Refusal};

const EIGHT: [f64; 8] = [2.0, 4.0, 4.0, 4.0, 5.0, 5.0, 7.0, 9.0];

#[test]
fn worked_examples() {
    assert_eq!(mean(&[1.0, 2.0, 6.0]), Ok(Some(3.0)));
    assert_eq!(mean(&[]), Ok(None));
    assert_eq!(variance(&EIGHT, 0), Ok(Some(4.0)));
    assert_eq!(variance(&[3.0], 1), Ok(None));
    assert_eq!(std_dev(&EIGHT, 0), Ok(Some(2.0)));
    assert_eq!(variance(&EIGHT, 1), Ok(Some(32.0 / 7.0)));
}

#[test]
fn equal_values_are_their_own_mean() {
    assert_eq!(mean(&[0.1; 3]), Ok(Some(0.1)));
    assert_eq!(variance(&[0.1; 3], 0), Ok(Some(0.0)));
    let zero = mean(&[-0.0]).unwrap().unwrap();
    assert_eq!(zero.to_bits(), (-0.0f64).to_bits());
}

#[test]
fn no_average() {
    for call in [variance, std_dev] {
        assert_eq!(call(&[], 0), Ok(None));
        assert_eq!(call(&EIGHT, 8), Ok(None));
        assert_eq!(call(&EIGHT, usize::MAX), Ok(None));
        assert_ne!(call(&EIGHT, 7), Ok(None));
    }
}

#[test]
fn not_a_number_is_an_average() {
    assert!(mean(&[1.0, f64::NAN]).unwrap().unwrap().is_nan());
    assert!(variance(&[f64::INFINITY, 1.0], 0).unwrap().unwrap().is_nan());
    assert!(std_dev(&[f64::NAN; 2], 1).unwrap().unwrap().is_nan());
}

#[test]
fn too_many_values() {
    let values = vec![0.5; 65_537];
    assert_eq!(mean(&values), Err(Refusal::TooLarge));
    assert_eq!(variance(&values, 0), Err(Refusal::TooLarge));
    assert_eq!(std_dev(&values, usize::MAX), Err(Refusal::TooLarge));
    assert_eq!(mean(&values[1..]), Ok(Some(0.5)));
}
