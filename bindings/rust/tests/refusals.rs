//! The table of refusals: numbers, places and messages.
use onc::Refusal;

#[test]
fn numbers_and_places() {
    let numbers = [1, 2, 3, 4, 5, 6, 7, 8, 9, 10, 11, 29, 30];
    for number in 0..64 {
        match Refusal::from_number(number, 5) {
            Some(refusal) => {
                assert!(numbers.contains(&number));
                assert_eq!(refusal.number(), number);
                assert_eq!(refusal.place(), [7, 8, 10].contains(&number).then_some(5));
                assert!(refusal.to_string().starts_with(&format!("refused {number}: ")));
            }
            None => assert!(!numbers.contains(&number), "number {number}"),
        }
    }
}

#[test]
fn a_refusal_is_an_error() {
    let error: Box<dyn std::error::Error + Send + Sync> = Refusal::TooFewDraws { read: 12 }.into();
    assert_eq!(error.to_string(), "refused 7: too few draws, after 12 were read");
    assert_eq!(Refusal::DrawOutOfRange { place: 3 }.to_string(), "refused 8: the draw at 3 is out of range");
}
