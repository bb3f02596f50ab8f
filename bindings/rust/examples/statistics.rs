//! Mean, variance and standard deviation, and what there is not.
use onc::{mean, std_dev, variance};

fn main() -> Result<(), onc::Refusal> {
    let values = [2.0, 4.0, 4.0, 4.0, 5.0, 5.0, 7.0, 9.0];
    println!("mean {:?}", mean(&values)?);
    println!("variance {:?}", variance(&values, 0)?);
    println!("standard deviation {:?}", std_dev(&values, 0)?);
    println!("mean of nothing {:?}", mean(&[])?);
    match mean(&vec![1.0; 65_537]) {
        Err(refusal) => println!("mean of 65,537 values: {refusal}"),
        Ok(found) => println!("mean of 65,537 values {found:?}"),
    }
    Ok(())
}
