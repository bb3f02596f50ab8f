//! Groups four names in two pairs, 0.875 within a pair and 0.125 across, by the seed 42.
use onc::get_onc_clusters_with_seed;

fn main() -> Result<(), onc::Refusal> {
    let names = ["A", "B", "C", "D"];
    let book = [
        1.0, 0.875, 0.125, 0.125, //
        0.875, 1.0, 0.125, 0.125, //
        0.125, 0.125, 1.0, 0.875, //
        0.125, 0.125, 0.875, 1.0,
    ];
    let grouping = get_onc_clusters_with_seed(&book, names.len(), names.len(), 1, 42)?;
    println!("names {} groups {} draws {}", grouping.names(), grouping.len(), grouping.draws_read());
    for (label, group) in grouping.groups().enumerate() {
        let members: Vec<String> = group.iter().map(|&i| format!("{} {:.3}", names[i], grouping.scores()[i])).collect();
        println!("group {label}: {}", members.join(", "));
    }
    Ok(())
}
