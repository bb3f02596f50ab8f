//! Checks books in whole millionths before anything is worked out from them.
use onc::check_book;

fn main() {
    let books: [(&str, [i64; 4]); 3] = [
        ("proper", [1_000_000, 250_000, 250_000, 1_000_000]),
        ("a slip", [1_000_000, 250_000, 250_001, 1_000_000]),
        ("a percentage", [1_000_000, 25_000_000, 25_000_000, 1_000_000]),
    ];
    for (what, cells) in books {
        match check_book(&cells, 2, 2) {
            Ok(()) => println!("{what}: proper"),
            Err(improper) => println!("{what}: {improper}"),
        }
    }
}
