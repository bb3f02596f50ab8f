//! What the programs that look at whole runs share: a call, what the unchanged Rust answers, and books.
pub mod books;
pub mod call;
pub mod layout;
