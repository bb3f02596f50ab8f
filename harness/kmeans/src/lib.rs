//! Calls of the three k-means leaves, made up or chosen, and what the unchanged Rust answers to them.
pub mod books;
pub mod draws;
pub mod leaf;
pub mod lent;
pub mod random;
