//! The limit of the design: what plain Rust does with the proved program's layout of documents.

mod escapes;
pub mod joins;
pub mod lines;
mod names;
mod page;
pub mod patterns;
pub mod reader;
pub mod rows;
pub mod store;
pub mod text;
