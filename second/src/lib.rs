//! An independent reading of the rules: plain geometry over all segments beside a strip tree with its own walks.
//! The binary answers question files; tests elsewhere hold the proved library against these functions.

pub mod check;
pub mod generate;
pub mod geometry;
pub mod old;
pub mod program;
pub mod tree;
pub mod walk;
