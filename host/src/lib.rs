//! The host side of the reader: a safe wrapper of the C library, a generator
//! of files, the comparisons of the library's answers with the Rust's, and
//! a list of the Rust's answers to be stored.

pub mod access;
pub mod buffer;
pub mod depth;
pub mod expected;
mod ffi;
pub mod generate;
mod guarded;
pub mod lexer;
pub mod library;
mod list;
pub mod output;
pub mod parser;
pub mod random;
pub mod reader;
pub mod run;
pub mod scale;
pub mod shrink;
pub mod tables;
pub mod tally;
pub mod text;
pub mod vectors;
pub mod wrapped;
pub mod zaghdurem;
