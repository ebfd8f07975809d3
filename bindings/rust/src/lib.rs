#![doc = include_str!("../README.md")]
#![deny(unsafe_code)]
#![warn(missing_docs)]

#[cfg(not(target_pointer_width = "64"))]
compile_error!("the library of the scanner counts in 64 bits");

mod batch;
mod buffers;
mod error;
mod ffi;
mod foreign;
mod kind;
mod lines;
mod numbers;
mod position;
mod refusal;
mod scanner;
mod token;
mod tokens;

pub use batch::{Batch, Lent};
pub use error::{Error, ErrorKind, Errors};
pub use kind::{Kind, NoKind};
pub use position::{Pos, Position};
pub use refusal::Refusal;
pub use scanner::Scanner;
pub use token::Token;
pub use tokens::Tokens;

/// The sources that the unit tests and the other tests share.
#[cfg(test)]
#[path = "../tests/common/sources.rs"]
mod sources;
