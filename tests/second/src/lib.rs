//! A second program for framed Flux messages, written from the papers alone, and the means to
//! call it and the library in the same way.
//!
//! `read`, `stream`, `write`, `tables`, `floor`, `step`, `walk`, `json` and `command` are the
//! program itself, and `path` tells apart from the step where a request goes. `calls` gives the
//! program the shape of the C interface, `library` declares the library's own calls, and `side`
//! puts both behind one type.

pub mod calls;
pub mod command;
#[cfg(test)]
mod command_tests;
pub mod demand3;
#[cfg(test)]
mod fault_tests;
pub mod floor;
pub mod frame;
pub mod json;
#[cfg(test)]
mod json_tests;
pub mod library;
pub mod path;
pub mod read;
pub mod sample;
pub mod side;
pub mod step;
pub mod stream;
#[cfg(test)]
mod stream_tests;
pub mod tables;
pub mod walk;
#[cfg(test)]
mod walk_tests;
pub mod write;
