//! The library, for a program outside the harness that builds on the master's model: the same as tests/library.rs. Link it with tests/header.c.

#[path = "../library.rs"]
mod shared;

pub use shared::*;
