//! The model of tests/message, and its messages as C has them.

#[path = "../message/flat.rs"]
pub mod flat;
#[allow(dead_code)]
#[path = "../message/model.rs"]
pub mod model;
