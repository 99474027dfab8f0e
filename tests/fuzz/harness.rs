//! The fuzzer's harness: any bytes are events on a master, a pool, a message, blocks of a stored sequence or a shown value; they are done on the
//! library and on the models of the other tests, all that both give is compared, and the promises of documents 01 and 02 are checked on what the
//! library gives.
//!
//! An engine calls `LLVMFuzzerTestOneInput`: libFuzzer, or the driver of driver.rs where that is not to be had.

#![deny(warnings)]

#[allow(dead_code)]
#[path = "../master/blocks.rs"]
mod blocks;
#[allow(dead_code)]
#[path = "../pool/model.rs"]
mod check;
mod counters;
#[allow(dead_code)]
#[path = "../master/coverage.rs"]
mod coverage;
mod decode;
mod entry;
#[allow(dead_code)]
#[path = "../master/event.rs"]
mod event;
#[allow(dead_code)]
#[path = "../master/facts.rs"]
mod facts;
#[allow(dead_code)]
#[path = "../pool/generate.rs"]
mod generate;
#[allow(dead_code)]
#[path = "../master/kept.rs"]
mod kept;
#[allow(dead_code)]
#[path = "../master/library.rs"]
mod library;
mod message;
mod message_model;
#[allow(dead_code)]
#[path = "../master/messages.rs"]
mod messages;
#[allow(dead_code)]
#[path = "../master/model.rs"]
mod model;
#[path = "../objects/model.rs"]
mod object_model;
mod objects;
mod pair;
#[allow(dead_code)]
#[path = "../master/playback.rs"]
mod playback;
mod pools;
mod printed;
#[allow(dead_code)]
#[path = "../master/promises.rs"]
mod promises;
#[allow(dead_code)]
#[path = "../master/recording.rs"]
mod recording;
#[allow(dead_code)]
#[path = "../master/render.rs"]
mod render;
#[allow(dead_code)]
#[path = "../master/samples.rs"]
mod samples;
mod seeds;
#[allow(dead_code)]
#[path = "../master/stored.rs"]
mod stored;
mod storing;
mod taken;
#[allow(dead_code)]
#[path = "../master/verification.rs"]
mod verification;

pub use counters::counters;
pub use entry::{events, met, one_input, replay, LLVMFuzzerTestOneInput};
pub use seeds::seeds;
