//! An independent implementation of document 01, written from the papers alone.
//! The proved library is held against it.

pub mod module;
pub mod sheet;
pub mod encode;
pub mod pseudocode;
pub mod value;
pub mod state;
pub mod machine;
pub mod simulator;
pub mod cycles;
pub mod dispatch;
pub mod text;
pub mod extraction;
pub mod values;
pub mod compiler;
pub mod book;
pub mod saved;
pub mod replay;
pub mod calls;

pub mod samples;
pub mod limits;
pub mod random;
pub mod functions;
pub mod runs;
pub mod generate;
pub mod mutate;
pub mod census;

pub mod build;
pub mod examples;
pub mod operators;
pub mod lively;
pub mod extractable;
pub mod refused;
pub mod states;
pub mod lanes;
pub mod damage;
pub mod script;
pub mod tally;
pub mod differ;
pub mod holding;
pub mod order;
pub mod scattered;
pub mod work;
pub mod written;

pub mod stimulus;
pub mod verilog;
pub mod trace;
pub mod icarus;
pub mod second;

#[cfg(feature = "proved")]
pub mod library;
