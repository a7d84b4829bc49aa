//! Walbryts: a clock-edge compiler and event simulator for a small synthesizable Verilog, proved
//! in full. This crate is a safe interface to the proved library's C functions.
//!
//! A module comes as Verilog text ([`Sheet::from_verilog`], [`names`]) or as a [`Sheet`] of bytes
//! ([`Sheet::read`], [`Sheet::from_hex`]), which is read whole or refused with a number and a place. From there it goes two ways, which a theorem says agree in every module that extraction
//! accepts:
//!
//! - by events: [`Sheet::start`] gives a [`State`]; [`Sheet::choose`], [`Sheet::run`],
//!   [`Sheet::run_plain`] and [`Sheet::instant`] take it further, [`Sheet::run_cycles`] whole
//!   clock cycles at once; up to four users step one state, each counted for itself;
//!   [`State::save`] and [`State::load`] keep it;
//! - by expressions: [`Sheet::extract`] gives [`Tables`] of what every register becomes at a
//!   clock edge, with which [`Sheet::cycle`] and [`Sheet::cycles`] run clock cycles.
//!
//! Each of these calls prepares the sheet anew. For many calls on one sheet [`Sheet::prepare`]
//! gives a [`Plan`], and [`Sheet::prepare_tables`] a [`ClockPlan`], with the same calls, and with
//! [`Trace`]s: many cycles in one call, and what every one of them left.
//!
//! The flip-flop, by events and by expressions:
//!
//! ```
//! use walbryts::{Inputs, Registers, Sheet, USERS, Value, Verdict};
//!
//! let sheet = Sheet::read(&[2, 1, 0, 1, 1, 8, 8, 0x0C, 0x10, 1, 1, 0, 0x23, 2, 2, 1])?;
//! assert_eq!(sheet.list(), "threads 1\n0 0 wait 1 0\n0 1 later 2 v1\n0 2 go 0\n");
//!
//! let mut state = sheet.start([u32::MAX; USERS]); // how many choices each user may take
//! sheet.run_plain(&mut state, 0, 1000)?; // every wire is due at the start; user 0 runs
//! for clock in [0, 1] {
//!     sheet.instant(&mut state, &Inputs::from([clock, 5]))?;
//!     assert_eq!(sheet.run_plain(&mut state, 0, 1000)?.verdict, Verdict::Quiet);
//! }
//! assert_eq!(state.value(sheet.register(0)), Value::known(5));
//!
//! let tables = sheet.extract()?;
//! let mut registers = Registers::start(&sheet);
//! sheet.cycle(&tables, &mut registers, &Inputs::from([5]))?;
//! assert_eq!(registers.value(0), Value::known(5));
//! # Ok::<(), walbryts::Refusal>(())
//! ```
//!
//! A refused call alters nothing and says why by a [`Refusal`], whose number is document 01's.

#![deny(missing_docs)]

mod raw;
mod value;
mod refusal;
mod sheet;
mod inputs;
mod state;
mod simulation;
mod expressions;
mod trace;
mod plan;
mod clock;
mod dispatcher;
mod text;
mod words;

pub use clock::ClockPlan;
pub use dispatcher::{Record, dispatch};
pub use expressions::{Cycles, NODE_WORDS, ROW_WORDS, Registers, Tables, Wires};
pub use inputs::{Inputs, Rows};
pub use plan::Plan;
pub use refusal::{Reason, Refusal};
pub use sheet::{Sheet, list};
pub use simulation::{COMMIT, CycleRuns, PlainRun, Run, Verdict};
pub use state::{NotSaved, SAVED, State, USERS};
pub use text::{MOST_TEXT, names};
pub use trace::Trace;
pub use value::Value;
pub use words::{NoSheet, Witness};
