//! The event simulator: document 01's samples, the examples of source document 003, and
//! what holds in every state.

mod orders;

mod users;
mod values;
mod samples;
mod report;
mod points;
mod refusals;
mod runs;
mod steps;
mod cycles;
mod rest;
