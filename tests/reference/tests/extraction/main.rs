//! Extraction, lent tables, the cycle run and the cycle book.

mod short;

mod samples;
mod rules;
mod edges;
mod nodes;
mod table;
mod run;
mod book;
mod generator;
