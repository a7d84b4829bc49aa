//! Document 02, [5]: sheets with functions, which are read here whatever the feature `functions` says.

mod short;
mod reading;
mod worth;
mod nodes;
mod runs;
mod order;
mod vectors;
