//! Charts in plain Rust, beside the proved library: what the benchmark and the differential test
//! share.
pub mod by_value;
pub mod charts;
pub mod exported;
pub mod kinds;
pub mod lines;
pub mod plain;
pub mod random;
pub mod rounds;
