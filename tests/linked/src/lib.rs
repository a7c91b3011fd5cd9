//! The compiled box against the second interpreter: answers, tables and time.

pub mod agree;
pub mod bench;
pub mod chart;
pub mod corpus;
pub mod drawings;
pub mod finder;
pub mod full;
pub mod graph;
pub mod holders;
pub mod host;
pub mod lent;
pub mod library;
pub mod races;
pub mod reports;
pub mod runs;
pub mod tables;
pub mod writes;
