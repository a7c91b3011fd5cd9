//! The second interpreter: the script machine of document 01, with the changes of document 02, once
//! more, in plain Rust, written from the papers alone. Points that can be read in two ways follow docs/DECISIONS.md.

#![forbid(unsafe_code)]

pub mod numbers;
pub mod script;

pub mod form;
pub mod reading;

pub mod checks;
pub mod copying;
pub mod machine;
pub mod state;

pub mod layout;
pub mod writing;

pub mod drawing;
pub mod holders;
pub mod lines;
pub mod listing;
pub mod races;
pub mod reach;
pub mod rings;

pub mod console;
pub mod input;

pub mod demand3;
pub mod sheet;
pub mod stripped;

pub mod copy_shapes;
pub mod damage;
pub mod generate;
pub mod graphs;
pub mod histogram;
pub mod loads;
pub mod plain;
pub mod race_loads;
pub mod race_shapes;
pub mod random;
pub mod shapes;
pub mod turns;
