//! An outside recognizer, and a generator of cases for it.
pub mod generator;
pub mod recognizer;
pub mod records;
