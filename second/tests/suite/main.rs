//! The tests, in one program.

mod bytes;
mod compare;
mod generator;
mod lines;
mod special;
mod steps;
mod stops;
mod transcript;
mod worked_cases;
