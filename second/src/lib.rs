//! A second, independent player of `rehearse` scripts, with a generator of scripts.
//!
//! A house is its file's bytes, how many of them are durable, and its memory. Nothing that follows
//! from the file is kept: each step asks its questions of the records anew.

pub mod command;
pub mod compare;
pub mod generate;
pub mod history;
pub mod home;
pub mod house;
pub mod limits;
pub mod name;
pub mod order;
pub mod picture;
pub mod play;
pub mod player;
pub mod post;
pub mod random;
pub mod record;
pub mod refusal;
pub mod show;
pub mod special;
pub mod tally;
pub mod words;
