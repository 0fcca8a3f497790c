//! The second program: an independent, plain implementation of the task
//! monitor, written from document 01 alone.
//!
//! Its answers are compared with those of the main implementation line by
//! line, and its running time is the baseline for the other's. So it favours
//! the plain way: three parts ([`queues`], [`interval`], [`handlers`]), the
//! monitor that puts them together ([`monitor`]), and the list above them
//! ([`list`]).

#![forbid(unsafe_code)]
#![warn(missing_docs)]

pub mod answer;
pub mod bounds;
pub mod build;
pub mod commands;
pub mod conditions;
pub mod coverage;
pub mod generator;
pub mod handlers;
pub mod hex;
pub mod interval;
pub mod list;
pub mod monitor;
pub mod names;
pub mod piece;
pub mod print;
pub mod queues;
pub mod random;

pub use answer::{Action, Answer};
pub use conditions::Condition;
pub use list::{run, run_into, Refusal};
pub use monitor::Monitor;
