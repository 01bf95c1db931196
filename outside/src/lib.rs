//! A second opinion on document 01 ("The show key") and requests 2.1 to 2.3, 2.5
//! and 2.6.
//!
//! * [`model`] is the paper itself, written from the paper alone: setup, the
//!   families of request sets, one event, and the player of texts.
//! * [`schedule`], [`rigs`], [`texts`] and [`damage`] make texts to play.
//! * [`compare`] plays each text with the model and with another player and
//!   compares every byte; [`measure`] times the model and one or two players.
//! * [`plan`] is the program that prints a family's sets, [`calls`] and
//!   [`vote_calls`] are words to call it with, and [`plan_compare`] compares
//!   another one.
//! * [`saved`] writes and reads the text of a state, [`state`] is the program
//!   that saves and goes on, [`strange`] makes states that no run reaches,
//!   [`state_calls`] are calls of it, and [`state_compare`] compares another.
//! * [`faults`], [`set_faults`], [`plan_faults`], [`vote_faults`] and
//!   [`state_faults`] plant known faults, to see that the comparers find them.

pub mod calls;
pub mod census;
pub mod compare;
pub mod damage;
pub mod faults;
pub mod measure;
pub mod model;
pub mod options;
pub mod plan;
pub mod plan_compare;
pub mod plan_faults;
pub mod random;
pub mod rigs;
pub mod saved;
pub mod saved_damage;
pub mod schedule;
pub mod set_faults;
pub mod shrink;
pub mod state;
pub mod state_calls;
pub mod state_compare;
pub mod state_faults;
pub mod strange;
pub mod subject;
pub mod texts;
pub mod vote_calls;
pub mod vote_faults;
