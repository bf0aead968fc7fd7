//! A second ledger, and a program that holds the drill to it in random orders.
//!
//! It is written from the rules alone and shares nothing with the program it
//! judges. `ledger`, `refusals` and `sound` are a plain ledger over `frame`,
//! and `drill` prints what a drill has to print. `honest`, `hostile` and
//! `damaged` make inputs; `program` runs the drill over them, `compare`
//! compares every byte, and `rounds` does so many times. `postings` judges
//! honest runs by the drill's output alone, and `mistake` holds the
//! mistakes with which the comparison itself is tried.

pub mod compare;
pub mod damaged;
pub mod drill;
pub mod frame;
pub mod honest;
pub mod hostile;
pub mod ledger;
pub mod mistake;
pub mod postings;
pub mod program;
pub mod record;
pub mod refusals;
pub mod rng;
pub mod rounds;
pub mod sound;
