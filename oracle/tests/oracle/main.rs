//! Tests of the oracle against the words of 01.

mod checks;
mod common;
mod figures;
mod group;
mod ledger;
mod long;
mod memory;
mod nudges;
mod observer;
mod order;
mod poll;
mod programs;
mod reasons;
mod rehearsing;
mod replaying;
mod round_trips;
mod samples;
mod season;
mod wider;
mod words;
