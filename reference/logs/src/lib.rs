//! A second implementation of the ring log and the flag log, written from the rules in words and from nothing else,
//! so that the proved logs can be run against it.
pub mod device;
pub mod edges;
pub mod generate;
pub mod log;
pub mod record;
pub mod script;
