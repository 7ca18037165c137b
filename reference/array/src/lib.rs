//! A second implementation of the array and of its simulator, written from the rules in words and from nothing else, so
//! that the proved array can be run against it. The member stores and the two logs are those of the package `logs`.
pub mod array;
pub mod caches;
pub mod examples;
pub mod generate;
pub mod judge;
pub mod kinds;
pub mod layout;
pub mod player;
pub mod random;
pub mod refusal;
pub mod scenario;
